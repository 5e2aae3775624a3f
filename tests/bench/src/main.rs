//! Times the proved code, without its contracts, and the model on the same meshes, side by side.
//! With --deep N it compares them on meshes with leaves of depth 60 instead.

mod calls;
mod cases;
mod deep;
mod mesh;
mod race;
mod report;
mod sides;

use cases::{any_rows, case, hundred, Case};
use mesh::{grid, hub};
use report::Report;

/// Grids that are opened, of about 1,000 to 97,500 elements.
const OPENED: [[usize; 3]; 5] = [
    [5, 6, 6],
    [8, 8, 8],
    [12, 12, 12],
    [17, 17, 17],
    [25, 25, 26],
];
/// Grids of which all elements are marked; they have about 1,000 to 96,000 rows then.
const ALL: [[usize; 3]; 5] = [[3, 3, 4], [4, 5, 5], [6, 7, 7], [9, 10, 10], [14, 14, 15]];
/// Grids refined twice, of which a tenth of the leaves is marked; about 1,300 to 94,600 rows then.
const TENTH: [[usize; 3]; 5] = [[2, 2, 3], [3, 3, 3], [4, 4, 4], [5, 6, 6], [8, 8, 8]];
/// Rows of any numbers.
const ANY: usize = 100_000;
/// Squares along a side of the plane under the hub: 20,000 elements.
const HUB: usize = 100;
/// Lampethor's working memory lies on the stack, up to 4 MB.
const STACK: usize = 64 << 20;

fn opened(report: &mut Report) {
    for size in OPENED {
        let input = grid(size);
        report.line("open a grid", input.elements.len() / 4, calls::open(&input));
    }
    for size in OPENED {
        let mesh = case(&grid(size), 0, u64::MAX).after;
        report.line("check an opened grid", mesh.counts.1, calls::check(&mesh));
    }
}

/// Rows afterwards, the marks in one call or in a hundred.
fn refine(report: &mut Report, work: &'static str, case: &Case, lists: &[&[u32]]) {
    report.line(
        work,
        case.after.counts.1,
        calls::refine(&case.before, lists),
    );
}

fn refined(report: &mut Report) {
    for size in ALL {
        let all = case(&grid(size), 0, 1);
        refine(
            report,
            "refine all of a grid, one call",
            &all,
            &[&all.marks],
        );
    }
    let tenths = TENTH.map(|size| case(&grid(size), 2, 10));
    for tenth in &tenths {
        refine(report, "refine a tenth, one call", tenth, &[&tenth.marks]);
    }
    for tenth in &tenths {
        let lists = hundred(&tenth.marks);
        refine(report, "refine a tenth, a hundred calls", tenth, &lists);
    }
    for Case { after, .. } in &tenths {
        report.line("check a refined grid", after.counts.1, calls::check(after));
    }
    for Case { after, .. } in &tenths {
        report.line("list a refined grid", after.counts.1, calls::list(after));
    }
    for Case { after, .. } in &tenths {
        report.line(
            "split each row of a refined grid",
            after.counts.1,
            calls::split(after),
        );
    }
    let any = any_rows(ANY);
    report.line("split rows of any numbers", ANY, calls::split(&any));
}

/// A vertex in all elements.
fn hubs(report: &mut Report, first: bool, [open, one, check]: [&'static str; 3]) {
    let input = hub(HUB, first);
    let tenth = case(&input, 0, 10);
    report.line(open, tenth.before.counts.1, calls::open(&input));
    refine(report, one, &tenth, &[&tenth.marks]);
    report.line(check, tenth.after.counts.1, calls::check(&tenth.after));
}

fn bench() {
    let mut report = Report::begin();
    opened(&mut report);
    refined(&mut report);
    // Once older than all other vertices and once younger: sides may prefer the one or the other.
    let works = [
        "open, hub first",
        "refine a tenth, hub first",
        "check, hub first",
    ];
    hubs(&mut report, true, works);
    let works = [
        "open, hub last",
        "refine a tenth, hub last",
        "check, hub last",
    ];
    hubs(&mut report, false, works);
    report.end();
}

fn work() {
    let words: Vec<String> = std::env::args().skip(1).collect();
    match &words[..] {
        [] => bench(),
        [word, number] if word == "--deep" => deep::compare(number.parse().expect("no number")),
        _ => panic!("bench [--deep N]"),
    }
}

fn main() {
    let run = std::thread::Builder::new().stack_size(STACK).spawn(work);
    run.expect("no thread").join().expect("the bench failed");
}
