//! Number 11 (document 02, L9): Lampethor beside the model on meshes with leaves of depth 60, the
//! whole tables by their bits. The model refuses where its closure comes to split such a leaf, as
//! document 01 has it; Lampethor asks for a marked one, and so does the test here. After each call
//! the leaves are listed on both sides (document 02, L1): the program's text has no level above 1.

use crate::cases::Random;
use crate::mesh::{grid, hub, Counts, Input, Mesh};
use crate::sides::{Lampethor, Listing, Model, Refusal, Side};
use tables::layout::ROW;

const ROOM: Counts = (8_000, 40_000);
const DEEPEST: u32 = 60;
/// Calls on each mesh.
const CALLS: usize = 500;

/// Elements round the edge of vertices 0 and 1; three of them are W7's.
fn ring(elements: u32) -> Input {
    let element = |k: u32| [0, 1, 2 + k, 2 + (k + 1) % elements];
    let place = |v: u32| [v as f64, (v * v) as f64, (v % 3) as f64];
    Input {
        coordinates: (0..2 + elements).flat_map(place).collect(),
        elements: (0..elements).flat_map(element).collect(),
    }
}

fn depth(mesh: &Mesh, r: u32) -> u32 {
    mesh.rows[ROW * r as usize + 7]
}

/// Leaves of this depth or more.
fn deep_leaves(mesh: &Mesh, least: u32) -> Vec<u32> {
    let mut leaves = mesh.leaves();
    leaves.retain(|&r| depth(mesh, r) >= least);
    leaves
}

/// Refines a deepest leaf, and at times any, until one has depth 60.
fn deepened(random: &mut Random, input: &Input) -> Mesh {
    let mut mesh = Mesh::lent(ROOM);
    Model::open(input, &mut mesh).expect("opening refused");
    let mut most = 0;
    while most < DEEPEST {
        let least = if random.below(4) == 0 { 0 } else { most };
        let mark = random.of(&deep_leaves(&mesh, least));
        Model::refine(&mut mesh, &[mark]).expect("refining refused");
        most = (0..mesh.counts.1 as u32)
            .map(|r| depth(&mesh, r))
            .max()
            .unwrap_or(0);
    }
    mesh
}

/// Some rows, half of them among the deepest leaves, and at times one that is not there.
fn marks(random: &mut Random, mesh: &Mesh) -> Vec<u32> {
    let least = DEEPEST - random.below(4) as u32;
    let deep = deep_leaves(mesh, least);
    let mut mark = || match random.below(2) {
        0 => random.of(&deep),
        _ => random.below(mesh.counts.1 + mesh.counts.1 / 64) as u32,
    };
    let marks = [mark(), mark(), mark()];
    marks[random.below(3)..].to_vec()
}

/// The mesh with all room or hardly any, and at times with one number of a row spoiled.
fn lent(random: &mut Random, mesh: &Mesh) -> Mesh {
    let mut lent = mesh.clone();
    if random.below(2) == 0 {
        let more = (random.below(8), random.below(32));
        lent = lent.with_room((mesh.counts.0 + more.0, mesh.counts.1 + more.1));
    }
    if random.below(8) == 0 {
        let place = random.below(ROW * mesh.counts.1);
        lent.rows[place] = random.below(64) as u32;
    }
    lent
}

/// Whether 11 is due: sound tables, all marks rows, and one of them a leaf of depth 60.
fn due(mesh: &Mesh, marks: &[u32]) -> bool {
    let there = |&r: &u32| (r as usize) < mesh.counts.1;
    let deep = deep_leaves(mesh, DEEPEST);
    Model::check(mesh) && marks.iter().all(there) && marks.iter().any(|r| deep.contains(r))
}

fn number<T>(answer: Result<T, Refusal>) -> usize {
    answer.map_or_else(|(number, _)| number as usize, |_| 0)
}

/// One call on both sides; answers the number, 0 where it is done, and the mesh after it.
fn call(before: &Mesh, marks: &[u32]) -> (usize, Mesh) {
    let (mut ours, mut theirs) = (before.clone(), before.clone());
    let answer = Lampethor::refine(&mut ours, marks);
    assert_eq!(
        answer,
        Model::refine(&mut theirs, marks),
        "the two sides differ"
    );
    assert!(ours == theirs, "the tables differ");
    let number = number(answer);
    assert_eq!(number == 11, due(before, marks), "11 for another cause");
    (number, ours)
}

/// The leaves listed on both sides, one list in eight too short by one; answers the number.
fn list(random: &mut Random, mesh: &Mesh, levels: &mut [usize]) -> usize {
    let mut room = || vec![1; mesh.leaves().len() + random.below(8) - 1];
    let mut ours = Listing {
        rows: room(),
        levels: room(),
        number: 0,
    };
    let mut theirs = ours.clone();
    let answer = Lampethor::list(mesh, &mut ours);
    assert_eq!(
        answer,
        Model::list(mesh, &mut theirs),
        "the two sides differ"
    );
    assert!(ours == theirs, "the lists differ");
    for &level in &ours.levels[..ours.number] {
        levels[level as usize] += 1;
    }
    number(answer)
}

/// Prints how many answers had each number.
fn show(what: &str, seen: &[usize]) {
    for (number, times) in seen.iter().enumerate().filter(|(_, &times)| times > 0) {
        println!("{times} {what} {number}");
    }
}

/// At least so many calls, each followed by a listing.
pub fn compare(least: usize) {
    let mut random = Random(1);
    let mut inputs = vec![
        grid([1, 1, 1]),
        grid([2, 1, 1]),
        hub(2, true),
        hub(2, false),
    ];
    inputs.extend((3..9).map(ring));
    let (mut seen, mut listed, mut levels) = ([0; 12], [0; 12], [0; 21]);
    let mut made = 0;
    while made < least {
        let input = random.below(inputs.len());
        let mesh = deepened(&mut random, &inputs[input]);
        for _ in 0..CALLS {
            let before = lent(&mut random, &mesh);
            let marks = marks(&mut random, &mesh);
            let (number, after) = call(&before, &marks);
            seen[number] += 1;
            listed[list(&mut random, &after, &mut levels)] += 1;
        }
        made += CALLS;
    }
    show("calls answered", &seen);
    show("listings answered", &listed);
    show("leaves listed with level", &levels);
    println!("{made} calls, no difference");
}
