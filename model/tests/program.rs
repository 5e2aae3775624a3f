//! "The program": the printed example and what is well formed.

use model::program;

const POINTS: &str = "V 0000000000000000 0000000000000000 0000000000000000
V 3ff0000000000000 0000000000000000 0000000000000000
V 0000000000000000 3ff0000000000000 0000000000000000
V 0000000000000000 0000000000000000 3ff0000000000000
";

/// Written with spaces for tabs.
fn run(input: &str) -> String {
    let output = program(input.replace(' ', "\t").as_bytes()).output;
    String::from_utf8(output).unwrap().replace('\t', " ")
}

/// The C line of the points with more lines after them.
fn after_points(lines: &str) -> String {
    let output = run(&format!("{POINTS}{lines}"));
    output.lines().next().unwrap().to_string()
}

#[test]
fn printed_example() {
    let expected = "C 0 5 3 1
P 4 2 3 0000000000000000 3fe0000000000000 3fe0000000000000
L 1 0 1 1 2 3 0 1 4
L 2 0 1 1 2 0 1 2 4
";
    assert_eq!(run(&format!("{POINTS}T 0 1 2 3\nM 0\n")), expected);
}

#[test]
fn fewer_lines() {
    assert_eq!(run(""), "C 1 0 0 0\n");
    assert_eq!(after_points(""), "C 1 0 0 0");
    assert_eq!(after_points("M 0\n"), "C 1 0 0 0");
    assert_eq!(run("T 0 1 2 3\n"), "C 4 0 0 0\n");
    assert_eq!(after_points("T 0 1 2 3\n"), "C 0 4 1 0");
}

/// Each of these in front of the T line is refused.
const NOT_WELL_FORMED: [&str; 28] = [
    "",
    " ",
    "T",
    "T 0 1 2",
    "T 0 1 2 3 ",
    "T 0 1 2 3 4",
    "T 0  1 2 3",
    " T 0 1 2 3",
    "T 00 1 2 3",
    "T 01 1 2 3",
    "T 100000 1 2 3",
    "T +1 1 2 3",
    "T -0 1 2 3",
    "T 0 1 2 3\r",
    "T 0 1 2 3\0",
    "t 0 1 2 3",
    "TT 0 1 2 3",
    "T 0 1 2 0x3",
    "M",
    "M 0 1",
    "M 1.0",
    "X 1",
    "V 0000000000000000 0000000000000000",
    "V 0000000000000000 0000000000000000 000000000000000",
    "V 3FF0000000000000 0000000000000000 0000000000000000",
    "V 00000000000000000 0000000000000000 0000000000000000",
    "# comment",
    "\u{feff}T 0 1 2 3",
];

#[test]
fn not_well_formed() {
    for line in NOT_WELL_FORMED {
        assert_eq!(
            after_points(&format!("{line}\nT 0 1 2 3\n")),
            "C 12 5 0 0",
            "{line:?}"
        );
    }
    assert_eq!(run("V\r\n"), "C 12 1 0 0\n");
    assert_eq!(after_points("T 0 1 2 3\nM 0"), "C 12 6 0 0");
    assert_eq!(after_points("T 0 1 2 3\nM 0\n\n"), "C 12 7 0 0");
    assert_eq!(after_points("T 99999 1 2 3\n"), "C 4 0 0 0");
}

#[test]
fn order_of_records() {
    let vertex = POINTS.lines().next().unwrap();
    assert_eq!(
        after_points(&format!("T 0 1 2 3\n{vertex}\n")),
        "C 12 6 0 0"
    );
    assert_eq!(after_points("M 0\nT 0 1 2 3\n"), "C 12 6 0 0");
    assert_eq!(after_points(&format!("M 0\n{vertex}\n")), "C 12 6 0 0");
}

#[test]
fn too_many_lines() {
    let vertex = format!("{}\n", POINTS.lines().next().unwrap());
    let many = vertex.repeat(256);
    assert_eq!(run(&format!("{many}{vertex}V\n")), "C 13 257 0 0\n");
    assert_eq!(run(&format!("{many}V\n{vertex}")), "C 12 257 0 0\n");
    assert_eq!(
        run(&format!("{many}{}", vertex.trim_end())),
        "C 12 257 0 0\n"
    );
    assert_eq!(run(&format!("{many}T 0 1 2 3\n{vertex}")), "C 12 258 0 0\n");
    assert_eq!(after_points(&"T 0 1 2 3\n".repeat(257)), "C 13 261 0 0");
    let marks = "M 9\n".repeat(256);
    assert_eq!(after_points(&format!("T 0 1 2 3\n{marks}")), "C 10 0 0 0");
    assert_eq!(
        after_points(&format!("T 0 1 2 3\n{marks}M 9\n")),
        "C 13 262 0 0"
    );
}

#[test]
fn refusals_are_printed_with_their_place() {
    assert_eq!(after_points("T 0 1 1 2\nT 0 1 2 9\n"), "C 4 1 0 0");
    assert_eq!(after_points("T 0 1 2 3\nT 0 1 3 2\n"), "C 6 1 0 0");
    assert_eq!(after_points("T 0 1 2 3\nM 0\nM 1\n"), "C 10 1 0 0");
    let nan = "V 7ff8000000000000 0000000000000000 0000000000000000\n";
    assert_eq!(run(&format!("{POINTS}{nan}T 0 1 2 9\n")), "C 3 4 0 0\n");
    assert_eq!(run(&format!("{POINTS}{nan}T 0 1 2 9\nM\n")), "C 12 7 0 0\n");
}
