//! Stock inputs: every rule of the text and every limit of a coordinate once, whatever the seed.

use crate::coordinates::{LEGAL, REFUSED};

/// Two elements at a face, both marked; spaces stand for tabs.
const TEMPLATE: &str = "V 0000000000000000 0000000000000000 0000000000000000
V 3ff0000000000000 0000000000000000 0000000000000000
V 0000000000000000 3ff0000000000000 0000000000000000
V 0000000000000000 0000000000000000 3ff0000000000000
V 3ff0000000000000 3ff0000000000000 3ff0000000000000
T 0 1 2 3
T 1 2 3 4
M 0
M 1
";

/// What is put in place of what in the template; `~` stands for a space that stays one.
const EDITS: [(&str, &str); 74] = [
    ("", ""),
    ("T 0", "T 00"),
    ("3 4", "3 04"),
    ("M 0", "M 00"),
    ("M 1", "M 01"),
    ("T 0", "T 100000"),
    ("3 4", "3 100000"),
    ("3 4", "3 99999"),
    ("3 4", "3 5"),
    ("M 1", "M 100000"),
    ("M 1", "M 000001"),
    ("M 1", "M 99999"),
    ("M 1", "M 2"),
    ("M 0", "M 2"),
    ("M 1", "M 4294967296"),
    ("M 1", "M 18446744073709551617"),
    ("T 0", "T +0"),
    ("T 0", "T -0"),
    ("M 1", "M +1"),
    ("M 1", "M -1"),
    ("M 1", "M 1.0"),
    ("M 1", "M 0x1"),
    ("M 1", "M a"),
    ("M 1", "M \u{661}"),
    ("M 1", "M "),
    ("M 1", "M"),
    ("M 1", "M 1 "),
    ("M 1", "M 1 0"),
    ("M 1", "M  1"),
    ("M 1", " M 1"),
    ("M 1", "M~1"),
    ("M 1", "M ~1"),
    ("M 1", "M 1~"),
    ("M 1", "m 1"),
    ("M 1", "MM 1"),
    ("M 1", "M 1\r"),
    ("M 1", "M 1\0"),
    ("M 1", "\0M 1"),
    ("M 1\n", "M 1"),
    ("M 1\n", "M 1\n\n"),
    ("M 1\n", "M 1\nM"),
    ("M 1\n", "M 1\n~"),
    ("M 1\n", "M 1\nM 1"),
    ("M 0\n", "\nM 0\n"),
    ("M 0\n", "# comment\nM 0\n"),
    ("M 0\n", "M 0\rM 0\n"),
    ("M 0\n", "M 0\nT 0 1 2 3\n"),
    ("M 0\n", "M 0\nT 2 3 4 0\n"),
    ("T 1", "M 0\nT 1"),
    (
        "T 1",
        "V 0000000000000000 0000000000000000 0000000000000000\nT 1",
    ),
    (
        "M 1",
        "V 0000000000000000 0000000000000000 0000000000000000\nM 1",
    ),
    ("T 0 1 2 3\n", "T 0 1 2 3\r\n"),
    ("T 0 1 2 3\n", "T 0 1 2\n"),
    ("T 0 1 2 3\n", "T 0 1 2 3 4\n"),
    ("T 0 1 2 3\n", "T 0 1 2 3 \n"),
    ("T 0 1 2 3\n", "T 0 1  3\n"),
    ("T 0 1 2 3\n", "T 0 1 2~3\n"),
    ("T 0 1 2 3\n", "t 0 1 2 3\n"),
    ("T 0 1 2 3\n", "T 0 1 1 3\n"),
    ("T 1 2 3 4\n", "T 3 2 1 0\n"),
    ("T 1 2 3 4\n", "T 1 2 3 4\nT 1 2 0 3\n"),
    (
        "T 0 1 2 3\n",
        "T 0 1 2 3\nT 4 3 2 1\nT 1 3 3 2\nT 9 1 2 3\n",
    ),
    ("3ff", "3FF"),
    ("3ff", "3fg"),
    ("3ff", "0x3ff"),
    ("3ff0", "3ff"),
    ("3ff0", "3ff00"),
    ("3ff0", "3ff~"),
    ("V 3", "V  3"),
    ("V 3", "v 3"),
    ("V 3", "\u{feff}V 3"),
    ("V 0000000000000000 3", "V 3"),
    (
        "3ff0000000000000\nT",
        "3ff0000000000000 0000000000000000\nT",
    ),
    ("3ff0000000000000\nT", "3ff0000000000000\r\nT"),
];

/// Well formed lines of each kind.
const LINES: [&str; 3] = [
    "V 4008000000000000 0000000000000000 0000000000000000\n",
    "T 0 1 2 3\n",
    "M 1\n",
];
/// What follows line 256 of a kind: `*` is one more such line.
const ENDS: [&str; 8] = ["", "*", "*X\n", "X\n*", "X\n", "M", "M 1", "T 0 1 2 3\n"];
/// Line 1 or none of some kind.
const BARE: [&str; 8] = [
    "",
    "\n",
    "M 0\n",
    "T 0 1 2 3\n",
    "T 0 1 2 3\nM 0\n",
    "V\n",
    "V",
    "M 0\nV 0000000000000000 0000000000000000 0000000000000000\n",
];

/// All stock inputs.
pub fn stock() -> Vec<Vec<u8>> {
    let mut texts: Vec<String> = EDITS
        .iter()
        .map(|(a, b)| TEMPLATE.replacen(a, b, 1))
        .collect();
    texts.push(TEMPLATE.replace('\n', "\r\n"));
    texts.push(TEMPLATE.replace(' ', "~"));
    texts.extend(BARE.map(String::from));
    for (kind, line) in LINES.iter().enumerate() {
        texts.extend(ENDS.iter().map(|end| many(kind, line, end)));
    }
    // Vertex 3 is an end of the edge that both elements split.
    for bits in LEGAL.iter().chain(&REFUSED) {
        for bits in [*bits, *bits | 1 << 63] {
            let at = "0000000000000000 0000000000000000 3ff0000000000000";
            texts.push(TEMPLATE.replacen(at, &format!("{bits:016x} {bits:016x} {bits:016x}"), 1));
        }
    }
    let tabs = |text: String| text.replace(' ', "\t").replace('~', " ").into_bytes();
    texts.into_iter().map(tabs).collect()
}

/// 256 lines of a kind where they belong, then an end.
fn many(kind: usize, line: &str, end: &str) -> String {
    let letter = &line[..1];
    let of_kind = |text: &&str| text.starts_with(letter);
    let known = TEMPLATE.lines().filter(of_kind).count();
    let before = match kind {
        0 => TEMPLATE.find('T').unwrap_or(0),
        1 => TEMPLATE.find('M').unwrap_or(0),
        _ => TEMPLATE.len(),
    };
    let more = format!("{}{}", line.repeat(256 - known), end.replace('*', line));
    format!("{}{more}{}", &TEMPLATE[..before], &TEMPLATE[before..])
}
