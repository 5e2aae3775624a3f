//! The program's text, and damage to it.

use crate::random::Random;
use crate::shapes::Shape;

#[derive(Clone)]
pub struct Input {
    pub points: Vec<[u64; 3]>,
    pub shape: Shape,
    pub marks: Vec<usize>,
}

impl Input {
    pub fn lines(&self) -> Vec<String> {
        let vertex = |p: &[u64; 3]| format!("V\t{:016x}\t{:016x}\t{:016x}\n", p[0], p[1], p[2]);
        let element = |e: &[usize; 4]| format!("T\t{}\t{}\t{}\t{}\n", e[0], e[1], e[2], e[3]);
        let mark = |m: &usize| format!("M\t{m}\n");
        let mut lines: Vec<String> = self.points.iter().map(vertex).collect();
        lines.extend(self.shape.elements.iter().map(element));
        lines.extend(self.marks.iter().map(mark));
        lines
    }

    pub fn text(&self) -> Vec<u8> {
        self.lines().concat().into_bytes()
    }
}

/// One byte changed, inserted or removed, wherever it is.
pub fn damage_byte(random: &mut Random, text: &mut Vec<u8>) {
    if text.is_empty() {
        return text.push(random.next() as u8);
    }
    let likely = b"\n\t\r \0VTM019afAF-+.\xff";
    let byte = match random.below(3) {
        0 => random.next() as u8,
        _ => *random.pick(likely),
    };
    let at = random.below(text.len());
    match random.below(3) {
        0 => text[at] = byte,
        1 => text.insert(at, byte),
        _ => {
            text.remove(at);
        }
    }
}

/// A line of any kind that there is, each kind as likely as the others.
fn line_of_a_kind(random: &mut Random, lines: &[String]) -> usize {
    let kind = random.below(3);
    let is_kind = |at: &usize| lines[*at].starts_with(["V", "T", "M"][kind]);
    let all: Vec<usize> = (0..lines.len()).filter(is_kind).collect();
    if all.is_empty() {
        random.below(lines.len())
    } else {
        *random.pick(&all)
    }
}

/// A line with something put in place of one of its tabs and, perhaps, the field after it.
fn at_a_tab(random: &mut Random, line: &str, put: &str, field_too: bool) -> String {
    let tabs: Vec<usize> = line.match_indices('\t').map(|(at, _)| at).collect();
    if tabs.is_empty() {
        return format!("{put}{line}");
    }
    let at = *random.pick(&tabs);
    let rest = &line[at + 1..];
    let field = rest.find(['\t', '\n']).unwrap_or(rest.len());
    let kept = if field_too { &rest[field..] } else { rest };
    format!("{}{put}{kept}", &line[..at])
}

/// What stands where a number should.
const NUMBERS: [&str; 10] = [
    "100000",
    "99999",
    "00",
    "+1",
    "-0",
    "",
    "1e1",
    "0x1",
    "4294967296",
    "1.0",
];

/// One line damaged in a way that some reader would forgive.
pub fn damage_line(random: &mut Random, lines: &mut Vec<String>) {
    let at = line_of_a_kind(random, lines);
    let line = lines[at].clone();
    lines[at] = match random.below(15) {
        0 => {
            let ends = ["\r\n", "\0\n", " \n", "\t\n", ";\n", ""];
            line.replace('\n', random.pick::<&str>(&ends))
        }
        1 => line.to_uppercase(),
        2 => line.to_lowercase(),
        3 => at_a_tab(random, &line, "\t0", false),
        4 | 5 => {
            let number = format!("\t{}", random.pick(&NUMBERS));
            at_a_tab(random, &line, &number, true)
        }
        6 => at_a_tab(random, &line, " ", false),
        7 => at_a_tab(random, &line, "\t\t", false),
        8 => at_a_tab(random, &line, "", true),
        9 => at_a_tab(random, &line, "\t0\t", false),
        10 => format!(" {line}"),
        11 => format!("\n{line}"),
        12 => format!("# a comment\n{line}"),
        _ => {
            // Out of order, as a rule.
            let other = line_of_a_kind(random, lines);
            let moved = lines.remove(at);
            lines.insert(other.min(lines.len()), moved);
            return;
        }
    };
}

/// The whole text in the manner of another system, or its end cut.
pub fn damage_whole(random: &mut Random, lines: Vec<String>) -> Vec<u8> {
    let mut text = lines.concat();
    match random.below(5) {
        0 => text = text.replace('\n', "\r\n"),
        1 => text = format!("\u{feff}{text}"),
        2 => text.push('\n'),
        3 => text = text.replace('\t', " "),
        _ => {
            text.pop();
        }
    }
    text.into_bytes()
}
