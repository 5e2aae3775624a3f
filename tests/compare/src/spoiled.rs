//! Inputs that are spoiled: most of them are to be refused.

use crate::coordinates;
use crate::inputs::any;
use crate::random::Random;
use crate::shapes::{Shape, MOST};
use crate::text::{damage_byte, damage_line, damage_whole};

pub fn bad_coordinates(random: &mut Random) -> Vec<u8> {
    let mut input = any(random);
    coordinates::spoil(random, &mut input.points);
    if random.once_in(4) {
        spoil_element(random, &mut input.shape, 4);
    }
    input.text()
}

/// Elements for one refusal at several places, and perhaps one for another.
pub fn elements(random: &mut Random, refusal: usize) -> Vec<u8> {
    let mut input = any(random);
    for _ in 0..random.within(2, 4) {
        spoil_element(random, &mut input.shape, refusal);
    }
    if random.once_in(4) {
        let other = random.within(4, 7);
        spoil_element(random, &mut input.shape, other);
    }
    input.text()
}

/// Adds an element, or puts it in place of one, that may give the refusal.
fn spoil_element(random: &mut Random, shape: &mut Shape, refusal: usize) {
    let mut bad = *random.pick(&shape.elements);
    let corner = random.below(4);
    let beyond = [shape.vertices, shape.vertices + 1, 20_000, 99_999];
    for _ in 0..random.within(1, 2) {
        match refusal {
            4 => bad[corner] = *random.pick(&beyond),
            5 => bad[corner] = bad[(corner + 1) % 4],
            6 => random.shuffle(&mut bad),
            _ => bad[corner] = other_vertex(random, shape.vertices, bad),
        }
        let at = random.below(shape.elements.len());
        if shape.elements.len() < MOST {
            shape.elements.insert(at, bad);
        } else {
            shape.elements[at] = bad;
        }
    }
}

/// A vertex that the element does not hold, if one is met soon.
fn other_vertex(random: &mut Random, vertices: usize, element: [usize; 4]) -> usize {
    let tries: Vec<usize> = (0..10).map(|_| random.below(vertices)).collect();
    let free = tries.iter().find(|v| !element.contains(v));
    *free.unwrap_or(&tries[0])
}

pub fn marks(random: &mut Random) -> Vec<u8> {
    let mut input = any(random);
    let rows = input.shape.elements.len();
    for _ in 0..random.within(1, 3) {
        let mark = *random.pick(&[rows, rows + 1, 2 * rows, 768, 99_999]);
        let at = random.below(input.marks.len() + 1);
        if input.marks.len() < MOST {
            input.marks.insert(at, mark);
        } else {
            input.marks[at.min(MOST - 1)] = mark;
        }
    }
    input.text()
}

pub fn byte(random: &mut Random) -> Vec<u8> {
    let mut text = any(random).text();
    for _ in 0..*random.pick(&[1, 1, 1, 2, 5]) {
        damage_byte(random, &mut text);
    }
    text
}

pub fn lines(random: &mut Random) -> Vec<u8> {
    let mut lines = any(random).lines();
    if random.once_in(4) {
        return damage_whole(random, lines);
    }
    for _ in 0..*random.pick(&[1, 1, 2]) {
        damage_line(random, &mut lines);
    }
    lines.concat().into_bytes()
}

/// 257 lines of a kind or a few more, perhaps with a line that is not well formed near by.
pub fn too_many_lines(random: &mut Random) -> Vec<u8> {
    let mut input = any(random);
    let number = *random.pick(&[256, 257, 257, 258, 300]);
    match random.below(3) {
        0 => input.points = coordinates::points(random, number),
        1 => {
            let element = *random.pick(&input.shape.elements);
            input.shape.elements.resize(number, element);
        }
        _ => input.marks = (0..number).map(|_| random.below(260)).collect(),
    }
    let mut lines = input.lines();
    match random.below(5) {
        0 => damage_line(random, &mut lines),
        1 => {
            let at = random.within(255, 258).min(lines.len());
            let line = *random.pick(&["V\n", "T\t0\n", "M\t00\n", "\n", "M\t0\n"]);
            lines.insert(at, line.to_string());
        }
        _ => {}
    }
    lines.concat().into_bytes()
}

/// A line far longer than any record, with or without its end.
pub fn long_line(random: &mut Random) -> Vec<u8> {
    let mut lines = any(random).lines();
    let at = random.below(lines.len() + 1);
    let length = *random.pick(&[50, 100, 255, 256, 257, 1_023, 1_025, 4_097, 65_537, 300_000]);
    let filling = *random.pick(&["0", "\t0", " ", "\t", "V\t", "\0", "\r"]);
    let start = *random.pick(&["V\t", "T\t0\t1\t2\t", "M\t", "M\t0", ""]);
    let end = *random.pick(&["\n", "\n", "\n", ""]);
    let line = format!("{start}{}{end}", filling.repeat(length / filling.len()));
    lines.insert(at, line);
    lines.concat().into_bytes()
}

/// No lines, no lines of some kind, or bytes that are no text.
pub fn parts_missing(random: &mut Random) -> Vec<u8> {
    let mut input = any(random);
    match random.below(8) {
        0 => vec![],
        1 => vec![b'\n'; random.within(1, 3)],
        2 => (0..random.within(1, 2_000))
            .map(|_| random.next() as u8)
            .collect(),
        3 => {
            let text = input.text();
            text[..random.below(text.len())].to_vec()
        }
        missing => {
            if missing & 1 != 0 {
                input.marks.clear();
            }
            if missing & 2 != 0 {
                input.shape.elements.clear();
            } else {
                input.points.truncate(random.below(3));
            }
            input.text()
        }
    }
}
