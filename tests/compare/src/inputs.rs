//! Which inputs there are. The kinds of random inputs take turns, so that a short run meets all.

use crate::coordinates;
use crate::random::Random;
use crate::shapes::{self, Shape, MOST};
use crate::spoiled;
use crate::stock::stock;
use crate::text::Input;

type Kind = fn(&mut Random) -> Vec<u8>;

const KINDS: [Kind; 25] = [
    |random| plain(random, shapes::any_grid),
    |random| plain(random, shapes::any_round_edge),
    |random| plain(random, shapes::fan_or_strip),
    |random| plain(random, shapes::few),
    |random| plain(random, shapes::star),
    |random| plain(random, shapes::any_cyclic),
    |random| plain(random, shapes::any_accepted),
    |random| plain(random, shapes::any_subsets),
    |random| plain(random, shapes::any_subsets),
    |random| plain(random, shapes::full),
    exactly_full,
    just_too_full,
    at_the_brink,
    at_the_brink,
    spoiled::bad_coordinates,
    |random| spoiled::elements(random, 4),
    |random| spoiled::elements(random, 5),
    |random| spoiled::elements(random, 6),
    |random| spoiled::elements(random, 7),
    spoiled::marks,
    spoiled::byte,
    spoiled::lines,
    spoiled::too_many_lines,
    spoiled::long_line,
    spoiled::parts_missing,
];

/// The input that a seed and an index stand for. Odd indexes go through the stock inputs first.
pub fn input(seed: u64, index: u64) -> Vec<u8> {
    if index % 2 == 1 {
        if let Some(input) = stock().into_iter().nth(index as usize / 2) {
            return input;
        }
    }
    let mut random = Random::new(seed, index);
    KINDS[index as usize / 2 % KINDS.len()](&mut random)
}

fn plain(random: &mut Random, shape: fn(&mut Random) -> Shape) -> Vec<u8> {
    let shape = shape(random).shuffled(random);
    with(random, shape).text()
}

fn with(random: &mut Random, shape: Shape) -> Input {
    Input {
        points: coordinates::points(random, shape.vertices),
        marks: marks(random, shape.elements.len()),
        shape,
    }
}

/// A mesh to be spoiled.
pub fn any(random: &mut Random) -> Input {
    let shape = match random.below(7) {
        0 => shapes::any_grid(random),
        1 => shapes::any_round_edge(random),
        2 => shapes::fan_or_strip(random),
        3 => shapes::star(random),
        4 => shapes::any_accepted(random),
        5 => shapes::full(random),
        _ => shapes::few(random),
    };
    let shape = shape.shuffled(random);
    with(random, shape)
}

fn marks(random: &mut Random, rows: usize) -> Vec<usize> {
    let mut all: Vec<usize> = (0..rows).collect();
    match random.below(8) {
        0 => vec![],
        1 => vec![random.below(rows)],
        2 => vec![random.below(rows); random.within(2, 5)],
        3 => all,
        4 => {
            random.shuffle(&mut all);
            all
        }
        5 => (0..MOST).map(|_| random.below(rows)).collect(),
        6 => (0..random.within(1, 6))
            .map(|_| random.below(rows))
            .collect(),
        _ => {
            random.shuffle(&mut all);
            all.truncate(random.within(1, rows));
            all
        }
    }
}

/// 512 vertices and 768 rows, or a step below.
fn exactly_full(random: &mut Random) -> Vec<u8> {
    let shape = shapes::apart(random).shuffled(random);
    let mut input = with(random, shape);
    input.marks = (0..MOST).collect();
    if random.once_in(2) {
        random.shuffle(&mut input.marks);
    }
    input.marks.truncate(MOST - random.below(3) / 2);
    input.text()
}

/// The same, but two elements have a common edge that needs, as a rule, one split more.
fn just_too_full(random: &mut Random) -> Vec<u8> {
    let shape = shapes::apart(random).shuffled(random);
    let mut input = with(random, shape);
    input.marks = (0..MOST).collect();
    for _ in 0..40 {
        let mut over = input.clone();
        let near = *random.pick(&over.shape.elements);
        let changed = random.below(MOST);
        over.shape.elements[changed][..2].copy_from_slice(&near[..2]);
        if refused(&over) == Some(2) {
            return over.text();
        }
    }
    input.text()
}

/// Just so many marks that the rows do not fit any more, or one mark fewer.
fn at_the_brink(random: &mut Random) -> Vec<u8> {
    let shape = shapes::full(random).shuffled(random);
    let mut input = with(random, shape);
    input.marks = (0..input.shape.elements.len()).collect();
    random.shuffle(&mut input.marks);
    let (mut fits, mut over) = (0, input.marks.len());
    while over - fits > 1 {
        let middle = (fits + over) / 2;
        let marks = input.marks[..middle].to_vec();
        if refused(&Input {
            marks,
            ..input.clone()
        })
        .is_none()
        {
            fits = middle;
        } else {
            over = middle;
        }
    }
    input
        .marks
        .truncate(if random.once_in(2) { fits } else { over });
    input.text()
}

/// The model's refusal number. Only where to look is taken from it, not what is right.
fn refused(input: &Input) -> Option<u32> {
    model::program(&input.text())
        .answer
        .err()
        .map(|refusal| refusal.number)
}
