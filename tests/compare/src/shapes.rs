//! Elements: structured, random, and at the limits of the program.

use crate::random::Random;
use std::collections::{HashMap, HashSet};

/// The program reads at most so many lines of a kind.
pub const MOST: usize = 256;

/// How many vertices there are, and which the elements hold.
#[derive(Clone)]
pub struct Shape {
    pub vertices: usize,
    pub elements: Vec<[usize; 4]>,
}

impl Shape {
    /// Vertices are those that are named, from 0 on.
    fn of(elements: Vec<[usize; 4]>) -> Shape {
        let vertices = elements.iter().flatten().max().map_or(0, |v| v + 1);
        Shape { vertices, elements }
    }

    /// Other vertex numbers, order of elements and order in an element; some vertices in none.
    pub fn shuffled(mut self, random: &mut Random) -> Shape {
        if random.once_in(3) {
            self.vertices += random.below(5).min(MOST.saturating_sub(self.vertices));
        }
        if random.once_in(2) {
            let mut names: Vec<usize> = (0..self.vertices).collect();
            random.shuffle(&mut names);
            for v in self.elements.iter_mut().flatten() {
                *v = names[*v];
            }
        }
        if random.once_in(2) {
            random.shuffle(&mut self.elements);
        }
        if random.once_in(2) {
            for element in &mut self.elements {
                random.shuffle(element);
            }
        }
        self
    }
}

/// A grid of cubes, each cut into six tetrahedra along its diagonal (Kuhn).
pub fn grid(size: [usize; 3]) -> Shape {
    let at = |p: [usize; 3]| (p[0] * (size[1] + 1) + p[1]) * (size[2] + 1) + p[2];
    let mut elements = Vec::new();
    for cube in 0..size.iter().product() {
        let corner = [
            cube / size[1] / size[2],
            cube / size[2] % size[1],
            cube % size[2],
        ];
        for order in [
            [0, 1, 2],
            [0, 2, 1],
            [1, 0, 2],
            [1, 2, 0],
            [2, 0, 1],
            [2, 1, 0],
        ] {
            let mut p = corner;
            let mut element = [at(p); 4];
            for (k, axis) in order.into_iter().enumerate() {
                p[axis] += 1;
                element[k + 1] = at(p);
            }
            elements.push(element);
        }
    }
    Shape::of(elements)
}

pub fn any_grid(random: &mut Random) -> Shape {
    let sizes = [
        [1, 1, 1],
        [2, 1, 1],
        [2, 2, 1],
        [2, 2, 2],
        [3, 2, 2],
        [3, 3, 3],
        [4, 3, 3],
    ];
    grid(*random.pick(&sizes))
}

/// Elements round the edge 0 1, closed to a ring or open.
pub fn round_edge(number: usize, closed: bool) -> Shape {
    let rim = |k: usize| 2 + if closed { k % number } else { k };
    Shape::of((0..number).map(|k| [0, 1, rim(k), rim(k + 1)]).collect())
}

pub fn any_round_edge(random: &mut Random) -> Shape {
    let largest = *random.pick(&[6, 12, 40, 120]);
    let number = random.within(3, largest);
    round_edge(number, random.once_in(2))
}

/// A fan of elements at vertex 0 over a strip of triangles, or a strip of elements.
pub fn fan_or_strip(random: &mut Random) -> Shape {
    let number = random.within(1, 60);
    if random.once_in(2) {
        Shape::of((1..=number).map(|k| [0, k, k + 1, k + 2]).collect())
    } else {
        Shape::of((0..number).map(|k| [k, k + 1, k + 2, k + 3]).collect())
    }
}

/// The smallest meshes: one element, two at a face, W7, two at an edge or a vertex or apart.
pub fn few(random: &mut Random) -> Shape {
    let one = [0, 1, 2, 3];
    let meshes = [
        vec![one],
        vec![one, [1, 2, 3, 4]],
        vec![one, [0, 1, 3, 4], [0, 1, 2, 4]],
        vec![one, [2, 3, 4, 5]],
        vec![one, [3, 4, 5, 6]],
        vec![one, [4, 5, 6, 7]],
    ];
    Shape::of(random.pick(&meshes).clone())
}

/// An element cut again and again at a point inside one of its parts: stars.
pub fn star(random: &mut Random) -> Shape {
    let mut elements = vec![[0, 1, 2, 3]];
    for centre in 4..4 + random.within(1, 25) {
        let cut = elements.swap_remove(random.below(elements.len()));
        for corner in 0..4 {
            let mut part = cut;
            part[corner] = centre;
            elements.push(part);
        }
    }
    Shape::of(elements)
}

/// The boundary of a cyclic polytope: every two of n vertices are neighbours, so n colours.
pub fn cyclic(n: usize) -> Shape {
    let mut elements = Vec::new();
    for i in 0..n {
        for j in i + 2..n.min(n - 1 + i) {
            elements.push([i, i + 1, j, (j + 1) % n]);
        }
    }
    Shape::of(elements)
}

pub fn any_cyclic(random: &mut Random) -> Shape {
    cyclic(random.within(6, 14))
}

/// Any subsets of few vertices: refusal 7 is frequent, 5 and 6 happen.
pub fn any_subsets(random: &mut Random) -> Shape {
    let vertices = random.within(4, 9);
    let number = random.within(1, 2 * vertices);
    let (repeats, copies) = (random.once_in(8), random.once_in(4));
    let mut seen = HashSet::new();
    let mut elements = Vec::new();
    for _ in 0..number {
        let mut names: Vec<usize> = (0..vertices).collect();
        random.shuffle(&mut names);
        if repeats && random.once_in(5) {
            names[3] = names[0];
        }
        let element = [names[0], names[1], names[2], names[3]];
        names.truncate(4);
        names.sort();
        if seen.insert(names) || copies {
            elements.push(element);
        }
    }
    Shape { vertices, elements }
}

/// Random subsets of which opening accepts all.
pub fn accepted_subsets(random: &mut Random, vertices: usize, number: usize) -> Shape {
    let mut faces: HashMap<[usize; 3], usize> = HashMap::new();
    let mut seen = HashSet::new();
    let mut elements = Vec::new();
    for _ in 0..10 * number {
        let mut element: [usize; 4] = std::array::from_fn(|_| random.below(vertices));
        element.sort();
        let [a, b, c, d] = element;
        let own = [[a, b, c], [a, b, d], [a, c, d], [b, c, d]];
        let free = |face: &[usize; 3]| faces.get(face).is_none_or(|&n| n < 2);
        let distinct = a < b && b < c && c < d;
        if elements.len() < number && distinct && own.iter().all(free) && seen.insert(element) {
            for face in own {
                *faces.entry(face).or_insert(0) += 1;
            }
            elements.push(element);
        }
    }
    Shape { vertices, elements }
}

pub fn any_accepted(random: &mut Random) -> Shape {
    let vertices = random.within(5, 30);
    let number = random.within(2, 60);
    accepted_subsets(random, vertices, number)
}

/// 256 elements over 256 vertices, no two with a common edge: all marked, they need exactly
/// 512 vertices and 768 rows.
pub fn apart(random: &mut Random) -> Shape {
    let mut pairs = HashSet::new();
    let mut elements = Vec::new();
    while elements.len() < MOST {
        let element: [usize; 4] = std::array::from_fn(|_| random.below(MOST));
        let own: Vec<(usize, usize)> = (0..4)
            .flat_map(|a| (0..a).map(move |b| (a, b)))
            .map(|(a, b)| (element[a].min(element[b]), element[a].max(element[b])))
            .collect();
        if own
            .iter()
            .all(|pair| pair.0 != pair.1 && !pairs.contains(pair))
        {
            pairs.extend(own);
            elements.push(element);
        }
    }
    Shape {
        vertices: MOST,
        elements,
    }
}

/// About as many elements as the program takes.
pub fn full(random: &mut Random) -> Shape {
    let mut shape = match random.below(6) {
        0 => grid([7, 6, 1]),
        1 => grid([7, 3, 2]),
        2 => round_edge(254, true),
        3 => cyclic(24),
        4 => accepted_subsets(random, 256, 256),
        _ => accepted_subsets(random, 40, 256),
    };
    // Single elements apart from the rest fill the lines up.
    while shape.elements.len() < MOST && shape.vertices + 4 <= MOST && !random.once_in(8) {
        let v = shape.vertices;
        shape.elements.push([v, v + 1, v + 2, v + 3]);
        shape.vertices += 4;
    }
    shape
}
