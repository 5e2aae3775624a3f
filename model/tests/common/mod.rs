//! Tables that the tests own, and a small source of random numbers.
#![allow(dead_code)]

use model::{open, refine, Counts, Lent, Refined, Refusal, Row, Tables};

#[derive(Clone, Debug, PartialEq)]
pub struct Mesh {
    pub coordinates: Vec<f64>,
    pub vertices: Vec<u32>,
    pub elements: Vec<u32>,
    pub counts: Counts,
}

impl Mesh {
    pub fn empty(vertices: usize, rows: usize) -> Mesh {
        Mesh {
            coordinates: vec![0.0; 3 * vertices],
            vertices: vec![0; 2 * vertices],
            elements: vec![0; 8 * rows],
            counts: Counts {
                vertices: 0,
                rows: 0,
            },
        }
    }

    pub fn lent(&mut self) -> Lent<'_> {
        Lent {
            coordinates: &mut self.coordinates,
            vertices: &mut self.vertices,
            elements: &mut self.elements,
        }
    }

    pub fn view(&self) -> Tables<'_> {
        Tables {
            coordinates: &self.coordinates,
            vertices: &self.vertices,
            elements: &self.elements,
        }
    }

    pub fn open(&mut self, points: &[f64], elements: &[[u32; 4]]) -> Result<Counts, Refusal> {
        let counts = open(points, elements.as_flattened(), &mut self.lent())?;
        self.counts = counts;
        Ok(counts)
    }

    pub fn refine(&mut self, marks: &[u32]) -> Result<Refined, Refusal> {
        let counts = self.counts;
        let refined = refine(&mut self.lent(), counts, marks)?;
        self.counts = refined.counts;
        Ok(refined)
    }

    pub fn check(&self) -> bool {
        model::check(self.view(), self.counts)
    }

    pub fn row(&self, r: usize) -> Row {
        self.view().row(r)
    }

    pub fn corners(&self, rows: std::ops::Range<usize>) -> Vec<[u32; 4]> {
        rows.map(|r| self.row(r).v).collect()
    }
}

/// Whole coordinates that differ from vertex to vertex.
pub fn points(vertices: usize) -> Vec<f64> {
    (0..3 * vertices).map(|n| ((n * n) % 1009) as f64).collect()
}

pub fn opened(vertices: usize, elements: &[[u32; 4]], room: (usize, usize)) -> Mesh {
    let mut mesh = Mesh::empty(room.0, room.1);
    mesh.open(&points(vertices), elements).unwrap();
    mesh
}

/// The generator splitmix64.
pub struct Random(pub u64);

impl Random {
    pub fn next(&mut self) -> u64 {
        self.0 = self.0.wrapping_add(0x9e37_79b9_7f4a_7c15);
        let z = (self.0 ^ self.0 >> 30).wrapping_mul(0xbf58_476d_1ce4_e5b9);
        let z = (z ^ z >> 27).wrapping_mul(0x94d0_49bb_1331_11eb);
        z ^ z >> 31
    }

    pub fn below(&mut self, n: usize) -> usize {
        (self.next() % n as u64) as usize
    }
}

/// Random elements of which opening accepts all: a new one must leave no face in a third.
pub fn random_elements(random: &mut Random, vertices: usize, tries: usize) -> Vec<[u32; 4]> {
    let mut elements: Vec<[u32; 4]> = Vec::new();
    for _ in 0..tries {
        let e: [u32; 4] = std::array::from_fn(|_| random.below(vertices) as u32);
        elements.push(e);
        let mut mesh = Mesh::empty(vertices, tries);
        if mesh.open(&points(vertices), &elements).is_err() {
            elements.pop();
        }
    }
    if elements.is_empty() {
        elements.push([0, 1, 2, 3]);
    }
    elements
}
