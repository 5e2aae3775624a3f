//! The tables: three lent flat lists, laid out as "The tables" says.

use crate::answer::Counts;
use crate::split::Point;

pub const MOST_VERTICES: usize = 20_000;
pub const MOST_ROWS: usize = 100_000;
pub const DEEPEST: u32 = 60;
/// The second number of an initial vertex.
pub const INITIAL: u32 = u32::MAX;

/// The tables as they are read.
#[derive(Clone, Copy)]
pub struct Tables<'a> {
    pub coordinates: &'a [f64],
    pub vertices: &'a [u32],
    pub elements: &'a [u32],
}

/// The tables as they are lent for writing.
pub struct Lent<'a> {
    pub coordinates: &'a mut [f64],
    pub vertices: &'a mut [u32],
    pub elements: &'a mut [u32],
}

/// One row of the element table.
#[derive(Clone, Copy, Debug, PartialEq, Eq)]
pub struct Row {
    pub v: [u32; 4],
    pub tag: u32,
    pub parent: u32,
    /// First child row; 0 for a leaf.
    pub child: u32,
    pub depth: u32,
}

impl Row {
    pub fn is_leaf(&self) -> bool {
        self.child == 0
    }

    pub fn holds(&self, vertex: u32) -> bool {
        self.v.contains(&vertex)
    }

    pub fn numbers(&self) -> [u32; 8] {
        let [a, b, c, d] = self.v;
        [a, b, c, d, self.tag, self.parent, self.child, self.depth]
    }
}

impl<'a> Tables<'a> {
    pub fn lengths_fit(&self) -> bool {
        self.coordinates.len().is_multiple_of(3)
            && self.vertices.len().is_multiple_of(2)
            && self.elements.len().is_multiple_of(8)
    }

    pub fn room(&self) -> Counts {
        let vertices = (self.coordinates.len() / 3).min(self.vertices.len() / 2);
        Counts {
            vertices: vertices.min(MOST_VERTICES),
            rows: (self.elements.len() / 8).min(MOST_ROWS),
        }
    }

    pub fn point(&self, vertex: usize) -> Point {
        let p = &self.coordinates[3 * vertex..3 * vertex + 3];
        [p[0], p[1], p[2]]
    }

    /// The two numbers of a vertex.
    pub fn record(&self, vertex: usize) -> (u32, u32) {
        (self.vertices[2 * vertex], self.vertices[2 * vertex + 1])
    }

    pub fn row(&self, row: usize) -> Row {
        let n = &self.elements[8 * row..8 * row + 8];
        Row {
            v: [n[0], n[1], n[2], n[3]],
            tag: n[4],
            parent: n[5],
            child: n[6],
            depth: n[7],
        }
    }
}

impl Lent<'_> {
    pub fn view(&self) -> Tables<'_> {
        Tables {
            coordinates: self.coordinates,
            vertices: self.vertices,
            elements: self.elements,
        }
    }

    pub fn put_point(&mut self, vertex: usize, point: Point) {
        self.coordinates[3 * vertex..3 * vertex + 3].copy_from_slice(&point);
    }

    pub fn put_record(&mut self, vertex: usize, record: (u32, u32)) {
        self.vertices[2 * vertex] = record.0;
        self.vertices[2 * vertex + 1] = record.1;
    }

    pub fn put_row(&mut self, number: usize, row: &Row) {
        self.elements[8 * number..8 * number + 8].copy_from_slice(&row.numbers());
    }
}
