//! Sound tables, clause by clause.

use crate::answer::Counts;
use crate::open::opening;
use crate::split::midpoint;
use crate::tables::{Row, Tables, DEEPEST, INITIAL};
use std::collections::HashMap;
use std::hash::{BuildHasherDefault, Hasher};

/// A pair of parents, as one number, to its midpoint.
type Midpoints = HashMap<u64, u32, BuildHasherDefault<PairHasher>>;

/// Yes exactly when tables and counts are sound.
pub fn check(tables: Tables, counts: Counts) -> bool {
    let room = tables.room();
    let within = counts.vertices <= room.vertices && (1..=room.rows).contains(&counts.rows);
    if !tables.lengths_fit() || !within || !unused_is_zero(tables, counts) {
        return false;
    }
    let initial = |&v: &usize| tables.record(v).1 == INITIAL;
    let initial = (0..counts.vertices).take_while(initial).count();
    let root = |&r: &usize| tables.row(r).parent as usize == r;
    let roots = (0..counts.rows).take_while(root).count();
    if !opens_afresh(tables, initial, roots) {
        return false;
    }
    match midpoints(tables, initial, counts.vertices) {
        Some(midpoints) => {
            forest_is_sound(tables, counts, initial, roots)
                && (0..counts.rows).all(|r| is_closed(&tables.row(r), &midpoints))
        }
        None => false,
    }
}

/// Every bit: minus zero is not zero here.
fn unused_is_zero(tables: Tables, counts: Counts) -> bool {
    let coordinates = &tables.coordinates[3 * counts.vertices..];
    let vertices = &tables.vertices[2 * counts.vertices..];
    let elements = &tables.elements[8 * counts.rows..];
    coordinates.iter().all(|c| c.to_bits() == 0)
        && vertices.iter().all(|&n| n == 0)
        && elements.iter().all(|&n| n == 0)
}

/// Opening the initial vertices and roots gives the same colours and, but for the child, rows.
fn opens_afresh(tables: Tables, initial: usize, roots: usize) -> bool {
    let elements: Vec<[u32; 4]> = (0..roots).map(|r| tables.row(r).v).collect();
    if elements.is_empty() {
        return false;
    }
    let Ok(opened) = opening(&tables.coordinates[..3 * initial], &elements) else {
        return false;
    };
    let same = |(r, row): (usize, &Row)| {
        let found = tables.row(r);
        Row { child: 0, ..found } == *row
    };
    let mut colours = opened.colours.iter().enumerate();
    colours.all(|(v, &colour)| tables.record(v).0 == colour)
        && opened.rows.iter().enumerate().all(same)
}

/// The midpoints by their parents; none if one is out of order, stands twice or lies elsewhere.
fn midpoints(tables: Tables, initial: usize, vertices: usize) -> Option<Midpoints> {
    let mut midpoints = Midpoints::with_capacity_and_hasher(vertices - initial, Default::default());
    for v in initial..vertices {
        let (a, b) = tables.record(v);
        if a >= b || b as usize >= v {
            return None;
        }
        let rule = midpoint(tables.point(a as usize), tables.point(b as usize));
        if tables.point(v).map(f64::to_bits) != rule.map(f64::to_bits) {
            return None;
        }
        if midpoints.insert(pair(a, b), v as u32).is_some() {
            return None;
        }
    }
    Some(midpoints)
}

/// Rows are taken in order, so a parent is known to be sound before its children are looked at.
fn forest_is_sound(tables: Tables, counts: Counts, initial: usize, roots: usize) -> bool {
    let mut halved = vec![false; counts.vertices];
    for r in 0..counts.rows {
        let row = tables.row(r);
        if r >= roots {
            match child_midpoint(tables, r, &row) {
                Some(m) if (initial..counts.vertices).contains(&m) => halved[m] = true,
                _ => return false,
            }
        }
        if !row.is_leaf() && !has_two_children(tables, counts, r, &row) {
            return false;
        }
    }
    halved[initial..].iter().all(|&h| h)
}

/// The midpoint of the parent's edge if row r is a child of its parent by the split table.
fn child_midpoint(tables: Tables, r: usize, row: &Row) -> Option<usize> {
    if row.parent as usize >= r || row.depth > DEEPEST {
        return None;
    }
    let parent = tables.row(row.parent as usize);
    let side = match r.checked_sub(parent.child as usize) {
        Some(side) if side < 2 && !parent.is_leaf() => side,
        _ => return None,
    };
    // The midpoint stands in a child where the tag of the parent points.
    let m = row.v[parent.tag as usize];
    let by_table = parent.children(row.parent, m)[side];
    let known = (m as usize) < tables.vertices.len() / 2;
    let follows =
        known && tables.record(m as usize) == parent.edge() && Row { child: 0, ..*row } == by_table;
    follows.then_some(m as usize)
}

fn has_two_children(tables: Tables, counts: Counts, r: usize, row: &Row) -> bool {
    let first = row.child as usize;
    let own = |child: usize| tables.row(child).parent as usize == r;
    first > r && first + 1 < counts.rows && own(first) && own(first + 1)
}

/// A leaf does not hold both parents of a midpoint.
fn is_closed(row: &Row, midpoints: &Midpoints) -> bool {
    let [a, b, c, d] = row.v;
    let edges = [(a, b), (a, c), (a, d), (b, c), (b, d), (c, d)];
    !row.is_leaf()
        || edges
            .iter()
            .all(|&(p, q)| !midpoints.contains_key(&pair(p.min(q), p.max(q))))
}

fn pair(a: u32, b: u32) -> u64 {
    (a as u64) << 32 | b as u64
}

/// Pairs of vertex numbers come from checked tables: a multiplication spreads them enough.
#[derive(Default)]
struct PairHasher(u64);

impl Hasher for PairHasher {
    fn write(&mut self, bytes: &[u8]) {
        for &byte in bytes {
            self.write_u64(byte as u64);
        }
    }

    fn write_u64(&mut self, n: u64) {
        let mixed = (self.0 ^ n).wrapping_mul(0x9e37_79b9_7f4a_7c15);
        self.0 = mixed ^ mixed >> 32;
    }

    fn finish(&self) -> u64 {
        self.0
    }
}
