//! The leaves by vertex, so that an edge's patch is found without a pass over the rows.

use crate::tables::Row;

const END: u32 = u32::MAX;

/// One chain a vertex over places 4 * row + corner. Rows are added in ascending order at the front,
/// so a chain falls; rows that were split since are taken out when a walk meets them.
pub struct LeafIndex {
    heads: Vec<u32>,
    /// Leaves that hold the vertex; the walk takes the end that has fewer.
    held: Vec<u32>,
    next: Vec<u32>,
}

impl LeafIndex {
    pub fn new(vertices: usize, rows: &[Row]) -> LeafIndex {
        let mut index = LeafIndex {
            heads: vec![END; vertices],
            held: vec![0; vertices],
            next: Vec::with_capacity(4 * rows.len() + 1024),
        };
        for row in rows {
            index.append(row);
        }
        index
    }

    pub fn add_vertex(&mut self) {
        self.heads.push(END);
        self.held.push(0);
    }

    /// Adds the next row; a row that is no leaf only takes its places.
    pub fn append(&mut self, row: &Row) {
        for &v in &row.v {
            let place = self.next.len() as u32;
            if row.is_leaf() {
                self.next.push(self.heads[v as usize]);
                self.heads[v as usize] = place;
                self.held[v as usize] += 1;
            } else {
                self.next.push(END);
            }
        }
    }

    /// To be called when a leaf is split.
    pub fn drop_leaf(&mut self, row: &Row) {
        for &v in &row.v {
            self.held[v as usize] -= 1;
        }
    }

    /// The leaves that hold both ends of an edge, in ascending row order.
    pub fn holders(&mut self, rows: &[Row], edge: (u32, u32), found: &mut Vec<u32>) {
        let (a, b) = edge;
        let fewer = self.held[a as usize] <= self.held[b as usize];
        let (walked, other) = if fewer { (a, b) } else { (b, a) };
        found.clear();
        let mut kept = END;
        let mut place = self.heads[walked as usize];
        while place != END {
            let after = self.next[place as usize];
            let row = &rows[place as usize / 4];
            if row.is_leaf() {
                if row.holds(other) {
                    found.push(place / 4);
                }
                kept = place;
            } else if kept == END {
                self.heads[walked as usize] = after;
            } else {
                self.next[kept as usize] = after;
            }
            place = after;
        }
        found.reverse();
    }
}
