//! Closure (000, Algorithm 3, with an order).

use crate::answer::{Counts, Refined, Refusal};
use crate::check::check;
use crate::leaf_index::LeafIndex;
use crate::split::midpoint;
use crate::tables::{Lent, Row, Tables, DEEPEST};

/// Refines the marked rows. The lent tables are written only when nothing refuses.
pub fn refine(lent: &mut Lent, counts: Counts, marks: &[u32]) -> Result<Refined, Refusal> {
    if !check(lent.view(), counts) {
        return Err(Refusal::UNSOUND);
    }
    if let Some(place) = marks.iter().position(|&m| m as usize >= counts.rows) {
        return Err(Refusal::at(10, place));
    }
    let mut run = Run::new(lent.view(), counts);
    for &mark in marks {
        if run.rows[mark as usize].is_leaf() {
            run.refine_leaf(mark)?;
        }
    }
    let after = run.counts();
    let room = lent.view().room();
    if after.vertices > room.vertices || after.rows > room.rows {
        return Err(Refusal::ROOM);
    }
    run.write(lent);
    Ok(Refined {
        counts: after,
        splits: (after.rows - counts.rows) / 2,
    })
}

/// One call's own rows and new vertices. They may outgrow the room: 11 is tested before 2 and
/// over the whole smallest closed set, so the run goes on to its end.
struct Run {
    entry: Counts,
    rows: Vec<Row>,
    /// The parents of the midpoints that were appended.
    appended: Vec<(u32, u32)>,
    /// Rows of the entry that were split.
    split: Vec<u32>,
    leaves: LeafIndex,
    /// The patch that was looked at last.
    patch: Vec<u32>,
    /// Leaves that wait for the one above them.
    waiting: Vec<u32>,
}

impl Run {
    fn new(tables: Tables, entry: Counts) -> Run {
        let rows: Vec<Row> = (0..entry.rows).map(|r| tables.row(r)).collect();
        let leaves = LeafIndex::new(entry.vertices, &rows);
        Run {
            entry,
            rows,
            appended: Vec::new(),
            split: Vec::new(),
            leaves,
            patch: Vec::new(),
            waiting: Vec::new(),
        }
    }

    fn counts(&self) -> Counts {
        Counts {
            vertices: self.entry.vertices + self.appended.len(),
            rows: self.rows.len(),
        }
    }

    /// The recursion of document 01 with its stack in the open.
    fn refine_leaf(&mut self, leaf: u32) -> Result<(), Refusal> {
        self.waiting.push(leaf);
        while let Some(&r) = self.waiting.last() {
            let edge = self.rows[r as usize].edge();
            self.leaves.holders(&self.rows, edge, &mut self.patch);
            let rows = &self.rows;
            let blocks = |&&s: &&u32| rows[s as usize].edge() != edge;
            match self.patch.iter().find(blocks) {
                Some(&first) => self.waiting.push(first),
                None => {
                    self.split_patch(edge)?;
                    self.waiting.pop();
                }
            }
        }
        Ok(())
    }

    /// One new vertex, then all leaves of the patch in ascending order.
    fn split_patch(&mut self, edge: (u32, u32)) -> Result<(), Refusal> {
        let m = self.counts().vertices as u32;
        self.appended.push(edge);
        self.leaves.add_vertex();
        for at in 0..self.patch.len() {
            let r = self.patch[at];
            let row = self.rows[r as usize];
            if row.depth == DEEPEST {
                return Err(Refusal::DEPTH);
            }
            self.leaves.drop_leaf(&row);
            if (r as usize) < self.entry.rows {
                self.split.push(r);
            }
            self.rows[r as usize].child = self.rows.len() as u32;
            for child in row.children(r, m) {
                self.leaves.append(&child);
                self.rows.push(child);
            }
        }
        Ok(())
    }

    fn write(&self, lent: &mut Lent) {
        for (v, &(a, b)) in (self.entry.vertices..).zip(&self.appended) {
            let tables = lent.view();
            let point = midpoint(tables.point(a as usize), tables.point(b as usize));
            lent.put_point(v, point);
            lent.put_record(v, (a, b));
        }
        for &r in &self.split {
            lent.put_row(r as usize, &self.rows[r as usize]);
        }
        for r in self.entry.rows..self.rows.len() {
            lent.put_row(r, &self.rows[r]);
        }
    }
}
