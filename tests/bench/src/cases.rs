//! Meshes and marks to time, grown by the model. Tables have just the room that a mesh needs in the
//! end: what a side does with the whole of its own memory then shows in the small ones.

use crate::mesh::{Counts, Input, Mesh};
use crate::sides::{Model, Side};
use tables::layout::ROW;

const MOST: Counts = (20_000, 100_000);

/// A mesh, marks, and the mesh that they make of it.
pub struct Case {
    pub before: Mesh,
    pub marks: Vec<u32>,
    pub after: Mesh,
}

/// Opens, refines all leaves as often as told, and then marks one leaf in `share` at random.
pub fn case(input: &Input, rounds: usize, share: u64) -> Case {
    let mut before = Mesh::lent(MOST);
    Model::open(input, &mut before).expect("opening refused");
    for _ in 0..rounds {
        let leaves = before.leaves();
        Model::refine(&mut before, &leaves).expect("refining refused");
    }
    let marks = some_of(before.leaves(), share);
    let mut after = before.clone();
    Model::refine(&mut after, &marks).expect("refining refused");
    let room = after.counts;
    Case {
        before: before.with_room(room),
        marks,
        after: after.with_room(room),
    }
}

/// The generator splitmix64, the same in every run.
pub struct Random(pub u64);

impl Random {
    pub fn below(&mut self, n: usize) -> usize {
        (self.next() % n as u64) as usize
    }

    pub fn of(&mut self, list: &[u32]) -> u32 {
        list[self.below(list.len())]
    }

    fn next(&mut self) -> u64 {
        self.0 = self.0.wrapping_add(0x9e37_79b9_7f4a_7c15);
        let z = (self.0 ^ self.0 >> 30).wrapping_mul(0xbf58_476d_1ce4_e5b9);
        let z = (z ^ z >> 27).wrapping_mul(0x94d0_49bb_1331_11eb);
        z ^ z >> 31
    }
}

/// One number in `share`, chosen at random.
fn some_of(mut list: Vec<u32>, share: u64) -> Vec<u32> {
    let mut random = Random(1);
    list.retain(|_| random.next() % share == 0);
    list
}

/// A mesh of no meaning: rows of any numbers, but for a tag of 1 to 3 and a depth that has a next.
pub fn any_rows(count: usize) -> Mesh {
    let mut mesh = Mesh::lent((0, count));
    let mut random = Random(1);
    for (place, number) in mesh.rows.iter_mut().enumerate() {
        let any = random.next() as u32;
        *number = match place % ROW {
            4 => 1 + any % 3,
            7 => any % u32::MAX,
            _ => any,
        };
    }
    mesh.counts.1 = count;
    mesh
}

/// The list cut into a hundred, of which some are empty where there are fewer marks.
pub fn hundred(marks: &[u32]) -> Vec<&[u32]> {
    let at = |k: usize| k * marks.len() / 100;
    (0..100).map(|k| &marks[at(k)..at(k + 1)]).collect()
}
