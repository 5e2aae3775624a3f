//! What comes back.

/// A mesh's counts; they travel beside the tables.
#[derive(Clone, Copy, Debug, PartialEq, Eq)]
pub struct Counts {
    pub vertices: usize,
    pub rows: usize,
}

/// An accepted refining call.
#[derive(Clone, Copy, Debug, PartialEq, Eq)]
pub struct Refined {
    pub counts: Counts,
    pub splits: usize,
}

/// Number and place of "What comes back"; the counts and splits beside them are zero.
#[derive(Clone, Copy, Debug, PartialEq, Eq)]
pub struct Refusal {
    pub number: u32,
    pub place: usize,
}

impl Refusal {
    pub const SIZES: Refusal = Refusal::at(1, 0);
    pub const ROOM: Refusal = Refusal::at(2, 0);
    pub const UNSOUND: Refusal = Refusal::at(9, 0);
    pub const DEPTH: Refusal = Refusal::at(11, 0);

    pub const fn at(number: u32, place: usize) -> Refusal {
        Refusal { number, place }
    }
}
