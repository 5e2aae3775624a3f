//! A plain model of the tetrahedral refiner that document 01 describes.
//!
//! It shares no code with the proved crates: it is what they are compared with and timed against.
//! Section names in comments are those of document 01.

mod answer;
mod check;
mod leaf_index;
mod leaves;
mod open;
mod program;
mod refine;
mod split;
mod tables;
mod text;

pub use answer::{Counts, Refined, Refusal};
pub use check::check;
pub use leaves::{element, leaves};
pub use open::open;
pub use program::{program, Outcome, PROGRAM_ROOM};
pub use refine::refine;
pub use split::{midpoint, Point};
pub use tables::{Lent, Row, Tables, DEEPEST, INITIAL, MOST_ROWS, MOST_VERTICES};
