//! Each call of the library, timed on both sides. An answer has all that the call may write.

use crate::mesh::{Input, Mesh};
use crate::race::{race, Times};
use crate::sides::{Lampethor, Listing, Model, Refusal, Side};

fn opened<S: Side>(input: &Input, mut mesh: Mesh) -> (Mesh, Result<(), Refusal>) {
    let answer = S::open(input, &mut mesh);
    (mesh, answer)
}

pub fn open(input: &Input) -> Times {
    let room = (input.coordinates.len() / 3, input.elements.len() / 4);
    let lampethor = |mesh| opened::<Lampethor>(input, mesh);
    let model = |mesh| opened::<Model>(input, mesh);
    race(|| Mesh::lent(room), [&lampethor, &model])
}

pub fn check(mesh: &Mesh) -> Times {
    let lampethor = |()| Lampethor::check(mesh);
    let model = |()| Model::check(mesh);
    race(|| (), [&lampethor, &model])
}

type Refined = (Mesh, Vec<Result<usize, Refusal>>);

fn refined<S: Side>(lists: &[&[u32]], mut mesh: Mesh) -> Refined {
    let splits = lists.iter().map(|marks| S::refine(&mut mesh, marks));
    let splits = splits.collect();
    (mesh, splits)
}

/// One call for each list of marks.
pub fn refine(mesh: &Mesh, lists: &[&[u32]]) -> Times {
    let lampethor = |mesh| refined::<Lampethor>(lists, mesh);
    let model = |mesh| refined::<Model>(lists, mesh);
    race(|| mesh.clone(), [&lampethor, &model])
}

fn listed<S: Side>(mesh: &Mesh, mut listing: Listing) -> (Listing, Result<(), Refusal>) {
    let answer = S::list(mesh, &mut listing);
    (listing, answer)
}

pub fn list(mesh: &Mesh) -> Times {
    let leaves = mesh.leaves().len();
    let lent = || Listing {
        rows: vec![1; leaves],
        levels: vec![1; leaves],
        number: 0,
    };
    let lampethor = |listing| listed::<Lampethor>(mesh, listing);
    let model = |listing| listed::<Model>(mesh, listing);
    race(lent, [&lampethor, &model])
}

fn halves<S: Side>(mesh: &Mesh, mut children: Vec<u32>) -> Vec<u32> {
    S::split(mesh, &mut children);
    children
}

pub fn split(mesh: &Mesh) -> Times {
    let lampethor = |children| halves::<Lampethor>(mesh, children);
    let model = |children| halves::<Model>(mesh, children);
    race(|| vec![1; 2 * mesh.rows.len()], [&lampethor, &model])
}
