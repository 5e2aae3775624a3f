//! The two sides, called and answering in the same way.

use crate::mesh::{Input, Mesh};
use tables::layout::ROW;

/// Number and place of a refusal.
pub type Refusal = (u32, usize);

/// The two lent lists, rows and levels, and the number of leaves.
#[derive(Clone, Debug, PartialEq)]
pub struct Listing {
    pub rows: Vec<u32>,
    pub levels: Vec<u32>,
    pub number: usize,
}

pub trait Side {
    fn open(input: &Input, mesh: &mut Mesh) -> Result<(), Refusal>;
    fn check(mesh: &Mesh) -> bool;
    /// Answers the number of splits.
    fn refine(mesh: &mut Mesh, marks: &[u32]) -> Result<usize, Refusal>;
    fn list(mesh: &Mesh, listing: &mut Listing) -> Result<(), Refusal>;
    /// The two children of each row, at a midpoint of its own, in a table with room for them.
    fn split(mesh: &Mesh, children: &mut [u32]);
}

/// A number for the midpoint of row k; no vertex that the mesh counts has it.
fn midpoint(mesh: &Mesh, k: usize) -> u32 {
    (mesh.counts.0 + k) as u32
}

pub struct Lampethor;

fn counts(mesh: &Mesh) -> tables::layout::Counts {
    let (vertices, rows) = mesh.counts;
    tables::layout::started(vertices, rows)
}

fn numbered(refusal: tables::refusal::Refusal) -> Refusal {
    (refusal.cause.into(), refusal.place)
}

impl Side for Lampethor {
    fn open(input: &Input, mesh: &mut Mesh) -> Result<(), Refusal> {
        let (points, records, rows) = (&mut mesh.points, &mut mesh.records, &mut mesh.rows);
        let opened = opening::open(&input.coordinates, &input.elements, points, records, rows);
        let c = opened.map_err(numbered)?;
        mesh.counts = (c.vertices, c.rows);
        Ok(())
    }

    fn check(mesh: &Mesh) -> bool {
        soundness::check(&mesh.points, &mesh.records, &mesh.rows, counts(mesh))
    }

    fn refine(mesh: &mut Mesh, marks: &[u32]) -> Result<usize, Refusal> {
        let c = counts(mesh);
        let (points, records, rows) = (&mut mesh.points, &mut mesh.records, &mut mesh.rows);
        let done = closure::refine(points, records, rows, c, marks).map_err(numbered)?;
        mesh.counts = (done.counts.vertices, done.counts.rows);
        Ok(done.splits)
    }

    fn list(mesh: &Mesh, listing: &mut Listing) -> Result<(), Refusal> {
        let (rows, levels) = (&mut listing.rows, &mut listing.levels);
        let listed = leaves::leaves(
            &mesh.points,
            &mesh.records,
            &mesh.rows,
            counts(mesh),
            rows,
            levels,
        );
        listing.number = listed.map_err(numbered)?;
        Ok(())
    }

    fn split(mesh: &Mesh, children: &mut [u32]) {
        use split::row::{first, second, Row};
        use tables::entry::Entry;
        for k in 0..mesh.counts.1 {
            let (row, own, m) = (Row::read(&mesh.rows, k), k as u32, midpoint(mesh, k));
            first(row, own, m).write(children, 2 * k);
            second(row, own, m).write(children, 2 * k + 1);
        }
    }
}

pub struct Model;

fn lent(mesh: &mut Mesh) -> model::Lent<'_> {
    model::Lent {
        coordinates: &mut mesh.points,
        vertices: &mut mesh.records,
        elements: &mut mesh.rows,
    }
}

fn view(mesh: &Mesh) -> (model::Tables<'_>, model::Counts) {
    let tables = model::Tables {
        coordinates: &mesh.points,
        vertices: &mesh.records,
        elements: &mesh.rows,
    };
    let (vertices, rows) = mesh.counts;
    (tables, model::Counts { vertices, rows })
}

fn refused(refusal: model::Refusal) -> Refusal {
    (refusal.number, refusal.place)
}

impl Side for Model {
    fn open(input: &Input, mesh: &mut Mesh) -> Result<(), Refusal> {
        let opened = model::open(&input.coordinates, &input.elements, &mut lent(mesh));
        let c = opened.map_err(refused)?;
        mesh.counts = (c.vertices, c.rows);
        Ok(())
    }

    fn check(mesh: &Mesh) -> bool {
        let (tables, counts) = view(mesh);
        model::check(tables, counts)
    }

    fn refine(mesh: &mut Mesh, marks: &[u32]) -> Result<usize, Refusal> {
        let counts = view(mesh).1;
        let done = model::refine(&mut lent(mesh), counts, marks).map_err(refused)?;
        mesh.counts = (done.counts.vertices, done.counts.rows);
        Ok(done.splits)
    }

    fn list(mesh: &Mesh, listing: &mut Listing) -> Result<(), Refusal> {
        let (tables, counts) = view(mesh);
        let (rows, levels) = (&mut listing.rows, &mut listing.levels);
        listing.number = model::leaves(tables, counts, rows, levels).map_err(refused)?;
        Ok(())
    }

    fn split(mesh: &Mesh, children: &mut [u32]) {
        let (tables, counts) = view(mesh);
        for k in 0..counts.rows {
            let [first, second] = tables.row(k).children(k as u32, midpoint(mesh, k));
            for (place, row) in [(2 * k, first), (2 * k + 1, second)] {
                children[ROW * place..][..ROW].copy_from_slice(&row.numbers());
            }
        }
    }
}
