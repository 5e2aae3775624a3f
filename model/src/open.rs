//! Opening (000, Algorithm 2 and Definition 2).

use crate::answer::{Counts, Refusal};
use crate::tables::{Lent, Row, INITIAL, MOST_ROWS, MOST_VERTICES};

const LARGEST_COLOUR: u32 = 63;
/// 2^1000.
const LARGEST_COORDINATE: f64 = f64::from_bits(0x7e70_0000_0000_0000);

/// What opening makes of its input, before it is laid into tables.
pub struct Opened {
    pub colours: Vec<u32>,
    pub rows: Vec<Row>,
}

/// Opens a mesh: three coordinates a vertex, four vertex numbers an element.
pub fn open(points: &[f64], elements: &[u32], lent: &mut Lent) -> Result<Counts, Refusal> {
    let counts = Counts {
        vertices: points.len() / 3,
        rows: elements.len() / 4,
    };
    let whole = points.len().is_multiple_of(3) && elements.len().is_multiple_of(4);
    let small = counts.vertices <= MOST_VERTICES && counts.rows <= MOST_ROWS;
    if !whole || counts.rows == 0 || !small || !lent.view().lengths_fit() {
        return Err(Refusal::SIZES);
    }
    let room = lent.view().room();
    if counts.vertices > room.vertices || counts.rows > room.rows {
        return Err(Refusal::ROOM);
    }
    let opened = opening(points, &fours(elements))?;
    lay(points, &opened, lent);
    Ok(counts)
}

fn fours(elements: &[u32]) -> Vec<[u32; 4]> {
    elements
        .chunks_exact(4)
        .map(|e| [e[0], e[1], e[2], e[3]])
        .collect()
}

/// Writes all the tables, unused rows zero.
fn lay(points: &[f64], opened: &Opened, lent: &mut Lent) {
    lent.coordinates.fill(0.0);
    lent.vertices.fill(0);
    lent.elements.fill(0);
    lent.coordinates[..points.len()].copy_from_slice(points);
    for (v, &colour) in opened.colours.iter().enumerate() {
        lent.put_record(v, (colour, INITIAL));
    }
    for (r, row) in opened.rows.iter().enumerate() {
        lent.put_row(r, row);
    }
}

/// Refusals 3 to 8, in that order, then colours and rows.
/// At most 20,000 vertices and 100,000 elements, as refusal 1 and the room see to.
pub fn opening(points: &[f64], elements: &[[u32; 4]]) -> Result<Opened, Refusal> {
    let vertices = points.len() / 3;
    refuse(
        3,
        points
            .chunks_exact(3)
            .position(|p| !p.iter().all(|c| fits(*c))),
    )?;
    let missing = |e: &[u32; 4]| e.iter().any(|&v| v as usize >= vertices);
    refuse(4, elements.iter().position(missing))?;
    let sorted: Vec<[u32; 4]> = elements.iter().map(|&e| sorted(e)).collect();
    let twice = |e: &[u32; 4]| e.windows(2).any(|w| w[0] == w[1]);
    refuse(5, sorted.iter().position(twice))?;
    refuse(6, same_four(&sorted))?;
    refuse(7, third_at_face(&sorted))?;
    let colours = colours(vertices, elements)?;
    let rows = rows(elements, &colours);
    Ok(Opened { colours, rows })
}

fn refuse(number: u32, place: Option<usize>) -> Result<(), Refusal> {
    match place {
        Some(place) => Err(Refusal::at(number, place)),
        None => Ok(()),
    }
}

/// A NaN compares false, so it does not fit.
fn fits(coordinate: f64) -> bool {
    coordinate.abs() <= LARGEST_COORDINATE
}

fn sorted(mut e: [u32; 4]) -> [u32; 4] {
    e.sort_unstable();
    e
}

/// The smallest element with the four vertices of an earlier one.
fn same_four(sorted: &[[u32; 4]]) -> Option<usize> {
    let mut keys: Vec<(u64, u32)> = (0..)
        .zip(sorted)
        .map(|(k, e)| (e.iter().fold(0, |key, &v| key << 15 | v as u64), k))
        .collect();
    keys.sort_unstable();
    let later = keys.windows(2).filter(|w| w[0].0 == w[1].0);
    later.map(|w| w[1].1 as usize).min()
}

/// The smallest element with a face that two earlier elements have.
/// A key is a face and its element: vertices are below 2^15, elements below 2^17.
fn third_at_face(sorted: &[[u32; 4]]) -> Option<usize> {
    let mut keys: Vec<u64> = Vec::with_capacity(4 * sorted.len());
    for (k, &[a, b, c, d]) in (0u64..).zip(sorted) {
        for face in [[a, b, c], [a, b, d], [a, c, d], [b, c, d]] {
            keys.push(face.iter().fold(0, |key, &v| key << 15 | v as u64) << 17 | k);
        }
    }
    keys.sort_unstable();
    let third = keys.windows(3).filter(|w| w[0] >> 17 == w[2] >> 17);
    third.map(|w| (w[2] & 0x1ffff) as usize).min()
}

/// In number order, the smallest colour that no neighbour of smaller number has; or refusal 8.
fn colours(vertices: usize, elements: &[[u32; 4]]) -> Result<Vec<u32>, Refusal> {
    let (starts, at) = elements_by_vertex(vertices, elements);
    let mut colours: Vec<u32> = Vec::with_capacity(vertices);
    for v in 0..vertices {
        // Colours of vertices before v are at most 63: one bit each.
        let mut taken = 0u64;
        for &k in &at[starts[v]..starts[v + 1]] {
            for &u in &elements[k as usize] {
                if (u as usize) < v {
                    taken |= 1 << colours[u as usize];
                }
            }
        }
        let colour = taken.trailing_ones();
        if colour > LARGEST_COLOUR {
            return Err(Refusal::at(8, v));
        }
        colours.push(colour);
    }
    Ok(colours)
}

/// The elements that hold vertex v are `at[starts[v]..starts[v + 1]]`.
fn elements_by_vertex(vertices: usize, elements: &[[u32; 4]]) -> (Vec<usize>, Vec<u32>) {
    let mut starts = vec![0; vertices + 1];
    for &v in elements.iter().flatten() {
        starts[v as usize + 1] += 1;
    }
    for v in 0..vertices {
        starts[v + 1] += starts[v];
    }
    let mut free = starts.clone();
    let mut at = vec![0; 4 * elements.len()];
    for (k, e) in (0..).zip(elements) {
        for &v in e {
            at[free[v as usize]] = k;
            free[v as usize] += 1;
        }
    }
    (starts, at)
}

/// Sorted by colour; a last vertex of colour N comes to the front.
fn rows(elements: &[[u32; 4]], colours: &[u32]) -> Vec<Row> {
    let largest = colours.iter().copied().max().unwrap_or(0);
    let row = |(k, &element): (u32, &[u32; 4])| {
        let mut v = element;
        v.sort_unstable_by_key(|&v| colours[v as usize]);
        if colours[v[3] as usize] == largest {
            v.rotate_right(1);
        }
        Row {
            v,
            tag: 3,
            parent: k,
            child: 0,
            depth: 0,
        }
    };
    (0..).zip(elements).map(row).collect()
}
