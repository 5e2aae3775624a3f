//! Showing one element and listing the leaves.

use crate::answer::{Counts, Refusal};
use crate::check::check;
use crate::tables::Tables;

/// The four vertex numbers of a row inside the caller's own table, or the empty part.
pub fn element(elements: &[u32], count: usize, row: usize) -> &[u32] {
    let whole = count.checked_mul(8).is_some_and(|n| n <= elements.len());
    if row < count && whole {
        &elements[8 * row..8 * row + 4]
    } else {
        &[]
    }
}

/// Lists the leaves with their levels (the number of splits divided by the dimension, rounded up), zeros after them;
/// the answer is the number of leaves.
pub fn leaves(
    tables: Tables,
    counts: Counts,
    rows: &mut [u32],
    levels: &mut [u32],
) -> Result<usize, Refusal> {
    if !check(tables, counts) {
        return Err(Refusal::UNSOUND);
    }
    let leaf = |&r: &usize| tables.row(r).is_leaf();
    let number = (0..counts.rows).filter(leaf).count();
    if rows.len() < number || levels.len() < number {
        return Err(Refusal::ROOM);
    }
    rows.fill(0);
    levels.fill(0);
    let mut at = 0;
    for root in (0..counts.rows).take_while(|&r| tables.row(r).parent as usize == r) {
        walk(tables, root, &mut |leaf, depth| {
            rows[at] = leaf as u32;
            levels[at] = depth.div_ceil(3);
            at += 1;
        });
    }
    Ok(number)
}

/// The first child's side before the second's. At most 60 calls deep in sound tables.
fn walk(tables: Tables, r: usize, visit: &mut impl FnMut(usize, u32)) {
    let row = tables.row(r);
    if row.is_leaf() {
        visit(r, row.depth);
    } else {
        walk(tables, row.child as usize, visit);
        walk(tables, row.child as usize + 1, visit);
    }
}
