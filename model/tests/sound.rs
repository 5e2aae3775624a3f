//! "Sound tables": the check against the clauses read one by one, on tables with a number changed.

mod common;
use common::{opened, random_elements, Mesh, Random};
use model::{midpoint, Row, INITIAL};

/// Each clause by looking at everything.
fn literal(mesh: &Mesh) -> bool {
    let tables = mesh.view();
    let counts = mesh.counts;
    let unused = [
        mesh.coordinates[3 * counts.vertices..]
            .iter()
            .all(|c| c.to_bits() == 0),
        mesh.vertices[2 * counts.vertices..].iter().all(|&n| n == 0),
        mesh.elements[8 * counts.rows..].iter().all(|&n| n == 0),
    ];
    let initial = (0..counts.vertices)
        .filter(|&v| tables.record(v).1 == INITIAL)
        .count();
    let roots = (0..counts.rows)
        .filter(|&r| mesh.row(r).parent as usize == r)
        .count();
    let leading = (0..initial).all(|v| tables.record(v).1 == INITIAL)
        && (0..roots).all(|r| mesh.row(r).parent as usize == r);
    unused.into_iter().all(|zero| zero)
        && leading
        && reopens(mesh, initial, roots)
        && (roots..counts.rows).all(|r| is_child_once(mesh, r))
        && (0..counts.rows).all(|r| has_children(mesh, r))
        && (initial..counts.vertices).all(|v| is_midpoint(mesh, v))
        && (0..counts.rows).all(|r| is_conforming(mesh, initial, r))
}

fn reopens(mesh: &Mesh, initial: usize, roots: usize) -> bool {
    let mut afresh = Mesh::empty(initial, roots);
    if afresh
        .open(&mesh.coordinates[..3 * initial], &mesh.corners(0..roots))
        .is_err()
    {
        return false;
    }
    afresh.vertices[..] == mesh.vertices[..2 * initial]
        && (0..roots).all(|r| {
            afresh.row(r)
                == Row {
                    child: 0,
                    ..mesh.row(r)
                }
        })
}

/// Exactly one earlier row has it as a child, and by the split table.
fn is_child_once(mesh: &Mesh, r: usize) -> bool {
    let is_parent = |&(p, side): &(usize, usize)| {
        let parent = mesh.row(p);
        let named = parent.child != 0 && parent.child as usize + side == r;
        named && (1..=3).contains(&parent.tag)
    };
    let sides = (0..mesh.counts.rows).flat_map(|p| [(p, 0), (p, 1)]);
    let parents: Vec<(usize, usize)> = sides.filter(is_parent).collect();
    let [(p, side)] = parents[..] else {
        return false;
    };
    let parent = mesh.row(p);
    let mut recorded =
        (0..mesh.counts.vertices).filter(|&v| mesh.view().record(v) == parent.edge());
    let Some(m) = recorded.next() else {
        return false;
    };
    let row = mesh.row(r);
    p < r
        && row.depth <= 60
        && parent.depth < 60
        && parent.children(p as u32, m as u32)[side] == Row { child: 0, ..row }
}

fn has_children(mesh: &Mesh, r: usize) -> bool {
    let child = mesh.row(r).child as usize;
    let own = |c: usize| c < mesh.counts.rows && mesh.row(c).parent as usize == r && c != r;
    child == 0 || own(child) && own(child + 1)
}

fn is_midpoint(mesh: &Mesh, v: usize) -> bool {
    let (a, b) = mesh.view().record(v);
    if a >= b || b as usize >= v {
        return false;
    }
    let point = |v: usize| mesh.view().point(v);
    let rule = midpoint(point(a as usize), point(b as usize));
    let again = (0..mesh.counts.vertices)
        .filter(|&w| mesh.view().record(w) == (a, b))
        .count();
    let edge = |r: usize| !mesh.row(r).is_leaf() && mesh.row(r).edge() == (a, b);
    again == 1
        && point(v).map(f64::to_bits) == rule.map(f64::to_bits)
        && (0..mesh.counts.rows).any(edge)
}

fn is_conforming(mesh: &Mesh, initial: usize, r: usize) -> bool {
    let row = mesh.row(r);
    let kept = |v: usize| {
        let (a, b) = mesh.view().record(v);
        row.holds(a) && row.holds(b)
    };
    !row.is_leaf() || !(initial..mesh.counts.vertices).any(kept)
}

fn sample(random: &mut Random) -> Mesh {
    let vertices = 4 + random.below(5);
    let elements = random_elements(random, vertices, 6);
    let mut mesh = opened(vertices, &elements, (60, 120));
    for _ in 0..random.below(4) {
        let mark = random.below(mesh.counts.rows) as u32;
        let _ = mesh.refine(&[mark]);
    }
    mesh
}

/// Changes one number; mostly to one that stands near it.
fn spoil(random: &mut Random, mesh: &mut Mesh) {
    let number = match random.below(4) {
        0 => random.next() as u32,
        1 => INITIAL,
        _ => random.below(20) as u32,
    };
    let elements = 8 * (mesh.counts.rows + 1);
    let vertices = 2 * (mesh.counts.vertices + 1);
    match random.below(8) {
        0 => mesh.counts.rows = (mesh.counts.rows + random.below(3)).saturating_sub(1),
        1 => mesh.counts.vertices = mesh.counts.vertices + random.below(3) - 1,
        2 => {
            let at = random.below(3 * (mesh.counts.vertices + 1));
            mesh.coordinates[at] = [-0.0, 0.0, 1.0, f64::NAN][random.below(4)];
        }
        3 | 4 => mesh.vertices[random.below(vertices)] = number,
        _ => mesh.elements[random.below(elements)] = number,
    }
}

#[test]
fn spoiled_tables() {
    let mut random = Random(6);
    let mut sound = 0;
    for _ in 0..20_000 {
        let mut mesh = sample(&mut random);
        assert!(mesh.check() && literal(&mesh));
        spoil(&mut random, &mut mesh);
        let counts = mesh.counts.rows > 0;
        assert_eq!(mesh.check(), counts && literal(&mesh));
        sound += mesh.check() as usize;
    }
    assert!((500..10_000).contains(&sound), "{sound}");
}

/// Pairs of children that stand in another order than closure appends them are sound, and refine.
#[test]
fn other_numbering() {
    let mut mesh = opened(4, &[[0, 1, 2, 3]], (20, 40));
    mesh.refine(&[0]).unwrap();
    mesh.refine(&[1, 2]).unwrap();
    for n in 0..16 {
        mesh.elements.swap(8 * 3 + n, 8 * 5 + n);
    }
    assert!(!mesh.check());
    mesh.elements.swap(8 + 6, 8 * 2 + 6);
    assert!(mesh.check());
    mesh.refine(&[3, 4, 5, 6]).unwrap();
    assert!(mesh.check());
}

#[test]
fn counts_and_lengths() {
    let mesh = opened(4, &[[0, 1, 2, 3]], (10, 20));
    for (vertices, rows) in [
        (4, 0),
        (4, 21),
        (11, 1),
        (usize::MAX, 1),
        (4, usize::MAX),
        (0, 1),
    ] {
        let counts = model::Counts { vertices, rows };
        assert!(!Mesh {
            counts,
            ..mesh.clone()
        }
        .check());
    }
    for table in 0..3 {
        let mut odd = mesh.clone();
        match table {
            0 => odd.coordinates.push(0.0),
            1 => odd.vertices.push(0),
            _ => odd.elements.push(0),
        }
        assert!(!odd.check());
    }
    // Tables longer than the room are lent, and are zero to their end.
    let mut long = opened(4, &[[0, 1, 2, 3]], (20_010, 100_010));
    assert!(long.check());
    *long.coordinates.last_mut().unwrap() = -0.0;
    assert!(!long.check());
}
