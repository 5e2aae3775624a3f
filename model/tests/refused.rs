//! "What comes back": each refusal, its place and its order, and that nothing was changed.

mod common;
use common::{opened, points, Mesh};
use model::{element, leaves, Counts};

fn answer(vertices: usize, elements: &[[u32; 4]]) -> (u32, usize) {
    let mut mesh = Mesh::empty(vertices, elements.len());
    mesh.elements.fill(7);
    let before = mesh.clone();
    let refusal = mesh.open(&points(vertices), elements).unwrap_err();
    assert_eq!(mesh, before);
    (refusal.number, refusal.place)
}

fn answer_to(points: &[f64], elements: &[u32], mesh: &mut Mesh) -> (u32, usize) {
    match model::open(points, elements, &mut mesh.lent()) {
        Ok(_) => (0, 0),
        Err(refusal) => (refusal.number, refusal.place),
    }
}

#[test]
fn sizes_and_room() {
    let four = points(4);
    let mut mesh = Mesh::empty(4, 1);
    assert_eq!(answer_to(&four, &[0, 1, 2, 3], &mut mesh), (0, 0));
    assert_eq!(answer_to(&four[1..], &[0, 1, 2, 3], &mut mesh), (1, 0));
    assert_eq!(answer_to(&four, &[0, 1, 2], &mut mesh), (1, 0));
    assert_eq!(answer_to(&four, &[], &mut mesh), (1, 0));
    assert_eq!(answer_to(&[], &[0, 1, 2, 3], &mut mesh), (4, 0));
    assert_eq!(answer_to(&points(20_001), &[0, 1, 2, 3], &mut mesh), (1, 0));
    assert_eq!(answer_to(&four, &vec![0; 400_004], &mut mesh), (1, 0));
    assert_eq!(answer_to(&points(5), &[0, 1, 2, 9], &mut mesh), (2, 0));
    assert_eq!(answer_to(&four, &[0; 8], &mut mesh), (2, 0));
    for table in 0..3 {
        let mut odd = Mesh::empty(9, 9);
        match table {
            0 => odd.coordinates.truncate(26),
            1 => odd.vertices.truncate(17),
            _ => odd.elements.truncate(71),
        }
        assert_eq!(answer_to(&four, &[0, 1, 2, 3], &mut odd), (1, 0));
    }
}

#[test]
fn coordinates() {
    let mut mesh = Mesh::empty(4, 1);
    let mut with = |bits: u64| {
        let mut points = points(4);
        points[7] = f64::from_bits(bits);
        answer_to(&points, &[0, 1, 2, 3], &mut mesh)
    };
    for bits in [0x7e70_0000_0000_0000, 1, 1 << 63, 0xfe70_0000_0000_0000] {
        assert_eq!(with(bits), (0, 0));
    }
    let refused = [
        0x7e70_0000_0000_0001,
        0xfe70_0000_0000_0001,
        0x7ff0_0000_0000_0000,
        0xfff0_0000_0000_0000,
        0x7ff8_0000_0000_0000,
        0x7ff0_0000_0000_0001,
        u64::MAX,
    ];
    for bits in refused {
        assert_eq!(with(bits), (3, 2));
    }
}

#[test]
fn elements() {
    assert_eq!(answer(4, &[[0, 1, 1, 2], [0, 1, 2, 9]]), (4, 1));
    assert_eq!(answer(4, &[[0, 1, 2, 3], [0, 1, 2, u32::MAX]]), (4, 1));
    assert_eq!(
        answer(5, &[[0, 1, 2, 3], [0, 1, 2, 3], [0, 1, 4, 0]]),
        (5, 2)
    );
    assert_eq!(
        answer(5, &[[0, 1, 2, 4], [0, 1, 2, 3], [3, 2, 1, 0], [4, 2, 1, 0]]),
        (6, 2)
    );
    assert_eq!(
        answer(6, &[[0, 1, 2, 3], [0, 1, 2, 4], [0, 1, 2, 5]]),
        (7, 2)
    );
}

#[test]
fn colours() {
    // Vertices 0 to 64 in pairs, with two vertices of a pair's own each: pairwise neighbours.
    let mut elements = Vec::new();
    let mut own = 65;
    for a in 0..65 {
        for b in 0..a {
            elements.push([a, b, own, own + 1]);
            own += 2;
        }
    }
    assert_eq!(answer(own as usize, &elements), (8, 64));
    let fewer = &elements[..elements.len() - 1];
    assert!(Mesh::empty(own as usize, 2080)
        .open(&points(own as usize), fewer)
        .is_ok());
}

#[test]
fn marks() {
    let mut mesh = opened(5, &[[0, 1, 2, 3], [0, 1, 3, 4], [0, 1, 2, 4]], (10, 20));
    let before = mesh.clone();
    let refusal = mesh.refine(&[3]).unwrap_err();
    assert_eq!((refusal.number, refusal.place), (10, 0));
    let refusal = mesh.refine(&[0, 5, 3]).unwrap_err();
    assert_eq!((refusal.number, refusal.place), (10, 1));
    assert_eq!(mesh, before);
    assert_eq!(mesh.refine(&[]).unwrap().splits, 0);
    assert_eq!(mesh, before);
    mesh.elements[19 * 8] = 1;
    assert_eq!(mesh.refine(&[3]).unwrap_err().number, 9);
}

#[test]
fn depth() {
    let mut mesh = opened(4, &[[0, 1, 2, 3]], (64, 122));
    let mut leaf = 0;
    for depth in 1..=60 {
        mesh.refine(&[leaf]).unwrap();
        leaf = mesh.row(leaf as usize).child;
        assert_eq!(mesh.row(leaf as usize).depth, depth);
    }
    let before = mesh.clone();
    // No row is left, and yet depth comes first, wherever the mark stands.
    for marks in [vec![leaf], vec![2, leaf]] {
        let refusal = mesh.refine(&marks).unwrap_err();
        assert_eq!((refusal.number, refusal.place), (11, 0));
    }
    assert_eq!(mesh.refine(&[2]).unwrap_err().number, 2);
    assert_eq!(mesh, before);
}

#[test]
fn shown() {
    let table: Vec<u32> = (0..17).collect();
    assert_eq!(element(&table, 2, 1), [8, 9, 10, 11]);
    assert!(std::ptr::eq(&element(&table, 2, 1)[0], &table[8]));
    for (count, row) in [(2, 2), (3, 0), (0, 0), (usize::MAX, 0), (1 << 61, 0)] {
        assert!(element(&table, count, row).is_empty());
    }
}

#[test]
fn listed() {
    let mut mesh = opened(4, &[[0, 1, 2, 3]], (9, 9));
    mesh.refine(&[0]).unwrap();
    mesh.refine(&[1]).unwrap();
    mesh.refine(&[3]).unwrap();
    let list = |rows: usize, levels: usize, counts: Counts| {
        let mut lists = (vec![9; rows], vec![9; levels]);
        let answer = leaves(mesh.view(), counts, &mut lists.0, &mut lists.1);
        (
            answer.map_err(|refusal| (refusal.number, refusal.place)),
            lists,
        )
    };
    let done = (Ok(4), (vec![5, 6, 4, 2], vec![1, 1, 1, 1, 0, 0]));
    assert_eq!(list(4, 6, mesh.counts), done);
    assert_eq!(
        list(3, 6, mesh.counts),
        (Err((2, 0)), (vec![9; 3], vec![9; 6]))
    );
    assert_eq!(
        list(6, 3, mesh.counts),
        (Err((2, 0)), (vec![9; 6], vec![9; 3]))
    );
    let wrong = Counts {
        vertices: 7,
        rows: usize::MAX,
    };
    assert_eq!(list(0, 0, wrong), (Err((9, 0)), (vec![], vec![])));
}
