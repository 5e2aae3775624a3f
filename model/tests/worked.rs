//! "Small meshes worked out": W1 to W10.

mod common;
use common::{opened, Mesh};

const W5: [[u32; 4]; 2] = [[0, 1, 2, 3], [1, 2, 3, 4]];
const W7: [[u32; 4]; 3] = [[0, 1, 2, 3], [0, 1, 3, 4], [0, 1, 2, 4]];

fn w1() -> Mesh {
    opened(4, &[[0, 1, 2, 3]], (10, 20))
}

fn colours(mesh: &Mesh) -> Vec<u32> {
    (0..mesh.counts.vertices)
        .map(|v| mesh.view().record(v).0)
        .collect()
}

fn parents(mesh: &Mesh, v: usize) -> (u32, u32) {
    mesh.view().record(v)
}

#[test]
fn w1_to_w4() {
    let mut mesh = w1();
    assert_eq!(colours(&mesh), [0, 1, 2, 3]);
    assert_eq!(mesh.row(0).numbers(), [3, 0, 1, 2, 3, 0, 0, 0]);

    assert_eq!(mesh.refine(&[0]).unwrap().splits, 1);
    assert_eq!(parents(&mesh, 4), (2, 3));
    assert_eq!(mesh.row(0).child, 1);
    assert_eq!(mesh.row(1).numbers(), [3, 0, 1, 4, 2, 0, 0, 1]);
    assert_eq!(mesh.row(2).numbers(), [0, 1, 2, 4, 2, 0, 0, 1]);

    mesh.refine(&[1]).unwrap();
    assert_eq!(parents(&mesh, 5), (1, 3));
    assert_eq!(mesh.row(3).numbers(), [3, 0, 5, 4, 1, 1, 0, 2]);
    assert_eq!(mesh.row(4).numbers(), [0, 1, 5, 4, 1, 1, 0, 2]);

    mesh.refine(&[3]).unwrap();
    assert_eq!(parents(&mesh, 6), (0, 3));
    assert_eq!(mesh.row(5).numbers(), [3, 6, 5, 4, 3, 3, 0, 3]);
    assert_eq!(mesh.row(6).numbers(), [0, 6, 5, 4, 3, 3, 0, 3]);
    assert!(mesh.check());
}

#[test]
fn w5_and_w6() {
    let mut mesh = opened(5, &W5, (10, 20));
    assert_eq!(colours(&mesh), [0, 1, 2, 3, 0]);
    assert_eq!(mesh.corners(0..2), [[3, 0, 1, 2], [3, 4, 1, 2]]);

    assert_eq!(mesh.refine(&[0]).unwrap().splits, 2);
    assert_eq!(parents(&mesh, 5), (2, 3));
    let rows = [[3, 0, 1, 5], [0, 1, 2, 5], [3, 4, 1, 5], [4, 1, 2, 5]];
    assert_eq!(mesh.corners(2..6), rows);
}

#[test]
fn w7_to_w9() {
    let mesh = opened(5, &W7, (10, 20));
    assert_eq!(colours(&mesh), [0, 1, 2, 3, 4]);
    assert_eq!(
        mesh.corners(0..3),
        [[0, 1, 2, 3], [4, 0, 1, 3], [4, 0, 1, 2]]
    );

    let mut once = mesh.clone();
    let refined = once.refine(&[0]).unwrap();
    assert_eq!(
        (refined.splits, refined.counts.vertices, refined.counts.rows),
        (3, 7, 9)
    );
    assert_eq!((parents(&once, 5), parents(&once, 6)), ((3, 4), (0, 3)));
    let rows = [
        [4, 0, 1, 5],
        [0, 1, 3, 5],
        [0, 1, 2, 6],
        [1, 2, 3, 6],
        [0, 1, 6, 5],
        [1, 3, 6, 5],
    ];
    assert_eq!(once.corners(3..9), rows);

    let mut twice = mesh.clone();
    twice.refine(&[0, 0]).unwrap();
    assert_eq!(once, twice);
}

#[test]
fn w10() {
    let run = |marks: &[u32]| {
        let mut mesh = opened(5, &W7, (10, 20));
        let refined = mesh.refine(marks).unwrap();
        assert_eq!(
            (refined.splits, refined.counts.vertices, refined.counts.rows),
            (4, 8, 11)
        );
        mesh
    };
    let (one, other) = (run(&[2, 0]), run(&[0, 2]));
    assert_ne!(one.elements, other.elements);
    // The same elements: their depth and, as sets, initial corners tell them apart here.
    let split = |mesh: &Mesh| {
        let rows = (0..mesh.counts.rows)
            .map(|r| mesh.row(r))
            .filter(|row| !row.is_leaf());
        let mut split: Vec<(u32, Vec<u32>)> = rows
            .map(|row| {
                let mut initial: Vec<u32> = row.v.iter().copied().filter(|&v| v < 5).collect();
                initial.sort();
                (row.depth, initial)
            })
            .collect();
        split.sort();
        split
    };
    assert_eq!(split(&one), split(&other));
}

#[test]
fn room_of_w8() {
    for (vertices, rows, fits) in [(7, 9, true), (6, 9, false), (7, 8, false)] {
        let mut mesh = opened(5, &W7, (vertices, rows));
        let before = mesh.clone();
        let answer = mesh.refine(&[0]);
        assert_eq!(answer.is_ok(), fits);
        if let Err(refusal) = answer {
            assert_eq!((refusal.number, refusal.place), (2, 0));
            assert_eq!(mesh, before);
        }
    }
}
