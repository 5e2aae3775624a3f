//! Demand 3 by brute force: the smallest closed set, over names, against the rows that refine split.

mod common;
use common::{opened, random_elements, Mesh, Random};
use std::collections::{BTreeSet, HashMap, HashSet};

/// A root and its sides from there on.
type Element = (usize, Vec<bool>);

/// An element whose corners are names; nothing here knows rows or coordinates.
#[derive(Clone)]
struct Named {
    corners: [usize; 4],
    tag: usize,
}

struct Forest {
    roots: Vec<Named>,
    /// A pair of names to the name of its midpoint.
    names: HashMap<(usize, usize), usize>,
    initial: usize,
}

impl Forest {
    fn new(mesh: &Mesh) -> Forest {
        let named = |r| Named {
            corners: mesh.row(r).v.map(|v| v as usize),
            tag: 3,
        };
        Forest {
            roots: (0..mesh.counts.rows).map(named).collect(),
            names: HashMap::new(),
            initial: mesh.counts.vertices,
        }
    }

    /// Algorithm 1 as its one line says it.
    fn child(&mut self, of: &Named, second: bool) -> Named {
        let fresh = self.initial + self.names.len();
        let m = *self.names.entry(edge(of)).or_insert(fresh);
        let mut rest = of.corners.to_vec();
        rest.remove(if second { 0 } else { of.tag });
        rest.insert(of.tag, m);
        let tag = if of.tag >= 2 { of.tag - 1 } else { 3 };
        Named {
            corners: [rest[0], rest[1], rest[2], rest[3]],
            tag,
        }
    }

    fn named(&mut self, element: &Element) -> Named {
        let mut named = self.roots[element.0].clone();
        for &side in &element.1 {
            named = self.child(&named, side);
        }
        named
    }

    /// The smallest closed set that holds the marks.
    fn smallest(&mut self, marks: &BTreeSet<Element>) -> BTreeSet<Element> {
        let mut set = BTreeSet::new();
        for (root, sides) in marks {
            for length in 0..=sides.len() {
                set.insert((*root, sides[..length].to_vec()));
            }
        }
        loop {
            let halved: HashSet<_> = set.iter().map(|e| edge(&self.named(e))).collect();
            let leaves = self.leaves(&set);
            let forced = leaves
                .into_iter()
                .filter(|e| keeps(&self.named(e), &halved));
            let forced: Vec<Element> = forced.collect();
            if forced.is_empty() {
                return set;
            }
            set.extend(forced);
        }
    }

    fn leaves(&self, set: &BTreeSet<Element>) -> Vec<Element> {
        let roots = (0..self.roots.len()).map(|r| (r, vec![]));
        let children = set.iter().flat_map(|(root, sides)| {
            [false, true].map(|side| (*root, [&sides[..], &[side]].concat()))
        });
        roots.chain(children).filter(|e| !set.contains(e)).collect()
    }
}

fn edge(of: &Named) -> (usize, usize) {
    let (a, b) = (of.corners[0], of.corners[of.tag]);
    (a.min(b), a.max(b))
}

fn keeps(leaf: &Named, halved: &HashSet<(usize, usize)>) -> bool {
    let c = leaf.corners;
    let ends = |a: usize, b: usize| (c[a].min(c[b]), c[a].max(c[b]));
    (0..4).any(|a| (0..a).any(|b| halved.contains(&ends(a, b))))
}

/// The element of a row.
fn element(mesh: &Mesh, r: usize) -> Element {
    let row = mesh.row(r);
    if row.parent as usize == r {
        return (r, vec![]);
    }
    let (root, mut sides) = element(mesh, row.parent as usize);
    sides.push(mesh.row(row.parent as usize).child as usize != r);
    (root, sides)
}

fn split_set(mesh: &Mesh) -> BTreeSet<Element> {
    let rows = 0..mesh.counts.rows;
    let split = rows.filter(|&r| !mesh.row(r).is_leaf());
    split.map(|r| element(mesh, r)).collect()
}

/// What room the set needs: rows and vertices.
fn needs(forest: &mut Forest, set: &BTreeSet<Element>) -> (usize, usize) {
    let halved: HashSet<_> = set.iter().map(|e| edge(&forest.named(e))).collect();
    (
        forest.roots.len() + 2 * set.len(),
        forest.initial + halved.len(),
    )
}

/// Some calls on one mesh; each is compared with the set of all accepted marks so far.
fn history(random: &mut Random, elements: &[[u32; 4]], vertices: usize, room: (usize, usize)) {
    let mut mesh = opened(vertices, elements, room);
    let mut forest = Forest::new(&mesh);
    let mut accepted = BTreeSet::new();
    for _ in 0..1 + random.below(6) {
        let number = random.below(5);
        let marks: Vec<u32> = (0..number)
            .map(|_| random.below(mesh.counts.rows) as u32)
            .collect();
        let mut wanted = accepted.clone();
        wanted.extend(marks.iter().map(|&m| element(&mesh, m as usize)));
        let smallest = forest.smallest(&wanted);
        let (rows, halved) = needs(&mut forest, &smallest);
        let before = mesh.clone();
        match mesh.refine(&marks) {
            Ok(refined) => {
                assert_eq!(split_set(&mesh), smallest);
                assert_eq!(
                    (refined.counts.rows, refined.counts.vertices),
                    (rows, halved)
                );
                assert!(mesh.check());
                accepted = wanted;
            }
            Err(refusal) => {
                assert_eq!((refusal.number, refusal.place), (2, 0));
                assert!(rows > room.1 || halved > room.0);
                assert_eq!(mesh, before);
            }
        }
    }
}

#[test]
fn random_meshes() {
    let mut random = Random(1);
    for _ in 0..300 {
        let vertices = 4 + random.below(6);
        let elements = random_elements(&mut random, vertices, 12);
        history(&mut random, &elements, vertices, (2000, 4000));
    }
}

#[test]
fn random_meshes_with_little_room() {
    let mut random = Random(2);
    for _ in 0..300 {
        let vertices = 4 + random.below(5);
        let elements = random_elements(&mut random, vertices, 9);
        let room = (
            vertices + random.below(12),
            elements.len() + random.below(40),
        );
        history(&mut random, &elements, vertices, room);
    }
}

#[test]
fn order_and_grouping_do_not_matter() {
    let mut random = Random(3);
    for _ in 0..100 {
        let elements = random_elements(&mut random, 8, 20);
        let mut marks: Vec<u32> = (0..elements.len() as u32).collect();
        let mut together = opened(8, &elements, (4000, 8000));
        together.refine(&marks).unwrap();
        for at in (1..marks.len()).rev() {
            marks.swap(at, random.below(at + 1));
        }
        let mut apart = opened(8, &elements, (4000, 8000));
        for mark in marks {
            apart.refine(&[mark]).unwrap();
        }
        assert_eq!(split_set(&together), split_set(&apart));
    }
}

/// All elements of depth below d.
fn below(roots: usize, d: usize) -> BTreeSet<Element> {
    let sides = |bits: usize, depth: usize| (0..depth).map(move |at| bits >> at & 1 == 1).collect();
    let of = |root| {
        (0..d).flat_map(move |depth| (0..1 << depth).map(move |bits| (root, sides(bits, depth))))
    };
    (0..roots).flat_map(of).collect()
}

fn closed_below(mesh: &Mesh, d: usize) -> bool {
    let set = below(mesh.counts.rows, d);
    Forest::new(mesh).smallest(&set) == set
}

#[test]
fn depth_below_a_multiple_of_three() {
    let mut random = Random(4);
    for _ in 0..100 {
        let vertices = 4 + random.below(6);
        let elements = random_elements(&mut random, vertices, 12);
        let mesh = opened(vertices, &elements, (vertices, elements.len()));
        assert!(closed_below(&mesh, 3) && closed_below(&mesh, 6));
    }
    let w7 = opened(5, &[[0, 1, 2, 3], [0, 1, 3, 4], [0, 1, 2, 4]], (5, 3));
    for d in 0..=9 {
        assert_eq!(closed_below(&w7, d), d % 3 == 0);
    }
}
