//! Closure word for word, looking at every row each time, against the indexed refine: equal tables.

mod common;
use common::{opened, random_elements, Mesh, Random};
use model::{midpoint, Row};

/// Rows and vertices without any room.
struct Literal {
    rows: Vec<Row>,
    records: Vec<(u32, u32)>,
}

impl Literal {
    fn new(mesh: &Mesh) -> Literal {
        Literal {
            rows: (0..mesh.counts.rows).map(|r| mesh.row(r)).collect(),
            records: (0..mesh.counts.vertices)
                .map(|v| mesh.view().record(v))
                .collect(),
        }
    }

    fn refine(&mut self, r: usize) {
        let e = self.rows[r].edge();
        let holds = |row: &Row| row.is_leaf() && row.holds(e.0) && row.holds(e.1);
        let patch: Vec<usize> = (0..self.rows.len())
            .filter(|&s| holds(&self.rows[s]))
            .collect();
        if let Some(&first) = patch.iter().find(|&&s| self.rows[s].edge() != e) {
            self.refine(first);
            return self.refine(r);
        }
        let m = self.records.len() as u32;
        self.records.push(e);
        for s in patch {
            self.rows[s].child = self.rows.len() as u32;
            let children = self.rows[s].children(s as u32, m);
            self.rows.extend(children);
        }
    }
}

fn compare(mesh: &Mesh, literal: &Literal) {
    assert_eq!(mesh.counts.rows, literal.rows.len());
    assert_eq!(mesh.counts.vertices, literal.records.len());
    for (r, row) in literal.rows.iter().enumerate() {
        assert_eq!(mesh.row(r), *row);
    }
    for (v, &(a, b)) in literal.records.iter().enumerate() {
        assert_eq!(mesh.view().record(v), (a, b));
        if b != model::INITIAL {
            let point = |v: u32| mesh.view().point(v as usize);
            assert_eq!(mesh.view().point(v), midpoint(point(a), point(b)));
        }
    }
}

fn history(random: &mut Random, mut mesh: Mesh, calls: usize) {
    for _ in 0..calls {
        let number = random.below(6);
        let marks: Vec<u32> = (0..number)
            .map(|_| random.below(mesh.counts.rows) as u32)
            .collect();
        let mut literal = Literal::new(&mesh);
        for &mark in &marks {
            if literal.rows[mark as usize].is_leaf() {
                literal.refine(mark as usize);
            }
        }
        if mesh.refine(&marks).is_ok() {
            compare(&mesh, &literal);
        }
    }
    assert!(mesh.check());
}

/// A grid of cubes, each cut into six tetrahedra along the diagonal.
fn kuhn(n: u32) -> Vec<[u32; 4]> {
    let at = |p: [u32; 3]| (p[0] * (n + 1) + p[1]) * (n + 1) + p[2];
    let mut elements = Vec::new();
    for cube in 0..n * n * n {
        for order in [
            [0, 1, 2],
            [0, 2, 1],
            [1, 0, 2],
            [1, 2, 0],
            [2, 0, 1],
            [2, 1, 0],
        ] {
            let mut p = [cube / n / n, cube / n % n, cube % n];
            let mut element = [at(p); 4];
            for (corner, axis) in order.into_iter().enumerate() {
                p[axis] += 1;
                element[corner + 1] = at(p);
            }
            elements.push(element);
        }
    }
    elements
}

#[test]
fn random_meshes() {
    let mut random = Random(4);
    for _ in 0..200 {
        let vertices = 4 + random.below(12);
        let elements = random_elements(&mut random, vertices, 30);
        history(&mut random, opened(vertices, &elements, (3000, 9000)), 8);
    }
}

#[test]
fn grids() {
    let mut random = Random(5);
    for n in 1..4 {
        let vertices = (n + 1) * (n + 1) * (n + 1);
        history(
            &mut random,
            opened(vertices as usize, &kuhn(n), (3000, 9000)),
            30,
        );
    }
}
