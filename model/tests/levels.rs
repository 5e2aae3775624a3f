//! The listed level against document 000: the largest level of a leaf's vertices (equations (8) and
//! (10)), where generations are those of section 3.3 and Algorithm 4. Document 02, L1.

mod common;
use common::{opened, random_elements, Mesh, Random};
use model::{leaves, INITIAL};

/// The largest colour, and the generation of each vertex where it is known.
struct Generations {
    n: i64,
    of: Vec<Option<i64>>,
}

impl Generations {
    fn new(mesh: &Mesh) -> Generations {
        let record = |v: usize| mesh.view().record(v);
        let initial = (0..mesh.counts.vertices).take_while(|&v| record(v).1 == INITIAL);
        let colours: Vec<i64> = initial.map(|v| record(v).0.into()).collect();
        let mut of: Vec<Option<i64>> = colours.iter().map(|c| Some(-c)).collect();
        of.resize(mesh.counts.vertices, None);
        let n = colours.into_iter().max().unwrap();
        Generations { n, of }
    }

    fn of(&self, v: u32) -> i64 {
        self.of[v as usize].unwrap()
    }

    /// Equation (8): the generation is N (level - 1) + type, the type from 1 to N.
    fn level(&self, v: u32) -> i64 {
        (self.of(v) - 1).div_euclid(self.n) + 1
    }

    fn kind(&self, v: u32) -> i64 {
        self.of(v) - self.n * (self.level(v) - 1)
    }

    /// Algorithm 4: the bisection edge of an element, and the generation of its midpoint.
    fn bisection(&self, mut v: [u32; 4]) -> ([u32; 2], i64) {
        v.sort_by_key(|&v| -self.of(v));
        if self.level(v[3]) != self.level(v[2]) {
            return ([v[2], v[3]], self.of(v[2]) + self.n);
        }
        let old = |u: &u32| self.level(*u) == self.level(v[3]);
        let young = v.into_iter().find(old).unwrap();
        let generation = self.of(v[3]) + 2 * self.n + 1 - self.kind(young);
        ([young, v[3]], generation)
    }

    /// One generation for each midpoint, whichever split row it is read from (Lemma 15).
    fn fill(&mut self, mesh: &Mesh) {
        for row in (0..mesh.counts.rows).map(|r| mesh.row(r)) {
            if row.is_leaf() {
                continue;
            }
            let (mut edge, generation) = self.bisection(row.v);
            edge.sort();
            let first = mesh.row(row.child as usize);
            let middle = first.v.into_iter().find(|v| !row.v.contains(v)).unwrap();
            assert_eq!(mesh.view().record(middle as usize), edge.into());
            let known = self.of[middle as usize].get_or_insert(generation);
            assert_eq!(*known, generation);
        }
    }
}

fn holds(mesh: &Mesh) {
    let mut generations = Generations::new(mesh);
    generations.fill(mesh);
    let mut lists = (vec![0; mesh.counts.rows], vec![0; mesh.counts.rows]);
    let number = leaves(mesh.view(), mesh.counts, &mut lists.0, &mut lists.1).unwrap();
    for (r, level) in lists.0.into_iter().zip(lists.1).take(number) {
        let row = mesh.row(r as usize);
        let most = row.v.map(|v| generations.level(v)).into_iter().max();
        assert_eq!(Some(level.into()), most);
        assert_eq!(level == 0, row.parent == r);
    }
}

#[test]
fn level_of_document_000() {
    let mut random = Random(5);
    for _ in 0..100 {
        let elements = random_elements(&mut random, 7, 10);
        let mut mesh = opened(7, &elements, (20_000, 100_000));
        holds(&mesh);
        for _ in 0..12 {
            let marks = [(); 2].map(|()| random.below(mesh.counts.rows) as u32);
            mesh.refine(&marks).unwrap();
            holds(&mesh);
        }
    }
}

/// One element, always its newest row: depths up to 60, levels up to 20.
#[test]
fn levels_up_to_twenty() {
    let mut mesh = opened(4, &[[0, 1, 2, 3]], (20_000, 100_000));
    for _ in 0..60 {
        let deepest = (0..mesh.counts.rows).max_by_key(|&r| mesh.row(r).depth);
        mesh.refine(&[deepest.unwrap() as u32]).unwrap();
        holds(&mesh);
    }
    let mut lists = (vec![0; mesh.counts.rows], vec![0; mesh.counts.rows]);
    leaves(mesh.view(), mesh.counts, &mut lists.0, &mut lists.1).unwrap();
    assert_eq!(lists.1.into_iter().max(), Some(20));
}
