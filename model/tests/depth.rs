//! Number 11 in deep meshes (document 02, L9): exactly if a marked row is a leaf of depth 60. The
//! model does not test the marks: it refuses where closure comes to an element of that depth.

mod common;
use common::{opened, random_elements, Mesh, Random};

fn leaves(mesh: &Mesh) -> Vec<usize> {
    let rows = 0..mesh.counts.rows;
    rows.filter(|&r| mesh.row(r).is_leaf()).collect()
}

fn depth(mesh: &Mesh, r: usize) -> u32 {
    mesh.row(r).depth
}

/// Refines a deepest leaf, and at times any, until one has depth 60.
fn deepened(random: &mut Random, mesh: &mut Mesh) {
    loop {
        let leaves = leaves(mesh);
        let most = leaves.iter().map(|&r| depth(mesh, r)).max().unwrap();
        if most == 60 {
            return;
        }
        let any = random.below(4) == 0;
        let mut wanted = leaves.clone();
        wanted.retain(|&r| any || depth(mesh, r) == most);
        let mark = wanted[random.below(wanted.len())];
        mesh.refine(&[mark as u32]).unwrap();
    }
}

/// Some rows, half of them among the deepest leaves.
fn marks(random: &mut Random, mesh: &Mesh) -> Vec<u32> {
    let least = 57 + random.below(4) as u32;
    let mut deep = leaves(mesh);
    deep.retain(|&r| depth(mesh, r) >= least);
    let mark = |random: &mut Random| match random.below(2) {
        0 => deep[random.below(deep.len())],
        _ => random.below(mesh.counts.rows),
    };
    (0..1 + random.below(3))
        .map(|_| mark(random) as u32)
        .collect()
}

#[test]
fn eleven_for_a_marked_leaf_of_depth_60_alone() {
    let mut random = Random(1);
    let mut seen = [0; 2];
    for _ in 0..30 {
        let elements = random_elements(&mut random, 7, 10);
        let mut mesh = opened(7, &elements, (20_000, 100_000));
        deepened(&mut random, &mut mesh);
        for _ in 0..30 {
            let marks = marks(&mut random, &mesh);
            let sixty = |&r: &u32| mesh.row(r as usize).is_leaf() && depth(&mesh, r as usize) == 60;
            let deep = marks.iter().any(sixty);
            let refusal = mesh.clone().refine(&marks).err();
            assert_eq!(
                refusal.map(|r| (r.number, r.place)),
                deep.then_some((11, 0))
            );
            seen[deep as usize] += 1;
        }
    }
    assert!(seen[0] > 100 && seen[1] > 100, "{seen:?}");
}
