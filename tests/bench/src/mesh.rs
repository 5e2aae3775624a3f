//! A mesh in lent tables, and meshes to open: grids of cubes, and a hub.

use tables::layout::ROW;

/// Vertices and rows.
pub type Counts = (usize, usize);

/// What a mesh is opened from: three coordinates a vertex, four vertices an element.
pub struct Input {
    pub coordinates: Vec<f64>,
    pub elements: Vec<u32>,
}

/// The three tables and the counts beside them.
#[derive(Clone, Debug)]
pub struct Mesh {
    pub points: Vec<f64>,
    pub records: Vec<u32>,
    pub rows: Vec<u32>,
    pub counts: Counts,
}

/// Equal in every bit.
impl PartialEq for Mesh {
    fn eq(&self, other: &Mesh) -> bool {
        let bits = |m: &Mesh| m.points.iter().map(|p| p.to_bits()).collect::<Vec<_>>();
        bits(self) == bits(other)
            && self.records == other.records
            && self.rows == other.rows
            && self.counts == other.counts
    }
}

impl Mesh {
    /// Tables with this room; what they hold does not matter.
    pub fn lent(room: Counts) -> Mesh {
        Mesh {
            points: vec![1.0; 3 * room.0],
            records: vec![1; 2 * room.0],
            rows: vec![1; ROW * room.1],
            counts: (0, 0),
        }
    }

    /// The same mesh in tables of just this room.
    pub fn with_room(mut self, room: Counts) -> Mesh {
        self.points.resize(3 * room.0, 0.0);
        self.records.resize(2 * room.0, 0);
        self.rows.resize(ROW * room.1, 0);
        self
    }

    pub fn leaves(&self) -> Vec<u32> {
        let leaf = |&r: &u32| self.rows[ROW * r as usize + 6] == 0;
        (0..self.counts.1 as u32).filter(leaf).collect()
    }
}

/// A grid of cubes, each cut into six elements along its diagonal (Kuhn).
pub fn grid(size: [usize; 3]) -> Input {
    let [x, y, z] = size;
    let at = |p: [usize; 3]| (p[0] * (y + 1) + p[1]) * (z + 1) + p[2];
    let mut elements = Vec::new();
    for cube in 0..x * y * z {
        let corner = [cube / z / y, cube / z % y, cube % z];
        for order in [
            [0, 1, 2],
            [0, 2, 1],
            [1, 0, 2],
            [1, 2, 0],
            [2, 0, 1],
            [2, 1, 0],
        ] {
            let mut p = corner;
            elements.push(at(p) as u32);
            for axis in order {
                p[axis] += 1;
                elements.push(at(p) as u32);
            }
        }
    }
    let place = |v: usize| [v / (z + 1) / (y + 1), v / (z + 1) % (y + 1), v % (z + 1)];
    let vertices = 0..(x + 1) * (y + 1) * (z + 1);
    Input {
        coordinates: vertices.flat_map(place).map(|c| c as f64).collect(),
        elements,
    }
}

/// A plane of squares, each cut into two triangles, and a hub over it that all elements hold.
/// The hub is the first vertex or the last.
pub fn hub(side: usize, first: bool) -> Input {
    let (low, top) = if first {
        (1, 0)
    } else {
        (0, (side + 1) * (side + 1))
    };
    let at = |x: usize, y: usize| (low + x * (side + 1) + y) as u32;
    let mut elements = Vec::new();
    for square in 0..side * side {
        let (x, y) = (square / side, square % side);
        for middle in [at(x, y + 1), at(x + 1, y)] {
            elements.extend([top as u32, at(x, y), middle, at(x + 1, y + 1)]);
        }
    }
    let mut points: Vec<[f64; 3]> = (0..(side + 1) * (side + 1))
        .map(|v| [(v / (side + 1)) as f64, (v % (side + 1)) as f64, 0.0])
        .collect();
    points.insert(top, [side as f64 / 2.0, side as f64 / 2.0, side as f64]);
    Input {
        coordinates: points.concat(),
        elements,
    }
}
