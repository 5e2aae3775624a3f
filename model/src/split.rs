//! One split (000, Algorithm 1).

use crate::tables::Row;

pub type Point = [f64; 3];

/// Each coordinate: the sum, rounded once, times one half, rounded once.
pub fn midpoint(p: Point, q: Point) -> Point {
    std::array::from_fn(|i| (p[i] + q[i]) * 0.5)
}

impl Row {
    /// The edge, smaller end first. The tag is that of a sound row, 1 to 3.
    pub fn edge(&self) -> (u32, u32) {
        let (a, b) = (self.v[0], self.v[self.tag as usize]);
        (a.min(b), a.max(b))
    }

    /// The two children at midpoint `m`; `own` is the row's own number.
    pub fn children(&self, own: u32, m: u32) -> [Row; 2] {
        let [v0, v1, v2, v3] = self.v;
        let (first, second, tag) = match self.tag {
            3 => ([v0, v1, v2, m], [v1, v2, v3, m], 2),
            2 => ([v0, v1, m, v3], [v1, v2, m, v3], 1),
            _ => ([v0, m, v2, v3], [v1, m, v2, v3], 3),
        };
        [first, second].map(|v| Row {
            v,
            tag,
            parent: own,
            child: 0,
            depth: self.depth + 1,
        })
    }
}
