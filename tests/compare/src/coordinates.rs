//! Coordinates, as the bits of an f64.

use crate::random::Random;

/// 2^1000, the largest magnitude that opening takes.
const LARGEST: u64 = 0x7e70_0000_0000_0000;
const SIGN: u64 = 1 << 63;

/// Those at which rounding, signs or limits go wrong first.
pub const LEGAL: [u64; 14] = [
    0,
    1,
    2,
    3,
    0x000f_ffff_ffff_ffff,
    0x0010_0000_0000_0000,
    0x0010_0000_0000_0001,
    0x001f_ffff_ffff_ffff,
    0x3ff0_0000_0000_0000,
    0x3ff0_0000_0000_0001,
    0x3fef_ffff_ffff_ffff,
    0x4340_0000_0000_0001,
    LARGEST - 1,
    LARGEST,
];

pub const REFUSED: [u64; 7] = [
    LARGEST + 1,
    0x7fef_ffff_ffff_ffff,
    0x7ff0_0000_0000_0000,
    0x7ff0_0000_0000_0001,
    0x7ff8_0000_0000_0000,
    0x7fff_ffff_ffff_ffff,
    0x7e80_0000_0000_0000,
];

fn signed(random: &mut Random, bits: u64) -> u64 {
    bits | random.next() & SIGN
}

/// One coordinate that opening accepts, of a kind from 0 to 4.
fn accepted(random: &mut Random, kind: usize) -> u64 {
    match kind {
        0 => (random.below(33) as f64).to_bits(),
        1 => ((random.next() >> 11) as f64 / (1u64 << 53) as f64).to_bits(),
        // Near exponents, so that sums are rounded.
        2 => {
            let exponent = random.within(1020, 1026) as u64;
            let bits = exponent << 52 | random.next() >> 12;
            signed(random, bits)
        }
        3 => {
            let bits = *random.pick(&LEGAL);
            signed(random, bits)
        }
        _ => {
            let bits = random.next() % (LARGEST + 1);
            signed(random, bits)
        }
    }
}

/// Points of one kind that opening accepts.
pub fn points(random: &mut Random, vertices: usize) -> Vec<[u64; 3]> {
    let kind = random.below(5);
    (0..vertices)
        .map(|_| [(); 3].map(|_| accepted(random, kind)))
        .collect()
}

/// Spoils some: those over the limit, infinities, NaNs or any bits.
pub fn spoil(random: &mut Random, points: &mut [[u64; 3]]) {
    for _ in 0..random.within(1, 3) {
        let vertex = random.below(points.len());
        let bits = match random.below(4) {
            0 => random.next(),
            _ => *random.pick(&REFUSED),
        };
        points[vertex][random.below(3)] = signed(random, bits);
    }
}
