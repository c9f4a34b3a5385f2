//! Gamma curves from a ratio, by whole powers, worked out at compile time.

use crate::registers::CURVE_BYTES;

/// The largest p or q.
pub const LARGEST: usize = 3;
/// From one point of the curve to the next, and the first point.
const STEP: u64 = 32;
/// The byte that black has.
const BLACK: u64 = 16;
/// From black to white.
const RANGE: u64 = 224;

/// All nine curves, by p less one, then q less one.
static CURVES: [[[u8; CURVE_BYTES]; LARGEST]; LARGEST] = all();

/// The seven bytes for the ratio `p`/`q`, each 1 to 3.
#[inline]
pub fn curve(p: usize, q: usize) -> [u8; CURVE_BYTES] {
    CURVES[p - 1][q - 1]
}

/// Works out all nine curves.
const fn all() -> [[[u8; CURVE_BYTES]; LARGEST]; LARGEST] {
    let mut curves = [[[0; CURVE_BYTES]; LARGEST]; LARGEST];
    let mut p = 1;
    while p <= LARGEST {
        let mut q = 1;
        while q <= LARGEST {
            curves[p - 1][q - 1] = seven(p as u32, q as u32);
            q += 1;
        }
        p += 1;
    }
    curves
}

/// The seven bytes for p/q. They rise, so each is sought from the last one on.
const fn seven(p: u32, q: u32) -> [u8; CURVE_BYTES] {
    let mut bytes = [0; CURVE_BYTES];
    let mut height = 0;
    let mut point = 0;
    while point < CURVE_BYTES {
        let along = STEP * (point as u64 + 1) - BLACK;
        while reaches(height + 1, along, p, q) {
            height += 1;
        }
        bytes[point] = (BLACK + height) as u8;
        point += 1;
    }
    bytes
}

/// Whether 224 (along/224)^(p/q) is at least `height` less one half.
/// Both sides to the power q, times 2^q and 224^p.
const fn reaches(height: u64, along: u64, p: u32, q: u32) -> bool {
    (2 * height - 1).pow(q) * RANGE.pow(p) <= (2 * RANGE).pow(q) * along.pow(p)
}
