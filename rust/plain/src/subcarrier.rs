//! The subcarrier word, worked out at compile time.

/// Cycles per line as a fraction: NTSC, then PAL.
const CYCLES: [(u64, u64); 2] = [(455, 2), (709_379, 2_500)];
/// Clocks per line: NTSC plain and square, then PAL plain and square.
const CLOCKS: [[u64; 2]; 2] = [[1716, 1560], [1728, 1888]];
/// All four words, by standard, then square pixel.
static WORDS: [[u32; 2]; 2] = [
    [nearest(0, 0), nearest(0, 1)],
    [nearest(1, 0), nearest(1, 1)],
];

/// The word for a standard and square pixel or not.
#[inline]
pub fn word(pal: bool, square: bool) -> u32 {
    WORDS[pal as usize][square as usize]
}

/// The whole number nearest to 2^32 times cycles over clocks.
const fn nearest(standard: usize, square: usize) -> u32 {
    let (cycles, over) = CYCLES[standard];
    let above = cycles << 32;
    let below = over * CLOCKS[standard][square];
    ((2 * above + below) / (2 * below)) as u32
}
