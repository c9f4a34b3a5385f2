//! What is wrong or unknown on the boards of the records of asking why.

/// What is flipped on a board: bits of a register.
pub(crate) type Flip = (usize, u8);
/// Bits of several fields in one register, then with must-be-zero bits, then those alone.
pub(crate) const TOGETHER: [Flip; 32] = [
    (0x00, 0x03),
    (0x01, 0xFF),
    (0x02, 0x08),
    (0x02, 0x10),
    (0x02, 0x18),
    (0x02, 0xFF),
    (0x05, 0xFF),
    (0x05, 0xFE),
    (0x05, 0xF8),
    (0x05, 0xF0),
    (0x05, 0x40),
    (0x05, 0x80),
    (0x23, 0x11),
    (0x23, 0x10),
    (0x24, 0xFF),
    (0x24, 0xC0),
    (0x24, 0x80),
    (0x25, 0xFF),
    (0x25, 0xF8),
    (0x25, 0x10),
    (0x21, 0x81),
    (0x21, 0xC0),
    (0x21, 0xFF),
    (0x22, 0x11),
    (0x22, 0x88),
    (0x22, 0xFF),
    (0x21, 0x80),
    (0x22, 0x10),
    (0x22, 0x20),
    (0x22, 0x40),
    (0x22, 0x80),
    (0x22, 0xF0),
];

/// Gaps between what is wrong, with CGMS: what it shows, and the flips.
pub(crate) const GAPS: [(&str, &[Flip]); 16] = [
    ("1E in a gap of one.", &[(0x1D, 1), (0x1F, 1)]),
    ("1E and 1F in a gap of two.", &[(0x1D, 1), (0x20, 1)]),
    ("A gap of three isn't joined.", &[(0x1D, 1), (0x21, 1)]),
    ("01 between 00 and 02.", &[(0x00, 1), (0x02, 0x08)]),
    ("03 and 04, outside all fields.", &[(0x02, 0x08), (0x05, 1)]),
    ("1C, outside all fields.", &[(0x1B, 1), (0x1D, 1)]),
    ("1B and 1C.", &[(0x1A, 1), (0x1D, 1)]),
    ("1C and 1D.", &[(0x1B, 1), (0x1E, 1)]),
    ("1A between 19 and 1B.", &[(0x19, 0x20), (0x1B, 1)]),
    ("32 between 31 and 33.", &[(0x31, 1), (0x33, 1)]),
    (
        "Two gaps: each bridge has its own neighbours.",
        &[(0x1D, 1), (0x1F, 1), (0x22, 1)],
    ),
    (
        "Two gaps, two registers wrong between them.",
        &[(0x26, 1), (0x28, 1), (0x29, 1), (0x2C, 1)],
    ),
    (
        "Between must-be-zero bits of 21 and a field of 23.",
        &[(0x21, 0x80), (0x23, 1)],
    ),
    (
        "Between a field of 20 and must-be-zero bits of 22.",
        &[(0x20, 1), (0x22, 0x10)],
    ),
    ("The word's first register and 10.", &[(0x0C, 1), (0x10, 1)]),
    ("05 and the word are apart.", &[(0x05, 1), (0x0C, 1)]),
];

/// Unknown registers with CGMS: what it shows, what is unknown, and the flips.
pub(crate) const UNKNOWN: [(&str, &[usize], &[Flip]); 13] = [
    (
        "05 is unknown, and wrong as it stands.",
        &[0x05],
        &[(0x05, 0xFF)],
    ),
    (
        "21 and 22 are unknown, with must-be-zero bits.",
        &[0x21, 0x22],
        &[(0x21, 0x80), (0x22, 0xF1)],
    ),
    (
        "0C is unknown: the others are its companions.",
        &[0x0C],
        &[],
    ),
    ("0E is unknown, 0D is wrong.", &[0x0E], &[(0x0D, 1)]),
    ("The whole word is unknown.", &[0x0C, 0x0D, 0x0E, 0x0F], &[]),
    (
        "10 is unknown, and the word is wrong.",
        &[0x10],
        &[(0x0F, 1)],
    ),
    (
        "1D is unknown: a bridge's neighbour.",
        &[0x1D],
        &[(0x1B, 1)],
    ),
    (
        "1E is unknown between 1D and 20: 1F is the bridge.",
        &[0x1E],
        &[(0x1D, 1), (0x20, 1)],
    ),
    (
        "1C is unknown between 1B and 1D: no bridge.",
        &[0x1C],
        &[(0x1B, 1), (0x1D, 1)],
    ),
    (
        "03 is unknown between 02 and 05: no bridge.",
        &[0x03],
        &[(0x02, 0x08), (0x05, 1)],
    ),
    ("1A is unknown.", &[0x1A], &[]),
    (
        "33 to 35 are unknown: only 33 is sent.",
        &[0x33, 0x34, 0x35],
        &[],
    ),
    ("11 to 14 are unknown.", &[0x11, 0x12, 0x13, 0x14], &[]),
];

/// Runs that limits cut, with CGMS: what it shows, the registers that are wrong, and the limits.
pub(crate) const CUT: [(&str, &[usize], &[i64]); 7] = [
    (
        "1D to 1F, 21 and 22: 20 isn't sent where the run is cut there.",
        &[0x1D, 0x1E, 0x1F, 0x21, 0x22],
        &[4, 5, 6],
    ),
    (
        "1D, 1F, 21, 23 and 25: every gap is one.",
        &[0x1D, 0x1F, 0x21, 0x23, 0x25],
        &[4, 5, 6, 8, 9],
    ),
    (
        "1D, 20, 23 and 26: every gap is two.",
        &[0x1D, 0x20, 0x23, 0x26],
        &[4, 6, 7, 9, 10],
    ),
    ("19, 1B and 1D.", &[0x19, 0x1B, 0x1D], &[4, 5]),
    ("02 and 05.", &[0x02, 0x05], &[4, 5]),
    ("00 to 02 and 05.", &[0x00, 0x01, 0x02, 0x05], &[4, 5, 6]),
    ("The word's middle and 10.", &[0x0E, 0x10], &[4, 5]),
];
