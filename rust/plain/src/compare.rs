//! Two images side by side: the fields that differ, and the registers that
//! differ in bits outside all fields.

use crate::board::ALL_KNOWN;
use crate::fields::SETTINGS;
use crate::read::read;
use crate::refusal;
use crate::registers::{self as reg, CURVE_BYTES, REGISTERS, WORD_BYTES};

/// The number of the last field.
pub const LAST_FIELD: u32 = 28;

/// A whole register.
const WHOLE: u8 = 0xFF;

/// Where a field is: its first register, how many registers it has, and its
/// bits in each of them.
type Place = (usize, usize, u8);

/// Every field's place, field 1 first. Must-be-zero bits count to their field:
/// brightness and sharpness have the whole byte.
const PLACES: [Place; LAST_FIELD as usize] = [
    (reg::MODE_0, 1, reg::STANDARD_BITS),
    (reg::MODE_2, 1, reg::SQUARE_BIT),
    (reg::MODE_1, 1, reg::FOUR_TIMES_BIT),
    (reg::MODE_2, 1, reg::PEDESTAL_BIT),
    (reg::MODE_5, 1, reg::Y_LEVEL_BIT),
    (reg::MODE_5, 1, reg::TWO_BITS << reg::UV_LEVEL_SHIFT),
    (reg::MODE_5, 1, reg::RGB_SYNC_BIT),
    (
        reg::MODE_5,
        1,
        reg::CLAMP_NEGATIVE_BIT | reg::TWO_BITS << reg::CLAMP_SHIFT,
    ),
    (reg::MODE_5, 1, reg::BACK_PORCH_BIT),
    (reg::PHASE, 1, WHOLE),
    (reg::SIGNAL_TOP, reg::SIGNAL_BYTES, WHOLE),
    (reg::CONTRAST, 1, WHOLE),
    (reg::U_SCALE, 1, WHOLE),
    (reg::V_SCALE, 1, WHOLE),
    (reg::HUE, 1, WHOLE),
    (reg::BRIGHTNESS, 1, WHOLE),
    (reg::SHARPNESS, 1, WHOLE),
    (reg::DNR_GAINS, 1, reg::LOW_BITS),
    (reg::DNR_GAINS, 1, reg::LOW_BITS << reg::HIGH_SHIFT),
    (reg::DNR_SIZES, 1, reg::THRESHOLD_BITS),
    (reg::DNR_SIZES, 1, reg::BORDER_AREA_BIT),
    (reg::DNR_SIZES, 1, reg::BLOCK_SIZE_BIT),
    (reg::DNR_MODES, 1, reg::DNR_INPUT_BITS),
    (reg::DNR_MODES, 1, reg::DNR_MODE_BIT),
    (reg::DNR_MODES, 1, reg::LOW_BITS << reg::HIGH_SHIFT),
    (reg::CURVE_A, CURVE_BYTES, WHOLE),
    (reg::CURVE_B, CURVE_BYTES, WHOLE),
    (reg::WORD, WORD_BYTES, WHOLE),
];

/// What comparing answers. After a refusal all but the refusal is 0.
#[derive(Clone, Copy, Debug, Default, PartialEq, Eq)]
pub struct CompareAnswer {
    /// The refusal, or 0.
    pub refusal: u32,
    /// Always 0.
    pub field: u32,
    /// 1 where reading accepts both images, else 0.
    pub readable: u32,
    /// Bit f is set where field f differs.
    pub fields: u32,
    /// Bit r is set where register r differs outside all fields.
    pub registers: u64,
}

/// Compares two images. Refuses either where it isn't 54 bytes.
pub fn compare(a: &[u8], b: &[u8]) -> CompareAnswer {
    if a.len() != REGISTERS || b.len() != REGISTERS {
        return CompareAnswer {
            refusal: refusal::IMAGE_LENGTH,
            ..CompareAnswer::default()
        };
    }
    let mut answer = CompareAnswer {
        readable: (is_read(a) && is_read(b)) as u32,
        ..CompareAnswer::default()
    };
    for field in 1..=LAST_FIELD {
        answer.fields |= ((raw_code(a, field) != raw_code(b, field)) as u32) << field;
    }
    for register in (0..REGISTERS).filter(|&register| register != reg::READ_ONLY) {
        let differs = (a[register] ^ b[register]) & outside(register) != 0;
        answer.registers |= (differs as u64) << register;
    }
    answer
}

/// A field's registers in order, bits that aren't its own zeroed.
pub fn raw_code(image: &[u8], field: u32) -> Vec<u8> {
    let (first, count, bits) = PLACES[field as usize - 1];
    let registers = &image[first..][..count];
    registers.iter().map(|byte| byte & bits).collect()
}

/// A field's bits in a register, the must-be-zero ones among them.
pub(crate) fn bits_in(register: usize, field: u32) -> u8 {
    let (first, count, bits) = PLACES[field as usize - 1];
    if (first..first + count).contains(&register) {
        bits
    } else {
        0
    }
}

/// A register's bits outside all fields.
pub fn outside(register: usize) -> u8 {
    (1..=LAST_FIELD).fold(WHOLE, |bits, field| bits & !bits_in(register, field))
}

/// Whether reading accepts an image, known in full.
fn is_read(image: &[u8]) -> bool {
    read(image, ALL_KNOWN, &mut [0; SETTINGS]).refusal == 0
}
