//! What fields have.

use plain::registers::REGISTERS;
use plain::{raw_code, LAST_FIELD};

/// The lowest field that has bits in a register, or 0.
pub fn lowest_field(register: usize) -> u32 {
    let mut image = [0; REGISTERS];
    image[register] = 0xFF;
    let has = |&field: &u32| raw_code(&image, field).iter().any(|&byte| byte != 0);
    (1..=LAST_FIELD).find(has).unwrap_or(0)
}
