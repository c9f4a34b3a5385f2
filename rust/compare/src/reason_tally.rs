//! Which reasons came, and at which registers they can.

use crate::flags::FIELDS;
use plain::registers::{self as reg, span, REGISTERS, WORD_MAP};
use plain::{raw_code, ALL_KNOWN, LAST_FIELD};

/// The reason that is a field's change.
const FIELD: usize = 2;
/// The registers that settings fix only in part at all times.
const MODES: u64 = span(reg::MODE_0, 3);
/// The registers with must-be-zero bits.
const ZEROS: u64 = span(reg::BRIGHTNESS, 2);
/// The registers between two that can be needed, at most two of them apart.
const BRIDGES: u64 = span(reg::MODE_1, 1)
    | span(reg::MODE_2 + 1, 2)
    | span(reg::SIGNAL_MIDDLE, reg::READ_ONLY - 1 - reg::SIGNAL_MIDDLE);
/// For each number of a reason its name, and the registers that it can be given for.
const REASONS: [(&str, u64); 6] = [
    ("not sent", ALL_KNOWN),
    ("unknown", FIELDS & !MODES),
    ("field changed", FIELDS),
    ("must be zero", ZEROS),
    ("companion", WORD_MAP),
    ("bridge", BRIDGES),
];

/// Counts by reason and register, and of fields that changed by their number.
pub struct ReasonTally {
    registers: [[u64; REGISTERS]; REASONS.len()],
    fields: [u64; LAST_FIELD as usize + 1],
}

impl Default for ReasonTally {
    fn default() -> ReasonTally {
        ReasonTally {
            registers: [[0; REGISTERS]; REASONS.len()],
            fields: [0; LAST_FIELD as usize + 1],
        }
    }
}

impl ReasonTally {
    /// Counts a reason given for a register; says whether it can be given there.
    pub fn count(&mut self, register: u32, reason: u32, first: u32) -> bool {
        let (place, reason) = (register as usize, reason as usize);
        let Some((_, can)) = REASONS.get(reason) else {
            return false;
        };
        if place >= REGISTERS {
            return reason == 0;
        }
        self.registers[reason][place] += 1;
        if reason == FIELD && !self.count_field(place, first) {
            return false;
        }
        can >> place & 1 == 1
    }

    /// Counts a field that changed in a register; says whether it has bits there.
    fn count_field(&mut self, register: usize, field: u32) -> bool {
        let mut image = [0; REGISTERS];
        image[register] = u8::MAX;
        let is_field = (1..=LAST_FIELD).contains(&field);
        if is_field {
            self.fields[field as usize] += 1;
        }
        is_field && raw_code(&image, field).iter().any(|&bits| bits != 0)
    }

    /// Prints the table, and gives how many that can be given never were.
    pub fn print(&self) -> u64 {
        println!("reason             count registers   of");
        let mut missing = 0;
        for ((name, can), counts) in REASONS.iter().zip(&self.registers) {
            let total: u64 = counts.iter().sum();
            let at = counts.iter().filter(|&&count| count > 0).count() as u64;
            let of = u64::from(can.count_ones());
            let note = if at < of { "  NEVER CAME" } else { "" };
            println!("{name:13} {total:10} {at:9} {of:4}{note}");
            missing += of.saturating_sub(at);
        }
        let never = |&field: &u32| self.fields[field as usize] == 0;
        for field in (1..=LAST_FIELD).filter(never) {
            println!("field {field} changed: NEVER CAME");
            missing += 1;
        }
        missing
    }
}
