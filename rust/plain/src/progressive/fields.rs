//! The fields and the bits that must be zero, numbered together: by lowest
//! register, then lowest bit.

use super::registers::{self as reg, CURVE_BYTES, REGISTERS};
use crate::refusal::{self, demand, Refusal};

/// How many are numbered, from 1.
pub const FIELDS: usize = 52;
/// How many numbers make the settings: those of the fields, in their order.
pub const SETTINGS: usize = 58;

/// Bits of a register.
const BYTE: u32 = u8::BITS;
/// Bits of a gain.
const GAIN: u32 = 4;
/// Bits of a delay, and the longest one, in clocks.
const DELAY: u32 = 3;
const LAST_DELAY: i32 = 4;
/// Bits of the CGMS data, C0 to C19.
const CGMS_DATA: u32 = 20;

/// Which codes are settings.
#[derive(Clone, Copy, Debug, PartialEq, Eq)]
pub enum Kind {
    /// All.
    Code,
    /// All but the highest, which is reserved.
    LastReserved,
    /// A delay's: 0 to 4.
    Delay,
    /// None: these bits must be zero.
    MustBeZero,
    /// All, of each of seven bytes.
    Curve,
}

/// What has a number: a field, or a bit that must be zero.
#[derive(Clone, Copy, Debug)]
pub struct Field {
    /// Its name.
    pub name: &'static str,
    /// Which codes are settings.
    pub kind: Kind,
    /// Where its code stands; a curve's first.
    pub place: Place,
}

/// Where a code stands: the register of its lowest bit, that bit, and how many
/// bits there are. Further ones are in the registers above.
#[derive(Clone, Copy, Debug)]
pub struct Place {
    /// The lowest register.
    pub register: usize,
    /// The lowest bit there.
    pub lowest: u32,
    /// Bits.
    pub bits: u32,
}

/// All that has a number, in order.
pub const TABLE: [Field; FIELDS] = [
    field("output standard", Kind::LastReserved, reg::MODE_0, 0, 2),
    field(
        "input control signals",
        Kind::LastReserved,
        reg::MODE_0,
        2,
        2,
    ),
    code("input standard", reg::MODE_0, 4, 1),
    zero("MR05", reg::MODE_0, 5),
    code("DV polarity", reg::MODE_0, 6, 1),
    zero("MR07", reg::MODE_0, 7),
    code("pixel data enable", reg::MODE_1, 0, 1),
    code("input format", reg::MODE_1, 1, 1),
    code("test pattern enable", reg::MODE_1, 2, 1),
    code("test pattern frame", reg::MODE_1, 3, 1),
    code("VBI open", reg::MODE_1, 4, 1),
    code("undershoot limiter", reg::MODE_1, 5, 2),
    code("sharpness filter", reg::MODE_1, 7, 1),
    field("Y delay", Kind::Delay, reg::MODE_2, 0, DELAY),
    field("colour delay", Kind::Delay, reg::MODE_2, 3, DELAY),
    code("CGMS enable", reg::MODE_2, 6, 1),
    code("CGMS CRC", reg::MODE_2, 7, 1),
    code("HDTV enable", reg::MODE_3, 0, 1),
    zero("MR31", reg::MODE_3, 1),
    zero("MR32", reg::MODE_3, 2),
    code("DAC A", reg::MODE_3, 3, 1),
    code("DAC B", reg::MODE_3, 4, 1),
    code("DAC C", reg::MODE_3, 5, 1),
    code("interpolation", reg::MODE_3, 6, 1),
    zero("MR37", reg::MODE_3, 7),
    code("timing reset", reg::MODE_4, 0, 1),
    zero("MR50", reg::MODE_5, 0),
    code("RGB mode", reg::MODE_5, 1, 1),
    code("sync on PrPb", reg::MODE_5, 2, 1),
    code("colour output swap", reg::MODE_5, 3, 1),
    code("gamma curve", reg::MODE_5, 4, 1),
    code("gamma correction", reg::MODE_5, 5, 1),
    code("adaptive mode", reg::MODE_5, 6, 1),
    code("adaptive filter", reg::MODE_5, 7, 1),
    code("colour Y", reg::COLOUR_Y, 0, BYTE),
    code("colour Cr", reg::COLOUR_CR, 0, BYTE),
    code("colour Cb", reg::COLOUR_CB, 0, BYTE),
    code("mode register 6", reg::MODE_6, 0, BYTE),
    code("filter gain A", reg::FILTER_GAIN, 0, GAIN),
    code("filter gain B", reg::FILTER_GAIN, GAIN, GAIN),
    code("CGMS data", reg::CGMS, 0, CGMS_DATA),
    field("gamma curve A", Kind::Curve, reg::CURVE_A, 0, BYTE),
    field("gamma curve B", Kind::Curve, reg::CURVE_B, 0, BYTE),
    code("adaptive gain 1 A", reg::ADAPTIVE_GAIN_1, 0, GAIN),
    code("adaptive gain 1 B", reg::ADAPTIVE_GAIN_1, GAIN, GAIN),
    code("adaptive gain 2 A", reg::ADAPTIVE_GAIN_2, 0, GAIN),
    code("adaptive gain 2 B", reg::ADAPTIVE_GAIN_2, GAIN, GAIN),
    code("adaptive gain 3 A", reg::ADAPTIVE_GAIN_3, 0, GAIN),
    code("adaptive gain 3 B", reg::ADAPTIVE_GAIN_3, GAIN, GAIN),
    code("threshold A", reg::THRESHOLD_A, 0, BYTE),
    code("threshold B", reg::THRESHOLD_B, 0, BYTE),
    code("threshold C", reg::THRESHOLD_C, 0, BYTE),
];

/// A row of the table.
const fn field(name: &'static str, kind: Kind, register: usize, lowest: u32, bits: u32) -> Field {
    let place = Place {
        register,
        lowest,
        bits,
    };
    Field { name, kind, place }
}

/// A field whose every code is a setting.
const fn code(name: &'static str, register: usize, lowest: u32, bits: u32) -> Field {
    field(name, Kind::Code, register, lowest, bits)
}

/// A bit that must be zero.
const fn zero(name: &'static str, register: usize, bit: u32) -> Field {
    field(name, Kind::MustBeZero, register, bit, 1)
}

/// The place among the settings of the first one that a number has.
pub fn first_setting(number: usize) -> usize {
    TABLE[..number - 1].iter().map(Field::settings).sum()
}

impl Field {
    /// How many settings it has.
    pub fn settings(&self) -> usize {
        match self.kind {
            Kind::MustBeZero => 0,
            Kind::Curve => CURVE_BYTES,
            _ => 1,
        }
    }

    /// Where its codes stand, one for each setting; a must-be-zero bit has one too.
    pub fn places(&self) -> impl Iterator<Item = Place> {
        let first = self.place;
        (0..self.settings().max(1)).map(move |place| Place {
            register: first.register + place,
            ..first
        })
    }

    /// Refuses a setting, or a code of an image, that this number can't have.
    pub(crate) fn demand(&self, value: i32, number: u32) -> Result<(), Refusal> {
        let codes = 1 << self.place.bits;
        match self.kind {
            Kind::MustBeZero => return demand(value == 0, refusal::RESERVED, number),
            Kind::Delay => {
                return demand((0..=LAST_DELAY).contains(&value), refusal::RANGE, number)
            }
            _ => demand((0..codes).contains(&value), refusal::RANGE, number)?,
        }
        let reserved = self.kind == Kind::LastReserved && value == codes - 1;
        demand(!reserved, refusal::RESERVED, number)
    }
}

impl Place {
    /// The registers that it has bits in, with those bits.
    fn masks(self) -> impl Iterator<Item = (usize, u32, u8)> {
        let bits = ((1u32 << self.bits) - 1) << self.lowest;
        let shifts = (0..self.lowest + self.bits).step_by(BYTE as usize);
        (self.register..)
            .zip(shifts)
            .map(move |(register, shift)| (register, shift, (bits >> shift) as u8))
    }

    /// The code that an image has here.
    pub fn get(self, image: &[u8; REGISTERS]) -> i32 {
        let bits = self.masks().fold(0, |bits, (register, shift, mask)| {
            bits | u32::from(image[register] & mask) << shift
        });
        (bits >> self.lowest) as i32
    }

    /// Puts a code here.
    pub fn put(self, image: &mut [u8; REGISTERS], code: i32) {
        let bits = (code as u32) << self.lowest;
        for (register, shift, mask) in self.masks() {
            image[register] = image[register] & !mask | (bits >> shift) as u8 & mask;
        }
    }
}
