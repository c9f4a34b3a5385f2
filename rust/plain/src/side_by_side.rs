//! The text of two images side by side, a line for each difference.

use crate::board::ALL_KNOWN;
use crate::compare::{compare, outside, raw_code, LAST_FIELD};
use crate::fields::{self as at, number, SETTINGS};
use crate::read::read;
use crate::registers::{self as reg, CURVE_BYTES, REGISTERS, WORD_BYTES};

/// How a field's setting is written.
enum Form {
    /// The number at this index, as one of two words.
    Word(usize, [&'static str; 2]),
    /// The number at this index, then its unit.
    Number(usize, &'static str),
    /// Off, CGMS or WSS.
    Signalling,
    /// Seven bytes, from this kind on.
    Curve(usize),
    /// The image's own subcarrier word.
    Subcarrier,
}

/// A no and a yes.
const NO_YES: [&str; 2] = ["no", "yes"];

/// Every field's name and form, field 1 first.
const NAMES: [(&str, Form); LAST_FIELD as usize] = [
    ("standard", Form::Word(at::STANDARD, ["NTSC", "PAL"])),
    ("square pixel", Form::Word(at::SQUARE, NO_YES)),
    ("4x oversampling", Form::Word(at::FOUR_TIMES, NO_YES)),
    ("pedestal", Form::Word(at::PEDESTAL, NO_YES)),
    ("Y level", Form::Word(at::Y_LEVEL, ["Betacam", "SMPTE"])),
    ("UV level", Form::Number(at::UV_LEVEL, "")),
    ("RGB sync", Form::Word(at::RGB_SYNC, NO_YES)),
    ("clamp delay", Form::Number(at::CLAMP_DELAY, " clocks")),
    ("clamp in back porch", Form::Word(at::BACK_PORCH, NO_YES)),
    ("subcarrier phase", Form::Number(at::PHASE, "")),
    ("signalling", Form::Signalling),
    ("contrast", Form::Number(at::CONTRAST, " thousandths")),
    ("U scale", Form::Number(at::U_SCALE, " thousandths")),
    ("V scale", Form::Number(at::V_SCALE, " thousandths")),
    ("hue", Form::Number(at::HUE, " tenths of a degree")),
    (
        "brightness",
        Form::Number(at::BRIGHTNESS, " tenths of an IRE"),
    ),
    ("sharpness", Form::Number(at::SHARPNESS, " steps")),
    ("DNR border gain", Form::Number(at::BORDER_GAIN, "")),
    ("DNR data gain", Form::Number(at::DATA_GAIN, "")),
    ("DNR threshold", Form::Number(at::THRESHOLD, "")),
    ("DNR border area", Form::Word(at::BORDER_AREA, NO_YES)),
    ("DNR block size", Form::Word(at::BLOCK_SIZE, NO_YES)),
    ("DNR input", Form::Number(at::DNR_INPUT, "")),
    ("DNR mode", Form::Word(at::DNR_MODE, NO_YES)),
    ("DNR block offset", Form::Number(at::BLOCK_OFFSET, "")),
    ("gamma curve A", Form::Curve(at::CURVE_A)),
    ("gamma curve B", Form::Curve(at::CURVE_B)),
    ("subcarrier word", Form::Subcarrier),
];

/// What two images are side by side: how many differences, the fields that
/// differ, the registers that differ outside all fields; or the refusal.
pub fn side_by_side(a: &[u8], b: &[u8]) -> String {
    let answer = compare(a, b);
    if answer.refusal != 0 {
        return format!("REFUSED {} {}\n", answer.refusal, number::NONE);
    }
    let differences = answer.fields.count_ones() + answer.registers.count_ones();
    let mut text = format!("DIFFERENCES {differences}\n");
    for field in (1..=LAST_FIELD).filter(|field| answer.fields >> field & 1 == 1) {
        let shown = if answer.readable == 1 {
            format!("{} | {}", setting(a, field), setting(b, field))
        } else {
            let (a, b) = (raw_code(a, field), raw_code(b, field));
            format!("raw {} | {}", hex(&a), hex(&b))
        };
        text += &format!("{field} {} {shown}\n", name(field));
    }
    for register in (0..REGISTERS).filter(|register| answer.registers >> register & 1 == 1) {
        let bits = outside(register);
        let (a, b) = (a[register] & bits, b[register] & bits);
        text += &format!("register {register:02X} {a:02X} | {b:02X}\n");
    }
    text
}

/// A field's name.
pub(crate) fn name(field: u32) -> &'static str {
    NAMES[field as usize - 1].0
}

/// Bytes in two hexadecimal digits each, a space between them.
pub(crate) fn hex(bytes: &[u8]) -> String {
    let digits: Vec<String> = bytes.iter().map(|byte| format!("{byte:02X}")).collect();
    digits.join(" ")
}

/// A field's setting in an image that reading accepts.
fn setting(image: &[u8], field: u32) -> String {
    let mut s = [0; SETTINGS];
    read(image, ALL_KNOWN, &mut s);
    match NAMES[field as usize - 1].1 {
        Form::Word(index, words) => words[s[index] as usize].to_string(),
        Form::Number(index, unit) => format!("{}{unit}", s[index]),
        Form::Signalling => signalling(&s),
        Form::Curve(kind) => {
            let numbers = &s[kind + at::CURVE_FIRST..][..CURVE_BYTES];
            let bytes: Vec<u8> = numbers.iter().map(|&number| number as u8).collect();
            hex(&bytes)
        }
        Form::Subcarrier => {
            let bytes = &image[reg::WORD..][..WORD_BYTES];
            bytes
                .iter()
                .rev()
                .map(|byte| format!("{byte:02X}"))
                .collect()
        }
    }
}

/// Signalling, with its numbers.
fn signalling(s: &[i32; SETTINGS]) -> String {
    let payload = s[at::PAYLOAD];
    let flag = |index: usize| NO_YES[s[index] as usize];
    match s[at::SIGNALLING] {
        at::OFF => "off".to_string(),
        at::WSS => format!("WSS {payload}"),
        _ => {
            let (odd, even) = (flag(at::ODD), flag(at::EVEN));
            let chip_check = flag(at::CHIP_CHECK);
            format!("CGMS {payload} odd {odd} even {even} chip check {chip_check}")
        }
    }
}
