//! Settings as 49 numbers, as they cross to the archive.

use crate::settings::{Curve, Settings, Signalling, Standard, YLevel, CURVE_BYTES};

/// How many numbers make the settings.
pub const NUMBERS: usize = 49;

/// Settings as numbers, in field order.
pub type Numbers = [i32; NUMBERS];

/// The index of each number.
#[allow(missing_docs)]
pub mod index {
    pub const STANDARD: usize = 0;
    pub const SQUARE: usize = 1;
    pub const FOUR_TIMES: usize = 2;
    pub const PEDESTAL: usize = 3;
    pub const Y_LEVEL: usize = 4;
    pub const UV_LEVEL: usize = 5;
    pub const RGB_SYNC: usize = 6;
    pub const CLAMP_DELAY: usize = 7;
    pub const BACK_PORCH: usize = 8;
    pub const PHASE: usize = 9;
    /// 0 off, 1 CGMS, 2 WSS.
    pub const SIGNALLING: usize = 10;
    /// CGMS payload or WSS number.
    pub const PAYLOAD: usize = 11;
    pub const ODD: usize = 12;
    pub const EVEN: usize = 13;
    pub const CHIP_CHECK: usize = 14;
    pub const CONTRAST: usize = 15;
    pub const U_SCALE: usize = 16;
    pub const V_SCALE: usize = 17;
    pub const HUE: usize = 18;
    pub const BRIGHTNESS: usize = 19;
    pub const SHARPNESS: usize = 20;
    pub const BORDER_GAIN: usize = 21;
    pub const DATA_GAIN: usize = 22;
    pub const THRESHOLD: usize = 23;
    pub const BORDER_AREA: usize = 24;
    pub const BLOCK_SIZE: usize = 25;
    pub const DNR_INPUT: usize = 26;
    pub const DNR_MODE: usize = 27;
    pub const BLOCK_OFFSET: usize = 28;
    /// Curve A's kind: 0 ratio, 1 bytes.
    pub const CURVE_A: usize = 29;
    /// Curve B's kind: 0 ratio, 1 bytes.
    pub const CURVE_B: usize = 39;
    /// After a curve's kind: p.
    pub const CURVE_P: usize = 1;
    /// After a curve's kind: q.
    pub const CURVE_Q: usize = 2;
    /// After a curve's kind: the first of seven bytes.
    pub const CURVE_FIRST: usize = 3;
}

/// Signalling off, CGMS and WSS as numbers.
const OFF: i32 = 0;
const CGMS: i32 = 1;
const WSS: i32 = 2;
/// A curve as a ratio and as bytes.
const RATIO: i32 = 0;
const BYTES: i32 = 1;

impl Settings {
    /// The 49 numbers; those that a kind doesn't use are 0.
    ///
    /// ```
    /// use adv7194::{index, Settings};
    ///
    /// let numbers = Settings::house().to_numbers();
    /// assert_eq!(numbers[index::CONTRAST], 1000);
    /// assert_eq!(Settings::from_numbers(&numbers), Some(Settings::house()));
    /// ```
    pub fn to_numbers(&self) -> Numbers {
        let mut n = [0; NUMBERS];
        n[index::STANDARD] = (self.standard == Standard::Pal) as i32;
        n[index::SQUARE] = self.square_pixel as i32;
        n[index::FOUR_TIMES] = self.four_times as i32;
        n[index::PEDESTAL] = self.pedestal as i32;
        n[index::Y_LEVEL] = (self.y_level == YLevel::Smpte) as i32;
        n[index::UV_LEVEL] = self.uv_level;
        n[index::RGB_SYNC] = self.rgb_sync as i32;
        n[index::CLAMP_DELAY] = self.clamp_delay;
        n[index::BACK_PORCH] = self.back_porch as i32;
        n[index::PHASE] = self.phase as i32;
        signalling_to(self.signalling, &mut n);
        n[index::CONTRAST] = self.contrast;
        n[index::U_SCALE] = self.u_scale;
        n[index::V_SCALE] = self.v_scale;
        n[index::HUE] = self.hue;
        n[index::BRIGHTNESS] = self.brightness;
        n[index::SHARPNESS] = self.sharpness;
        n[index::BORDER_GAIN] = self.border_gain;
        n[index::DATA_GAIN] = self.data_gain;
        n[index::THRESHOLD] = self.threshold;
        n[index::BORDER_AREA] = self.border_area as i32;
        n[index::BLOCK_SIZE] = self.block_size as i32;
        n[index::DNR_INPUT] = self.dnr_input;
        n[index::DNR_MODE] = self.dnr_mode as i32;
        n[index::BLOCK_OFFSET] = self.block_offset;
        curve_to(self.curve_a, &mut n, index::CURVE_A);
        curve_to(self.curve_b, &mut n, index::CURVE_B);
        n
    }

    /// The settings that the numbers encode, or nothing where a number has
    /// no typed form: a yes or no, a standard, a level or a kind that isn't
    /// one, or a byte that doesn't fit. Numbers that a kind doesn't use are
    /// ignored. Ranges aren't judged here.
    pub fn from_numbers(n: &Numbers) -> Option<Settings> {
        Some(Settings {
            standard: standard_of(n[index::STANDARD])?,
            square_pixel: yes(n[index::SQUARE])?,
            four_times: yes(n[index::FOUR_TIMES])?,
            pedestal: yes(n[index::PEDESTAL])?,
            y_level: y_level_of(n[index::Y_LEVEL])?,
            uv_level: n[index::UV_LEVEL],
            rgb_sync: yes(n[index::RGB_SYNC])?,
            clamp_delay: n[index::CLAMP_DELAY],
            back_porch: yes(n[index::BACK_PORCH])?,
            phase: u8::try_from(n[index::PHASE]).ok()?,
            signalling: signalling_of(n)?,
            contrast: n[index::CONTRAST],
            u_scale: n[index::U_SCALE],
            v_scale: n[index::V_SCALE],
            hue: n[index::HUE],
            brightness: n[index::BRIGHTNESS],
            sharpness: n[index::SHARPNESS],
            border_gain: n[index::BORDER_GAIN],
            data_gain: n[index::DATA_GAIN],
            threshold: n[index::THRESHOLD],
            border_area: yes(n[index::BORDER_AREA])?,
            block_size: yes(n[index::BLOCK_SIZE])?,
            dnr_input: n[index::DNR_INPUT],
            dnr_mode: yes(n[index::DNR_MODE])?,
            block_offset: n[index::BLOCK_OFFSET],
            curve_a: curve_of(n, index::CURVE_A)?,
            curve_b: curve_of(n, index::CURVE_B)?,
        })
    }
}

impl From<&Settings> for Numbers {
    /// The 49 numbers.
    fn from(settings: &Settings) -> Numbers {
        settings.to_numbers()
    }
}

/// A yes or no.
fn yes(number: i32) -> Option<bool> {
    match number {
        0 => Some(false),
        1 => Some(true),
        _ => None,
    }
}

/// The standard of a number.
fn standard_of(number: i32) -> Option<Standard> {
    yes(number).map(|pal| if pal { Standard::Pal } else { Standard::Ntsc })
}

/// The Y level of a number.
fn y_level_of(number: i32) -> Option<YLevel> {
    yes(number).map(|smpte| {
        if smpte {
            YLevel::Smpte
        } else {
            YLevel::Betacam
        }
    })
}

/// Signalling into its five numbers.
fn signalling_to(signalling: Signalling, n: &mut Numbers) {
    match signalling {
        Signalling::Off => n[index::SIGNALLING] = OFF,
        Signalling::Cgms {
            payload,
            odd,
            even,
            chip_check,
        } => {
            n[index::SIGNALLING] = CGMS;
            n[index::PAYLOAD] = payload;
            n[index::ODD] = odd as i32;
            n[index::EVEN] = even as i32;
            n[index::CHIP_CHECK] = chip_check as i32;
        }
        Signalling::Wss { number } => {
            n[index::SIGNALLING] = WSS;
            n[index::PAYLOAD] = number;
        }
    }
}

/// Signalling out of its five numbers.
fn signalling_of(n: &Numbers) -> Option<Signalling> {
    match n[index::SIGNALLING] {
        OFF => Some(Signalling::Off),
        CGMS => Some(Signalling::Cgms {
            payload: n[index::PAYLOAD],
            odd: yes(n[index::ODD])?,
            even: yes(n[index::EVEN])?,
            chip_check: yes(n[index::CHIP_CHECK])?,
        }),
        WSS => Some(Signalling::Wss {
            number: n[index::PAYLOAD],
        }),
        _ => None,
    }
}

/// A curve into its ten numbers, from `kind` on.
fn curve_to(curve: Curve, n: &mut Numbers, kind: usize) {
    match curve {
        Curve::Ratio { p, q } => {
            n[kind] = RATIO;
            n[kind + index::CURVE_P] = p;
            n[kind + index::CURVE_Q] = q;
        }
        Curve::Bytes(bytes) => {
            n[kind] = BYTES;
            for (place, byte) in bytes.into_iter().enumerate() {
                n[kind + index::CURVE_FIRST + place] = byte as i32;
            }
        }
    }
}

/// A curve out of its ten numbers, from `kind` on.
fn curve_of(n: &Numbers, kind: usize) -> Option<Curve> {
    match n[kind] {
        RATIO => Some(Curve::Ratio {
            p: n[kind + index::CURVE_P],
            q: n[kind + index::CURVE_Q],
        }),
        BYTES => {
            let mut bytes = [0; CURVE_BYTES];
            for (place, byte) in bytes.iter_mut().enumerate() {
                *byte = u8::try_from(n[kind + index::CURVE_FIRST + place]).ok()?;
            }
            Some(Curve::Bytes(bytes))
        }
        _ => None,
    }
}
