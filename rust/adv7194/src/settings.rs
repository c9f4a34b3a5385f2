//! Settings with types.

use crate::numbers::NUMBERS;
use crate::{ffi, refusal};

/// Bytes of a gamma curve.
pub const CURVE_BYTES: usize = 7;

/// The television standard.
#[derive(Clone, Copy, Debug, PartialEq, Eq, Hash)]
pub enum Standard {
    /// NTSC.
    Ntsc,
    /// PAL.
    Pal,
}

/// The Y level.
#[derive(Clone, Copy, Debug, PartialEq, Eq, Hash)]
pub enum YLevel {
    /// Betacam.
    Betacam,
    /// SMPTE.
    Smpte,
}

/// Signalling in the picture's first lines.
#[derive(Clone, Copy, Debug, PartialEq, Eq, Hash)]
pub enum Signalling {
    /// None.
    Off,
    /// CGMS, with NTSC only.
    Cgms {
        /// 0 to 16383, C0 the lowest bit.
        payload: i32,
        /// Sent in odd fields.
        odd: bool,
        /// Sent in even fields.
        even: bool,
        /// The chip works out the check itself.
        chip_check: bool,
    },
    /// WSS, with PAL only.
    Wss {
        /// 0 to 16383, W0 the lowest bit; W0 to W3 hold an odd number of ones.
        number: i32,
    },
}

/// A gamma curve.
#[derive(Clone, Copy, Debug, PartialEq, Eq, Hash)]
pub enum Curve {
    /// To the power p/q, each 1 to 3.
    Ratio {
        /// Above the line.
        p: i32,
        /// Below the line.
        q: i32,
    },
    /// Seven bytes as given.
    Bytes([u8; CURVE_BYTES]),
}

/// Everything that can be set, in the order of the fields. Numbers outside
/// their range can be given, and are refused in planning.
#[derive(Clone, Copy, Debug, PartialEq, Eq, Hash)]
pub struct Settings {
    /// Field 1.
    pub standard: Standard,
    /// Field 2: square pixel; not with 4x oversampling.
    pub square_pixel: bool,
    /// Field 3: 4x oversampling.
    pub four_times: bool,
    /// Field 4: pedestal; not with PAL.
    pub pedestal: bool,
    /// Field 5.
    pub y_level: YLevel,
    /// Field 6: UV level, 0 to 2.
    pub uv_level: i32,
    /// Field 7: RGB sync.
    pub rgb_sync: bool,
    /// Field 8: clamp delay, -3 to 3 clocks.
    pub clamp_delay: i32,
    /// Field 9: clamp in the back porch.
    pub back_porch: bool,
    /// Field 10: subcarrier phase.
    pub phase: u8,
    /// Field 11.
    pub signalling: Signalling,
    /// Field 12: contrast, 0 to 1500 thousandths.
    pub contrast: i32,
    /// Field 13: U scale, 0 to 1996 thousandths.
    pub u_scale: i32,
    /// Field 14: V scale, 0 to 1996 thousandths.
    pub v_scale: i32,
    /// Field 15: hue, -225 to 224 tenths of a degree.
    pub hue: i32,
    /// Field 16: brightness, -75 to 150 tenths of an IRE, to the nearest code.
    pub brightness: i32,
    /// Field 17: sharpness, -6 to 6 steps.
    pub sharpness: i32,
    /// Field 18: DNR border gain, 0 to 8.
    pub border_gain: i32,
    /// Field 19: DNR data gain, 0 to 8.
    pub data_gain: i32,
    /// Field 20: DNR threshold, 0 to 63.
    pub threshold: i32,
    /// Field 21: DNR border area.
    pub border_area: bool,
    /// Field 22: DNR block size.
    pub block_size: bool,
    /// Field 23: DNR input, 1 to 4.
    pub dnr_input: i32,
    /// Field 24: DNR mode.
    pub dnr_mode: bool,
    /// Field 25: DNR block offset, 0 to 15.
    pub block_offset: i32,
    /// Field 26: gamma curve A.
    pub curve_a: Curve,
    /// Field 27: gamma curve B.
    pub curve_b: Curve,
}

impl Settings {
    /// The house setting. The archive has it.
    ///
    /// ```
    /// use adv7194::Settings;
    ///
    /// let settings = Settings {
    ///     hue: 40,
    ///     ..Settings::house()
    /// };
    /// assert!(settings.four_times && !settings.pedestal);
    /// ```
    pub fn house() -> Settings {
        let mut numbers = [0; NUMBERS];
        let answer = ffi::house(&mut numbers);
        refusal::check(answer.refusal, answer.field).expect("49 numbers are lent");
        Settings::from_numbers(&numbers).expect("the house setting has a typed form")
    }
}

impl Default for Settings {
    /// The house setting.
    fn default() -> Settings {
        Settings::house()
    }
}
