//! Settings as 49 numbers: the index of each, and each field's number.

/// How many numbers make the settings.
pub const SETTINGS: usize = 49;

/// Standard: 0 NTSC, 1 PAL.
pub const STANDARD: usize = 0;
/// Square pixel.
pub const SQUARE: usize = 1;
/// 4x oversampling.
pub const FOUR_TIMES: usize = 2;
/// Pedestal.
pub const PEDESTAL: usize = 3;
/// Y level.
pub const Y_LEVEL: usize = 4;
/// UV level.
pub const UV_LEVEL: usize = 5;
/// RGB sync.
pub const RGB_SYNC: usize = 6;
/// Clamp delay, in clocks.
pub const CLAMP_DELAY: usize = 7;
/// Clamp in the back porch.
pub const BACK_PORCH: usize = 8;
/// Subcarrier phase.
pub const PHASE: usize = 9;
/// Signalling: 0 off, 1 CGMS, 2 WSS.
pub const SIGNALLING: usize = 10;
/// CGMS payload or WSS number.
pub const PAYLOAD: usize = 11;
/// CGMS in odd fields.
pub const ODD: usize = 12;
/// CGMS in even fields.
pub const EVEN: usize = 13;
/// The chip works out the CGMS check.
pub const CHIP_CHECK: usize = 14;
/// Contrast, in thousandths.
pub const CONTRAST: usize = 15;
/// U scale, in thousandths.
pub const U_SCALE: usize = 16;
/// V scale, in thousandths.
pub const V_SCALE: usize = 17;
/// Hue, in tenths of a degree.
pub const HUE: usize = 18;
/// Brightness, in tenths of an IRE.
pub const BRIGHTNESS: usize = 19;
/// Sharpness, in steps.
pub const SHARPNESS: usize = 20;
/// DNR border gain.
pub const BORDER_GAIN: usize = 21;
/// DNR data gain.
pub const DATA_GAIN: usize = 22;
/// DNR threshold.
pub const THRESHOLD: usize = 23;
/// DNR border area.
pub const BORDER_AREA: usize = 24;
/// DNR block size.
pub const BLOCK_SIZE: usize = 25;
/// DNR input.
pub const DNR_INPUT: usize = 26;
/// DNR mode.
pub const DNR_MODE: usize = 27;
/// DNR block offset.
pub const BLOCK_OFFSET: usize = 28;
/// Gamma curve A: its kind, p, q and seven bytes.
pub const CURVE_A: usize = 29;
/// Gamma curve B: its kind, p, q and seven bytes.
pub const CURVE_B: usize = 39;

/// After a curve's kind: p.
pub const CURVE_P: usize = 1;
/// After a curve's kind: q.
pub const CURVE_Q: usize = 2;
/// After a curve's kind: the first of seven bytes.
pub const CURVE_FIRST: usize = 3;

/// The standard's number for NTSC.
pub const NTSC: i32 = 0;
/// The standard's number for PAL.
pub const PAL: i32 = 1;
/// No signalling.
pub const OFF: i32 = 0;
/// Signalling by CGMS.
pub const CGMS: i32 = 1;
/// Signalling by WSS.
pub const WSS: i32 = 2;
/// A curve given as a ratio.
pub const RATIO: i32 = 0;
/// A curve given as seven bytes.
pub const BYTES: i32 = 1;

/// The fields' numbers, as a refusal carries them.
pub mod number {
    /// Where no field is at fault.
    pub const NONE: u32 = 0;
    /// Standard.
    pub const STANDARD: u32 = 1;
    /// Square pixel.
    pub const SQUARE: u32 = 2;
    /// 4x oversampling.
    pub const FOUR_TIMES: u32 = 3;
    /// Pedestal.
    pub const PEDESTAL: u32 = 4;
    /// Y level.
    pub const Y_LEVEL: u32 = 5;
    /// UV level.
    pub const UV_LEVEL: u32 = 6;
    /// RGB sync.
    pub const RGB_SYNC: u32 = 7;
    /// Clamp delay.
    pub const CLAMP_DELAY: u32 = 8;
    /// Clamp in the back porch.
    pub const BACK_PORCH: u32 = 9;
    /// Subcarrier phase.
    pub const PHASE: u32 = 10;
    /// Signalling.
    pub const SIGNALLING: u32 = 11;
    /// Contrast.
    pub const CONTRAST: u32 = 12;
    /// U scale.
    pub const U_SCALE: u32 = 13;
    /// V scale.
    pub const V_SCALE: u32 = 14;
    /// Hue.
    pub const HUE: u32 = 15;
    /// Brightness.
    pub const BRIGHTNESS: u32 = 16;
    /// Sharpness.
    pub const SHARPNESS: u32 = 17;
    /// DNR border gain.
    pub const BORDER_GAIN: u32 = 18;
    /// DNR data gain.
    pub const DATA_GAIN: u32 = 19;
    /// DNR threshold.
    pub const THRESHOLD: u32 = 20;
    /// DNR border area.
    pub const BORDER_AREA: u32 = 21;
    /// DNR block size.
    pub const BLOCK_SIZE: u32 = 22;
    /// DNR input.
    pub const DNR_INPUT: u32 = 23;
    /// DNR mode.
    pub const DNR_MODE: u32 = 24;
    /// DNR block offset.
    pub const BLOCK_OFFSET: u32 = 25;
    /// Gamma curve A.
    pub const CURVE_A: u32 = 26;
    /// Gamma curve B.
    pub const CURVE_B: u32 = 27;
    /// Subcarrier word.
    pub const WORD: u32 = 28;
    /// Captions: a refusal's number only.
    pub const CAPTIONS: u32 = 29;
}
