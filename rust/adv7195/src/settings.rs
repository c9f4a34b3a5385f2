//! Settings with types.

/// Bytes of a gamma curve.
pub const CURVE_BYTES: usize = 7;

/// The output levels.
#[derive(Clone, Copy, Debug, Default, PartialEq, Eq, Hash)]
pub enum OutputStandard {
    /// EIA-770.2.
    #[default]
    Eia770Point2,
    /// EIA-770.1.
    Eia770Point1,
    /// Full input range.
    FullRange,
}

/// What the test pattern shows.
#[derive(Clone, Copy, Debug, Default, PartialEq, Eq, Hash)]
pub enum TestPattern {
    /// A crosshatch.
    #[default]
    Hatch,
    /// A frame of one colour.
    Frame,
}

/// Which gamma curve is used.
#[derive(Clone, Copy, Debug, Default, PartialEq, Eq, Hash)]
pub enum GammaCurve {
    /// Curve A.
    #[default]
    A,
    /// Curve B.
    B,
}

/// The mode of the adaptive filter.
#[derive(Clone, Copy, Debug, Default, PartialEq, Eq, Hash)]
pub enum AdaptiveMode {
    /// Mode A.
    #[default]
    A,
    /// Mode B.
    B,
}

/// The two gains of a filter register, each the code 0 to 15 for -8 to +7.
#[derive(Clone, Copy, Debug, Default, PartialEq, Eq, Hash)]
pub struct Gains {
    /// Filter A's, the lower four bits.
    pub a: u8,
    /// Filter B's, the upper four.
    pub b: u8,
}

/// Everything that can be set, in the order of the fields, each its plain code.
/// Numbers outside their range can be given, and are refused in planning. Fields
/// 4, 6, 19, 20, 25 and 27 are must-be-zero bits. The default is 0 throughout.
#[derive(Clone, Copy, Debug, Default, PartialEq, Eq, Hash)]
pub struct Settings {
    /// Field 1.
    pub output_standard: OutputStandard,
    /// Field 2: input control signals, 0 to 2; 3 is reserved.
    pub input_control: u8,
    /// Field 3: input standard, MR04.
    pub input_standard: bool,
    /// Field 5: DV polarity, MR06.
    pub dv_polarity: bool,
    /// Field 7: pixel data enable.
    pub pixel_data: bool,
    /// Field 8: input format, MR11.
    pub input_format: bool,
    /// Field 9: test pattern enable.
    pub test_pattern_enable: bool,
    /// Field 10.
    pub test_pattern: TestPattern,
    /// Field 11: VBI open.
    pub vbi_open: bool,
    /// Field 12: undershoot limiter, 0 to 3.
    pub undershoot_limiter: u8,
    /// Field 13: sharpness filter.
    pub sharpness_filter: bool,
    /// Field 14: Y delay, 0 to 4 pixel clocks.
    pub y_delay: u8,
    /// Field 15: colour delay, 0 to 4 pixel clocks.
    pub colour_delay: u8,
    /// Field 16: CGMS enable.
    pub cgms_enable: bool,
    /// Field 17: CGMS CRC.
    pub cgms_crc: bool,
    /// Field 18: HDTV enable, which leaves progressive-scan mode.
    pub hdtv_enable: bool,
    /// Field 21: DAC A is on.
    pub dac_a: bool,
    /// Field 22: DAC B is on.
    pub dac_b: bool,
    /// Field 23: DAC C is on.
    pub dac_c: bool,
    /// Field 24: interpolation, MR36.
    pub interpolation: bool,
    /// Field 26: timing reset.
    pub timing_reset: bool,
    /// Field 28: RGB mode.
    pub rgb_mode: bool,
    /// Field 29: sync on PrPb.
    pub sync_on_prpb: bool,
    /// Field 30: colour output swap.
    pub output_swap: bool,
    /// Field 31.
    pub gamma_curve: GammaCurve,
    /// Field 32: gamma correction.
    pub gamma_correction: bool,
    /// Field 33.
    pub adaptive_mode: AdaptiveMode,
    /// Field 34: adaptive filter.
    pub adaptive_filter: bool,
    /// Field 35: colour Y.
    pub colour_y: u8,
    /// Field 36: colour Cr.
    pub colour_cr: u8,
    /// Field 37: colour Cb.
    pub colour_cb: u8,
    /// Field 38: mode register 6.
    pub mode_register_6: u8,
    /// Fields 39 and 40: filter gains.
    pub filter_gain: Gains,
    /// Field 41: CGMS data, 0 to 1048575, C0 the lowest bit.
    pub cgms_data: u32,
    /// Field 42: gamma curve A.
    pub curve_a: [u8; CURVE_BYTES],
    /// Field 43: gamma curve B.
    pub curve_b: [u8; CURVE_BYTES],
    /// Fields 44 to 49: adaptive filter gains 1 to 3.
    pub adaptive_gain: [Gains; 3],
    /// Fields 50 to 52: adaptive filter thresholds A to C.
    pub threshold: [u8; 3],
}
