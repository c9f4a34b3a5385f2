//! Settings as 58 numbers, as they cross to the archive.

use crate::settings::{AdaptiveMode, Gains, GammaCurve, OutputStandard, Settings, TestPattern};

/// How many numbers make the settings.
pub const NUMBERS: usize = 58;

/// Settings as numbers, in field order.
pub type Numbers = [i32; NUMBERS];

/// The index of each number.
#[allow(missing_docs)]
pub mod index {
    pub const OUTPUT_STANDARD: usize = 0;
    pub const INPUT_CONTROL: usize = 1;
    pub const INPUT_STANDARD: usize = 2;
    pub const DV_POLARITY: usize = 3;
    pub const PIXEL_DATA: usize = 4;
    pub const INPUT_FORMAT: usize = 5;
    pub const TEST_PATTERN: usize = 6;
    pub const TEST_FRAME: usize = 7;
    pub const VBI_OPEN: usize = 8;
    pub const UNDERSHOOT_LIMITER: usize = 9;
    pub const SHARPNESS_FILTER: usize = 10;
    pub const Y_DELAY: usize = 11;
    pub const COLOUR_DELAY: usize = 12;
    pub const CGMS_ENABLE: usize = 13;
    pub const CGMS_CRC: usize = 14;
    pub const HDTV_ENABLE: usize = 15;
    pub const DAC_A: usize = 16;
    pub const DAC_B: usize = 17;
    pub const DAC_C: usize = 18;
    pub const INTERPOLATION: usize = 19;
    pub const TIMING_RESET: usize = 20;
    pub const RGB_MODE: usize = 21;
    pub const SYNC_ON_PRPB: usize = 22;
    pub const OUTPUT_SWAP: usize = 23;
    pub const GAMMA_CURVE: usize = 24;
    pub const GAMMA_CORRECTION: usize = 25;
    pub const ADAPTIVE_MODE: usize = 26;
    pub const ADAPTIVE_FILTER: usize = 27;
    pub const COLOUR_Y: usize = 28;
    pub const COLOUR_CR: usize = 29;
    pub const COLOUR_CB: usize = 30;
    pub const MODE_REGISTER_6: usize = 31;
    /// Filter gain A; B follows.
    pub const FILTER_GAIN: usize = 32;
    /// C0 its lowest bit.
    pub const CGMS_DATA: usize = 34;
    /// The first of seven bytes.
    pub const CURVE_A: usize = 35;
    /// The first of seven bytes.
    pub const CURVE_B: usize = 42;
    /// Adaptive gain 1 A; then 1 B, 2 A, 2 B, 3 A, 3 B.
    pub const ADAPTIVE_GAIN: usize = 49;
    /// Threshold A; then B and C.
    pub const THRESHOLD: usize = 55;
}

/// The numbers of a register's two gains.
const GAINS: usize = 2;

impl Settings {
    /// The 58 numbers.
    ///
    /// ```
    /// use adv7195::{index, Settings};
    ///
    /// let settings = Settings { y_delay: 4, ..Settings::default() };
    /// let numbers = settings.to_numbers();
    /// assert_eq!(numbers[index::Y_DELAY], 4);
    /// assert_eq!(Settings::from_numbers(&numbers), Some(settings));
    /// ```
    pub fn to_numbers(&self) -> Numbers {
        let mut n = [0; NUMBERS];
        n[index::OUTPUT_STANDARD] = self.output_standard as i32;
        n[index::INPUT_CONTROL] = self.input_control.into();
        n[index::INPUT_STANDARD] = self.input_standard.into();
        n[index::DV_POLARITY] = self.dv_polarity.into();
        n[index::PIXEL_DATA] = self.pixel_data.into();
        n[index::INPUT_FORMAT] = self.input_format.into();
        n[index::TEST_PATTERN] = self.test_pattern_enable.into();
        n[index::TEST_FRAME] = self.test_pattern as i32;
        n[index::VBI_OPEN] = self.vbi_open.into();
        n[index::UNDERSHOOT_LIMITER] = self.undershoot_limiter.into();
        n[index::SHARPNESS_FILTER] = self.sharpness_filter.into();
        n[index::Y_DELAY] = self.y_delay.into();
        n[index::COLOUR_DELAY] = self.colour_delay.into();
        n[index::CGMS_ENABLE] = self.cgms_enable.into();
        n[index::CGMS_CRC] = self.cgms_crc.into();
        n[index::HDTV_ENABLE] = self.hdtv_enable.into();
        n[index::DAC_A] = self.dac_a.into();
        n[index::DAC_B] = self.dac_b.into();
        n[index::DAC_C] = self.dac_c.into();
        n[index::INTERPOLATION] = self.interpolation.into();
        n[index::TIMING_RESET] = self.timing_reset.into();
        n[index::RGB_MODE] = self.rgb_mode.into();
        n[index::SYNC_ON_PRPB] = self.sync_on_prpb.into();
        n[index::OUTPUT_SWAP] = self.output_swap.into();
        n[index::GAMMA_CURVE] = self.gamma_curve as i32;
        n[index::GAMMA_CORRECTION] = self.gamma_correction.into();
        n[index::ADAPTIVE_MODE] = self.adaptive_mode as i32;
        n[index::ADAPTIVE_FILTER] = self.adaptive_filter.into();
        n[index::COLOUR_Y] = self.colour_y.into();
        n[index::COLOUR_CR] = self.colour_cr.into();
        n[index::COLOUR_CB] = self.colour_cb.into();
        n[index::MODE_REGISTER_6] = self.mode_register_6.into();
        gains_to(&[self.filter_gain], &mut n, index::FILTER_GAIN);
        // Above the greatest number there is, the word is out of its range as well.
        n[index::CGMS_DATA] = i32::try_from(self.cgms_data).unwrap_or(i32::MAX);
        bytes_to(&self.curve_a, &mut n, index::CURVE_A);
        bytes_to(&self.curve_b, &mut n, index::CURVE_B);
        gains_to(&self.adaptive_gain, &mut n, index::ADAPTIVE_GAIN);
        bytes_to(&self.threshold, &mut n, index::THRESHOLD);
        n
    }

    /// The settings that the numbers encode, or nothing where a number has
    /// no typed form: a yes or no, a standard, a pattern, a curve or a mode that
    /// isn't one, a byte that doesn't fit, or a CGMS word below 0. Ranges aren't
    /// judged here.
    pub fn from_numbers(n: &Numbers) -> Option<Settings> {
        Some(Settings {
            output_standard: output_standard_of(n[index::OUTPUT_STANDARD])?,
            input_control: byte(n[index::INPUT_CONTROL])?,
            input_standard: yes(n[index::INPUT_STANDARD])?,
            dv_polarity: yes(n[index::DV_POLARITY])?,
            pixel_data: yes(n[index::PIXEL_DATA])?,
            input_format: yes(n[index::INPUT_FORMAT])?,
            test_pattern_enable: yes(n[index::TEST_PATTERN])?,
            test_pattern: either(n[index::TEST_FRAME], TestPattern::Hatch, TestPattern::Frame)?,
            vbi_open: yes(n[index::VBI_OPEN])?,
            undershoot_limiter: byte(n[index::UNDERSHOOT_LIMITER])?,
            sharpness_filter: yes(n[index::SHARPNESS_FILTER])?,
            y_delay: byte(n[index::Y_DELAY])?,
            colour_delay: byte(n[index::COLOUR_DELAY])?,
            cgms_enable: yes(n[index::CGMS_ENABLE])?,
            cgms_crc: yes(n[index::CGMS_CRC])?,
            hdtv_enable: yes(n[index::HDTV_ENABLE])?,
            dac_a: yes(n[index::DAC_A])?,
            dac_b: yes(n[index::DAC_B])?,
            dac_c: yes(n[index::DAC_C])?,
            interpolation: yes(n[index::INTERPOLATION])?,
            timing_reset: yes(n[index::TIMING_RESET])?,
            rgb_mode: yes(n[index::RGB_MODE])?,
            sync_on_prpb: yes(n[index::SYNC_ON_PRPB])?,
            output_swap: yes(n[index::OUTPUT_SWAP])?,
            gamma_curve: either(n[index::GAMMA_CURVE], GammaCurve::A, GammaCurve::B)?,
            gamma_correction: yes(n[index::GAMMA_CORRECTION])?,
            adaptive_mode: either(n[index::ADAPTIVE_MODE], AdaptiveMode::A, AdaptiveMode::B)?,
            adaptive_filter: yes(n[index::ADAPTIVE_FILTER])?,
            colour_y: byte(n[index::COLOUR_Y])?,
            colour_cr: byte(n[index::COLOUR_CR])?,
            colour_cb: byte(n[index::COLOUR_CB])?,
            mode_register_6: byte(n[index::MODE_REGISTER_6])?,
            filter_gain: gains_of(n, index::FILTER_GAIN)?,
            cgms_data: u32::try_from(n[index::CGMS_DATA]).ok()?,
            curve_a: bytes_of(n, index::CURVE_A)?,
            curve_b: bytes_of(n, index::CURVE_B)?,
            adaptive_gain: [
                gains_of(n, index::ADAPTIVE_GAIN)?,
                gains_of(n, index::ADAPTIVE_GAIN + GAINS)?,
                gains_of(n, index::ADAPTIVE_GAIN + 2 * GAINS)?,
            ],
            threshold: bytes_of(n, index::THRESHOLD)?,
        })
    }
}

impl From<&Settings> for Numbers {
    /// The 58 numbers.
    fn from(settings: &Settings) -> Numbers {
        settings.to_numbers()
    }
}

/// One of two, by its code.
fn either<T>(number: i32, zero: T, one: T) -> Option<T> {
    match number {
        0 => Some(zero),
        1 => Some(one),
        _ => None,
    }
}

/// A yes or no.
fn yes(number: i32) -> Option<bool> {
    either(number, false, true)
}

/// A byte.
fn byte(number: i32) -> Option<u8> {
    u8::try_from(number).ok()
}

/// The output standard of a number.
fn output_standard_of(number: i32) -> Option<OutputStandard> {
    match number {
        2 => Some(OutputStandard::FullRange),
        _ => either(
            number,
            OutputStandard::Eia770Point2,
            OutputStandard::Eia770Point1,
        ),
    }
}

/// Bytes into their numbers, from `first` on.
fn bytes_to(bytes: &[u8], n: &mut Numbers, first: usize) {
    for (number, &byte) in n[first..].iter_mut().zip(bytes) {
        *number = byte.into();
    }
}

/// Bytes out of their numbers, from `first` on.
fn bytes_of<const COUNT: usize>(n: &Numbers, first: usize) -> Option<[u8; COUNT]> {
    let mut bytes = [0; COUNT];
    for (place, &number) in bytes.iter_mut().zip(&n[first..]) {
        *place = byte(number)?;
    }
    Some(bytes)
}

/// Gains into their numbers, from `first` on.
fn gains_to(gains: &[Gains], n: &mut Numbers, first: usize) {
    for (place, gains) in gains.iter().enumerate() {
        bytes_to(&[gains.a, gains.b], n, first + GAINS * place);
    }
}

/// Gains out of their numbers, from `first` on.
fn gains_of(n: &Numbers, first: usize) -> Option<Gains> {
    let [a, b] = bytes_of(n, first)?;
    Some(Gains { a, b })
}
