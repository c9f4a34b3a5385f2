//! The ADV7195 in progressive-scan mode, against documents 001 and 02: what is published, and plans.

#[path = "common/progressive.rs"]
mod common;

use common::*;
use plain::progressive::fields::{first_setting, SETTINGS};
use plain::progressive::published::{hatch, holding, power_up, COLOURS};
use plain::progressive::registers::{self as reg, REGISTERS};
use plain::progressive::{plan, progressive_settings, Image};

#[test]
fn published() {
    // The DACs are on; gains of the adaptive filter C and A, A and 9, 8 and 8; thresholds 40, 63 and 100.
    let on = [
        (21, 1),
        (22, 1),
        (23, 1),
        (35, 0xA0),
        (36, 0x80),
        (37, 0x80),
    ];
    let gains = [(44, 0xC), (45, 0xA), (46, 0xA), (47, 9), (48, 8), (49, 8)];
    let thresholds = [(50, 40), (51, 63), (52, 100)];
    let expected = with([0; SETTINGS], &[&on[..], &gains, &thresholds].concat());
    assert_eq!(settings_of(&power_up()), expected);
    // Pixel data and the test pattern; 3E.
    let expected = with(expected, &[(7, 1), (9, 1), (38, 0x3E)]);
    assert_eq!(settings_of(&hatch()), expected);
    assert_eq!(
        packed(&power_up(), &expected),
        [0x08, 0x10, 0x41, 0x49, 0x04, 0xF8]
    );
    assert_eq!(packed(&hatch(), &expected), [0x00]);
    assert_eq!(played(power_up(), &packed(&power_up(), &expected)), hatch());
    // HDTV mode is a code as any other.
    let hdtv = holding(power_up(), &[(reg::MODE_1, 0x0D), (reg::MODE_3, 0x39)]);
    assert_eq!(settings_of(&hdtv)[first_setting(18)], 1);
    // A curve for gamma 0.5, and the sharpness filter's gains.
    let curve = [0x4C, 0x78, 0x96, 0xAE, 0xC4, 0xD7, 0xE8];
    let mut image = holding(power_up(), &[(reg::FILTER_GAIN, 0x99)]);
    image[reg::CURVE_B..][..curve.len()].copy_from_slice(&curve);
    let settings = settings_of(&image);
    assert_eq!(
        settings[first_setting(43)..][..curve.len()],
        curve.map(i32::from)
    );
    assert_eq!(settings[first_setting(39)..][..2], [9, 9]);
}

#[test]
fn colours() {
    for colour in COLOURS {
        let mut wanted = power_up();
        wanted[reg::COLOUR_Y..][..3].copy_from_slice(&colour);
        let settings = settings_of(&wanted);
        assert_eq!(
            settings[first_setting(COLOUR_Y)..][..3],
            colour.map(i32::from)
        );
        let image = holding(wanted, &[(6, 0), (7, 0), (8, 0)]);
        assert_eq!(sent(&packed(&image, &settings)), [(6, colour.to_vec())]);
    }
}

/// What planning gives from an image for changed settings: the bytes, and that they lead there.
fn from_to(image: Image, changed: &[(usize, i32)]) -> Vec<u8> {
    let settings = with(settings_of(&image), changed);
    let bytes = packed(&image, &settings);
    let after = played(image, &bytes);
    assert_eq!(settings_of(&after), settings);
    assert_eq!(packed(&after, &settings), [0x00]);
    bytes
}

#[test]
fn worked_plans() {
    let start = power_up();
    let prepared = holding(start, &[(reg::MODE_6, 0x3E)]);
    let on = (INTERPOLATION, 1);
    let stays = (MODE_REGISTER_6, 0x3E);
    let red = [(COLOUR_CR, 0xF0), (COLOUR_CB, 0x5A)];
    // 3E wanted, whether 09 holds it or not: 09 3E, 03 78.
    let two = [0x08, 0x90, 0x4F, 0x83, 0x05, 0xE0];
    assert_eq!(from_to(start, &[on, stays]), two);
    assert_eq!(from_to(prepared, &[on]), two);
    // 09 kept 00, or from 3E to 00: 09 3E, 03 78, 09 00.
    let three = [0x0C, 0x90, 0x4F, 0x83, 0x05, 0xE0, 0x90, 0x40, 0x00];
    assert_eq!(from_to(start, &[on]), three);
    assert_eq!(from_to(prepared, &[on, (MODE_REGISTER_6, 0)]), three);
    // 07 F0 5A 3E, 03 78, 09 00.
    assert_eq!(
        from_to(start, &[on, red[0], red[1]]),
        [0x0C, 0x70, 0xFC, 0x16, 0x8F, 0x83, 0x05, 0xE0, 0x90, 0x40, 0x00]
    );
    // 06 51 80 80 3E, 03 78: as cheap as 09, 03 to 06, and of the lower start.
    assert_eq!(
        from_to(start, &[on, stays, (COLOUR_Y, 0x51)]),
        [0x08, 0x61, 0x14, 0x60, 0x20, 0x0F, 0x83, 0x05, 0xE0]
    );
    // 09 3E, 03 78 00 00 51 80 80 00: as cheap as three transactions.
    assert_eq!(
        from_to(start, &[on, (COLOUR_Y, 0x51)]),
        [0x08, 0x90, 0x4F, 0x83, 0x1D, 0xE0, 0x00, 0x01, 0x46, 0x02, 0x00, 0x00]
    );
    // Only a DAC off: 03 18, no 3E.
    assert_eq!(from_to(start, &[(DAC_C, 0)]), [0x04, 0x30, 0x46, 0x00]);
}

#[test]
fn whole_low_block() {
    let found = holding([0xFF; REGISTERS], &[(reg::MODE_6, 0x3E)]);
    let settings = with(settings_of(&power_up()), &[(MODE_REGISTER_6, 0x3E)]);
    let spans = |image: &Image, settings| -> Vec<(u32, usize)> {
        let list = sent(&packed(image, settings));
        list.iter()
            .map(|(start, data)| (*start, data.len()))
            .collect()
    };
    let found_low = |nine: u8| {
        let mut image = power_up();
        image[..reg::MODE_6].copy_from_slice(&found[..reg::MODE_6]);
        holding(image, &[(reg::MODE_6, nine)])
    };
    assert_eq!(spans(&found_low(0x3E), &settings), [(4, 6), (0, 4)]);
    let settings = with(settings, &[(MODE_REGISTER_6, 0)]);
    assert_eq!(spans(&found_low(0x00), &settings), [(9, 1), (0, 10)]);
}

/// Every register that takes data is wrong, and interpolation is turned off: 41 bytes.
#[test]
fn largest_plan() {
    let settings = settings_of(&power_up());
    let image = [0xFF; REGISTERS];
    let mut bytes = [0; 41];
    let answer = plan(&image, &settings, OWN, &mut bytes);
    assert_eq!(
        (answer.length, answer.transactions, answer.bus_bytes),
        (41, 3, 41)
    );
    let short = plan(&image, &settings, OWN, &mut [0; 40]);
    assert_eq!((short.refusal, short.field, short.length), (10, 0, 0));
    // Bits outside all fields stay as found.
    let mut expected = holding(power_up(), &[(reg::MODE_4, 0xFE), (0x13, 0xF0)]);
    expected[reg::RESERVED..][..reg::RESERVED_COUNT].fill(0xFF);
    assert_eq!(played(image, &bytes), expected);
}

#[test]
fn text() {
    let text = progressive_settings(&hatch());
    let lines: Vec<&str> = text.lines().collect();
    assert_eq!(lines.len(), 46);
    assert_eq!(
        lines[..4],
        [
            "1 output standard 0",
            "2 input control signals 0",
            "3 input standard 0",
            "5 DV polarity 0"
        ]
    );
    assert!(lines.contains(&"38 mode register 6 62"));
    assert!(lines.contains(&"42 gamma curve A 00 00 00 00 00 00 00"));
    assert_eq!(lines[45], "52 threshold C 100");
    assert_eq!(progressive_settings(&[0xFF; REGISTERS]), "REFUSED 4 1\n");
    assert_eq!(progressive_settings(&[]), "REFUSED 1 0\n");
}
