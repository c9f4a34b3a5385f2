//! The typed form: to numbers and back, and through the archive.

use adv7195::{
    index, plan, play, read, transactions, AdaptiveMode, Gains, GammaCurve, OutputStandard,
    Refusal, Settings, TestPattern, NUMBERS, PLAN_ROOM, REGISTERS,
};

/// An even address.
const ADDRESS: u32 = 0x54;

/// Every setting at its highest code.
fn highest() -> Settings {
    Settings {
        output_standard: OutputStandard::FullRange,
        input_control: 2,
        input_standard: true,
        dv_polarity: true,
        pixel_data: true,
        input_format: true,
        test_pattern_enable: true,
        test_pattern: TestPattern::Frame,
        vbi_open: true,
        undershoot_limiter: 3,
        sharpness_filter: true,
        y_delay: 4,
        colour_delay: 4,
        cgms_enable: true,
        cgms_crc: true,
        hdtv_enable: true,
        dac_a: true,
        dac_b: true,
        dac_c: true,
        interpolation: true,
        timing_reset: true,
        rgb_mode: true,
        sync_on_prpb: true,
        output_swap: true,
        gamma_curve: GammaCurve::B,
        gamma_correction: true,
        adaptive_mode: AdaptiveMode::B,
        adaptive_filter: true,
        colour_y: 255,
        colour_cr: 255,
        colour_cb: 255,
        mode_register_6: 255,
        filter_gain: Gains { a: 15, b: 15 },
        cgms_data: 0xF_FFFF,
        curve_a: [255; 7],
        curve_b: [255; 7],
        adaptive_gain: [Gains { a: 15, b: 15 }; 3],
        threshold: [255; 3],
    }
}

/// Settings in which neighbours differ.
fn mixed() -> Settings {
    Settings {
        output_standard: OutputStandard::Eia770Point1,
        undershoot_limiter: 2,
        y_delay: 1,
        colour_delay: 3,
        interpolation: true,
        gamma_curve: GammaCurve::B,
        colour_y: 0x51,
        colour_cr: 0xF0,
        colour_cb: 0x5A,
        mode_register_6: 0x3E,
        filter_gain: Gains { a: 9, b: 6 },
        cgms_data: 0xA_5C31,
        curve_a: [76, 120, 150, 174, 196, 215, 232],
        curve_b: [0, 255, 1, 254, 2, 253, 3],
        adaptive_gain: [
            Gains { a: 12, b: 10 },
            Gains { a: 10, b: 9 },
            Gains { a: 8, b: 7 },
        ],
        threshold: [40, 63, 100],
        ..Settings::default()
    }
}

/// Plans over a byte in every register, plays, and gives the image.
fn settled(settings: &Settings, byte: u8) -> Result<[u8; REGISTERS], Refusal> {
    let mut image = [byte; REGISTERS];
    let mut bytes = [0; PLAN_ROOM];
    let planned = plan(&image, settings, ADDRESS, &mut bytes)?;
    let packed = &bytes[..planned.length];
    assert_eq!(play(&mut image, ADDRESS, ADDRESS, packed), Ok(true));
    let sent = transactions(packed)?.map(|one| 2 + one.data().len() as u32);
    assert_eq!(sent.sum::<u32>(), planned.bus_bytes);
    assert_eq!(transactions(packed)?.count(), planned.transactions as usize);
    Ok(image)
}

#[test]
fn numbers_and_back() {
    for settings in [Settings::default(), highest(), mixed()] {
        let numbers = settings.to_numbers();
        assert_eq!(Settings::from_numbers(&numbers), Some(settings));
    }
    assert_eq!(Settings::default().to_numbers(), [0; NUMBERS]);
    assert!(highest().to_numbers().iter().all(|&number| number > 0));
    for place in 0..NUMBERS {
        let mut numbers = mixed().to_numbers();
        numbers[place] = -1;
        assert_eq!(Settings::from_numbers(&numbers), None);
        numbers[place] = 256;
        let word = place == index::CGMS_DATA;
        assert_eq!(Settings::from_numbers(&numbers).is_some(), word);
    }
}

#[test]
fn read_as_set() {
    for settings in [Settings::default(), highest(), mixed()] {
        for byte in [0x00, 0xFF, 0x3E, 0xA5] {
            let image = settled(&settings, byte).unwrap();
            assert_eq!(read(&image), Ok(settings));
            // Bits outside all fields stay as they were.
            assert_eq!(image[0x04] & 0xFE, byte & 0xFE);
            assert_eq!(image[0x13] & 0xF0, byte & 0xF0);
            assert_eq!(image[0x0A..0x10], [byte; 6]);
        }
    }
}

#[test]
fn places() {
    let image = settled(&mixed(), 0).unwrap();
    assert_eq!(
        image[..0x0A],
        [0x01, 0x40, 0x19, 0x40, 0x00, 0x10, 0x51, 0xF0, 0x5A, 0x3E]
    );
    assert_eq!(image[0x10..0x14], [0x69, 0x31, 0x5C, 0x0A]);
    assert_eq!(image[0x14..0x1B], mixed().curve_a);
    assert_eq!(image[0x1B..0x22], mixed().curve_b);
    assert_eq!(image[0x22..], [0xAC, 0x9A, 0x78, 0x28, 0x3F, 0x64]);
}

#[test]
fn nothing_to_do() {
    for settings in [Settings::default(), highest(), mixed()] {
        let image = settled(&settings, 0xFF).unwrap();
        let mut lent = [0x6B; 2];
        let planned = plan(&image, &read(&image).unwrap(), ADDRESS, &mut lent).unwrap();
        assert_eq!((planned.length, planned.bus_bytes), (1, 0));
        assert_eq!(lent, [0x00, 0x6B]);
    }
}
