//! Each refusal, typed, and the order of the checks.

use adv7195::{
    ffi, index, plan, plan_numbers, play, read, read_numbers, transactions, Gains, Reason, Refusal,
    Settings, NUMBERS, PLAN_ROOM, REGISTERS,
};

/// An even address, and ones that are none.
const ADDRESS: u32 = 0x54;
const ODD: u32 = 0x55;
const WIDE: u32 = 0x154;
/// The field numbers, in order of the settings' numbers, with their highest codes.
const RANGES: [(u8, i32); NUMBERS] = ranges();

/// Fields of one number first; then CGMS data, curves, gains and thresholds, whose fields'
/// numbers are their places less five.
const fn ranges() -> [(u8, i32); NUMBERS] {
    const ONES: [u8; 34] = [
        1, 2, 3, 5, 7, 8, 9, 10, 11, 12, 13, 14, 15, 16, 17, 18, 21, 22, 23, 24, 26, 28, 29, 30,
        31, 32, 33, 34, 35, 36, 37, 38, 39, 40,
    ];
    let mut all = [(0, 0); NUMBERS];
    let mut place = 0;
    while place < NUMBERS {
        all[place] = match place {
            0..index::CGMS_DATA => match ONES[place] {
                1 | 2 => (ONES[place], 2),
                12 => (12, 3),
                14 | 15 => (ONES[place], 4),
                35..=38 => (ONES[place], 255),
                39 | 40 => (ONES[place], 15),
                field => (field, 1),
            },
            index::CGMS_DATA => (41, 1_048_575),
            index::CURVE_A..index::CURVE_B => (42, 255),
            index::CURVE_B..index::ADAPTIVE_GAIN => (43, 255),
            index::ADAPTIVE_GAIN..index::THRESHOLD => ((place - 5) as u8, 15),
            _ => ((place - 5) as u8, 255),
        };
        place += 1;
    }
    all
}

/// A refusal.
fn refused(reason: Reason, field: u8) -> Refusal {
    Refusal { reason, field }
}

/// Plans numbers over zeros, into so much room, and checks that a refusal leaves it as it was.
fn planned(image: &[u8], numbers: &[i32], address: u32, room: usize) -> Result<(), Refusal> {
    let mut lent = vec![0x6B; room];
    let answer = plan_numbers(image, numbers, address, &mut lent);
    assert!(answer.is_ok() || lent == vec![0x6B; room]);
    answer.map(|_| ())
}

#[test]
fn every_range() {
    let image = [0; REGISTERS];
    for (place, (field, most)) in RANGES.into_iter().enumerate() {
        for (number, right) in [(-1, false), (0, true), (most, true), (most + 1, false)] {
            let mut numbers = [0; NUMBERS];
            numbers[place] = number;
            let reserved = field <= 2 && number == most + 1;
            let reason = if reserved {
                Reason::Reserved
            } else {
                Reason::OutOfRange
            };
            let answer = if right {
                Ok(())
            } else {
                Err(refused(reason, field))
            };
            assert_eq!(planned(&image, &numbers, ADDRESS, PLAN_ROOM), answer);
        }
        for number in [i32::MIN, i32::MAX, 0x10_0000, 0x10_0001] {
            let mut numbers = [0; NUMBERS];
            numbers[place] = number;
            let answer = Err(refused(Reason::OutOfRange, field));
            assert_eq!(planned(&image, &numbers, ADDRESS, PLAN_ROOM), answer);
        }
    }
}

#[test]
fn fields_in_order() {
    let mut numbers = [-1; NUMBERS];
    for (place, (field, _)) in RANGES.into_iter().enumerate() {
        let answer = planned(&[0; REGISTERS], &numbers, ADDRESS, 0);
        assert_eq!(answer, Err(refused(Reason::OutOfRange, field)));
        numbers[place] = 0;
    }
}

#[test]
fn planning_in_order() {
    let wrong = [-1; NUMBERS + 1];
    let none = |reason| Err(refused(reason, 0));
    for length in [0, 39, 41, 54] {
        let answer = planned(&vec![0; length], &wrong, ODD, 0);
        assert_eq!(answer, none(Reason::ImageLength));
    }
    for address in [ODD, WIDE, 256, u32::MAX] {
        let answer = planned(&[0; REGISTERS], &wrong, address, 0);
        assert_eq!(answer, none(Reason::Address));
    }
    for length in [0, 49, 57, 59] {
        let answer = planned(&[0; REGISTERS], &wrong[..length], ADDRESS, 0);
        assert_eq!(answer, none(Reason::OutOfRange));
    }
    let answer = planned(&[0; REGISTERS], &[0; NUMBERS], ADDRESS, 0);
    assert_eq!(answer, none(Reason::PlanRoom));
    assert_eq!(planned(&[0; REGISTERS], &[0; NUMBERS], 254, 1), Ok(()));
}

/// The longest plan: 41 bytes are enough, and 40 are not.
#[test]
fn room() {
    let settings = Settings {
        interpolation: true,
        ..Settings::default()
    };
    let mut image = [0xFF; REGISTERS];
    image[0x03] = 0xBF;
    let short = plan(&image, &settings, ADDRESS, &mut [0; PLAN_ROOM - 1]);
    assert_eq!(short, Err(refused(Reason::PlanRoom, 0)));
    let whole = plan(&image, &settings, ADDRESS, &mut [0; PLAN_ROOM]).unwrap();
    assert_eq!((whole.length, whole.bus_bytes), (PLAN_ROOM, 41));
}

#[test]
fn playing() {
    let three: [u8; 4] = [0x04, 0x30, 0x46, 0x00];
    let mut image = [0; REGISTERS];
    let mut refused_by = |image_len: usize, used, own, plan: &[u8]| {
        let answer = play(&mut image[..image_len], used, own, plan);
        assert_eq!(image, [0; REGISTERS]);
        answer.map_err(|refusal| (refusal.reason, refusal.field))
    };
    assert_eq!(refused_by(39, ODD, ODD, &[]), Err((Reason::ImageLength, 0)));
    assert_eq!(refused_by(40, ODD, ADDRESS, &[]), Err((Reason::Address, 0)));
    assert_eq!(
        refused_by(40, ADDRESS, WIDE, &[]),
        Err((Reason::Address, 0))
    );
    let bytes = Err((Reason::PlanBytes, 0));
    assert_eq!(refused_by(40, ADDRESS, ADDRESS, &three[..3]), bytes);
    assert_eq!(refused_by(40, ADDRESS, ADDRESS, &[]), bytes);
    // Register 0A, register 28, and interpolation without the 3E, whatever the addresses.
    for plan in [
        [0x04, 0xA0, 0x46, 0x00],
        [0x06, 0x80, 0x46, 0x00],
        [0x04, 0x30, 0x50, 0x00],
    ] {
        assert_eq!(refused_by(40, ADDRESS, ADDRESS, &plan), bytes);
        assert_eq!(refused_by(40, 0x56, ADDRESS, &plan), bytes);
    }
    assert_eq!(refused_by(40, 0x56, ADDRESS, &three), Ok(false));
    assert_eq!(refused_by(40, 0x56, ADDRESS, &[0x00]), Ok(true));
}

/// Must-be-zero bits, reserved codes and delays in an image, and the earlier field first.
#[test]
fn reading() {
    let faults = [
        (0x00, 0x03, Reason::Reserved, 1),
        (0x00, 0x0C, Reason::Reserved, 2),
        (0x00, 0x20, Reason::Reserved, 4),
        (0x00, 0x80, Reason::Reserved, 6),
        (0x02, 0x05, Reason::OutOfRange, 14),
        (0x02, 0x28, Reason::OutOfRange, 15),
        (0x03, 0x02, Reason::Reserved, 19),
        (0x03, 0x04, Reason::Reserved, 20),
        (0x03, 0x80, Reason::Reserved, 25),
        (0x05, 0x01, Reason::Reserved, 27),
    ];
    let mut image = [0; REGISTERS];
    for (register, bits, reason, field) in faults.into_iter().rev() {
        image[register] |= bits;
        assert_eq!(read(&image), Err(refused(reason, field)));
    }
    for length in [0, 57, 59] {
        let mut lent = vec![7; length];
        let answer = read_numbers(&image, &mut lent);
        assert_eq!(answer, Err(refused(Reason::OutOfRange, 0)));
        assert_eq!(lent, vec![7; length]);
        let answer = read_numbers(&image[1..], &mut lent);
        assert_eq!(answer, Err(refused(Reason::ImageLength, 0)));
    }
}

#[test]
fn walking() {
    // Two transactions, the second below the first.
    let packed = [0x08, 0x90, 0x4F, 0x83, 0x05, 0xE0];
    let starts = transactions(&packed).unwrap().map(|one| one.subaddress());
    assert!(starts.eq([0x09, 0x03]));
    assert_eq!(
        transactions(&packed[..5]).unwrap_err(),
        refused(Reason::PlanBytes, 0)
    );
    let answer = ffi::transaction(&packed, 2, &mut []);
    assert_eq!((answer.refusal, answer.field), (3, 0));
    let answer = ffi::transaction(&packed, 1, &mut []);
    assert_eq!((answer.refusal, answer.field), (10, 0));
}

#[test]
fn typed_values() {
    let image = [0; REGISTERS];
    let mut room = [0; PLAN_ROOM];
    let mut settings = Settings {
        cgms_data: u32::MAX,
        filter_gain: Gains { a: 16, b: 0 },
        ..Settings::default()
    };
    let refusal = plan(&image, &settings, ADDRESS, &mut room).unwrap_err();
    assert_eq!(refusal, refused(Reason::OutOfRange, 39));
    settings.filter_gain.a = 15;
    let refusal = plan(&image, &settings, ADDRESS, &mut room).unwrap_err();
    assert_eq!(
        refusal.to_string(),
        "refusal 3: a number is outside its range (field 41)"
    );
    let numbers = Reason::ALL.map(Reason::number);
    assert_eq!(numbers, [1, 2, 3, 4, 9, 10]);
}
