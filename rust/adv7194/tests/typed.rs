//! The typed form: to numbers and back, and through the archive.

use adv7194::{
    compare, ffi, index, plan, play, read, Board, Curve, Reason, Refusal, Settings, Signalling,
    Standard, YLevel, NO_LIMIT, PLAN_ROOM, REGISTERS,
};

/// An even address.
const ADDRESS: u32 = 0x54;

/// PAL with WSS and curves of both kinds; every setting nearest zero.
fn pal() -> Settings {
    Settings {
        standard: Standard::Pal,
        square_pixel: true,
        four_times: false,
        pedestal: false,
        y_level: YLevel::Smpte,
        clamp_delay: -2,
        phase: 0xA7,
        signalling: Signalling::Wss { number: 0x2A07 },
        contrast: 0,
        u_scale: 4,
        v_scale: 1989,
        hue: -225,
        brightness: -72,
        sharpness: 6,
        dnr_input: 4,
        curve_a: Curve::Ratio { p: 1, q: 2 },
        curve_b: Curve::Bytes([0, 255, 1, 254, 2, 253, 3]),
        ..Settings::house()
    }
}

/// Plans and plays, and gives the image.
fn settled(settings: &Settings) -> Result<[u8; REGISTERS], Refusal> {
    let mut board = Board::known([0xFF; REGISTERS]);
    let mut bytes = [0; PLAN_ROOM];
    let planned = plan(&board, settings, ADDRESS, NO_LIMIT, &mut bytes)?;
    assert!(play(
        &mut board,
        ADDRESS,
        ADDRESS,
        &bytes[..planned.length]
    )?);
    Ok(board.bytes)
}

/// Plans, plays and reads.
fn through(settings: &Settings) -> Result<Settings, Refusal> {
    read(&Board::known(settled(settings)?))
}

#[test]
fn numbers_and_back() {
    for settings in [Settings::house(), pal()] {
        assert_eq!(
            Settings::from_numbers(&settings.to_numbers()),
            Some(settings)
        );
    }
    let mut numbers = pal().to_numbers();
    numbers[index::CURVE_B + index::CURVE_FIRST] = 256;
    assert_eq!(Settings::from_numbers(&numbers), None);
}

#[test]
fn read_as_set() {
    let mut wanted = pal();
    wanted.curve_a = Curve::Bytes([76, 120, 150, 174, 196, 215, 232]);
    assert_eq!(through(&pal()), Ok(wanted));
}

/// The house setting: what its registers hold, and other lengths than 49.
#[test]
fn house() {
    let image = settled(&Settings::house()).unwrap();
    assert_eq!(image[0x00..=0x02], [0xFC, 0xFF, 0xE7]);
    assert_eq!(Settings::default(), Settings::house());
    for length in [0, 48, 50] {
        let mut lent = vec![7; length];
        let answer = ffi::house(&mut lent);
        assert_eq!((answer.refusal, answer.field), (3, 0));
        assert_eq!(lent, vec![7; length]);
    }
}

#[test]
fn cgms() {
    let settings = Settings {
        signalling: Signalling::Cgms {
            payload: 0x1234,
            odd: false,
            even: true,
            chip_check: true,
        },
        ..Settings::house()
    };
    assert_eq!(through(&settings).unwrap().signalling, settings.signalling);
}

#[test]
fn refused() {
    let settings = Settings {
        pedestal: true,
        ..pal()
    };
    let refusal = through(&settings).unwrap_err();
    assert_eq!(
        (refusal.reason, refusal.field),
        (Reason::PedestalWithPal, 4)
    );
    assert_eq!(
        refusal.to_string(),
        "refusal 6: pedestal with PAL (field 4)"
    );
}

#[test]
fn compared() {
    let house = settled(&Settings {
        pedestal: true,
        ..Settings::house()
    })
    .unwrap();
    let mut other = settled(&pal()).unwrap();
    let comparison = compare(&house, &other).unwrap();
    let fields = [
        1, 2, 3, 4, 5, 8, 10, 11, 12, 13, 14, 15, 16, 17, 23, 26, 27, 28,
    ];
    assert!(comparison.readable());
    assert_eq!(comparison.fields().len(), fields.len());
    assert!(comparison.fields().eq(fields));
    assert_eq!(comparison.registers().next(), None);
    other[0x0F] ^= 1;
    other[0x1C] ^= 1;
    let comparison = compare(&other, &house).unwrap();
    assert!(!comparison.readable());
    assert!(comparison.fields().eq(fields));
    assert!(comparison.registers().eq([0x1C]));
}

#[test]
fn compared_equal() {
    let house = settled(&Settings::house()).unwrap();
    let mut other = house;
    other[0x34] ^= 0xFF;
    let comparison = compare(&house, &other).unwrap();
    assert!(comparison.is_equal() && comparison.readable());
    assert_eq!(
        comparison.fields().count() + comparison.registers().count(),
        0
    );
    other[0x35] ^= 0xFF;
    assert!(!compare(&house, &other).unwrap().is_equal());
    let refusal = compare(&house[1..], &other).unwrap_err();
    assert_eq!((refusal.reason, refusal.field), (Reason::ImageLength, 0));
}
