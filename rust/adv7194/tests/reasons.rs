//! Why registers are sent, typed, through the archive.

use adv7194::{plan, transactions, why, why_numbers, Board, Reason, Refusal, Settings, Signalling};
use adv7194::{Why, NO_LIMIT, PLAN_ROOM, REGISTERS};

/// An even address.
const ADDRESS: u32 = 0x54;

/// The house setting with CGMS.
fn cgms() -> Settings {
    Settings {
        signalling: Signalling::Cgms {
            payload: 4660,
            odd: true,
            even: true,
            chip_check: false,
        },
        ..Settings::house()
    }
}

/// Whether a plan of a board with this limit writes each register.
fn sent(board: &Board, limit: u32) -> Result<[bool; REGISTERS], Refusal> {
    let mut bytes = [0; PLAN_ROOM];
    let planned = plan(board, &cgms(), ADDRESS, limit, &mut bytes)?;
    let mut sent = [false; REGISTERS];
    for one in transactions(&bytes[..planned.length])? {
        sent[one.subaddress().into()..][..one.data().len()].fill(true);
    }
    Ok(sent)
}

/// Every register is sent exactly where a transaction writes it, with every limit.
#[test]
fn as_planned() {
    let zeros = Board::known([0x00; REGISTERS]);
    let ones = Board::known([0xFF; REGISTERS]);
    let mut unknown = ones;
    unknown.flags = 0b111;
    for board in [zeros, ones, unknown] {
        for limit in 4..=NO_LIMIT {
            let sent = sent(&board, limit).unwrap();
            for register in 0..=u8::MAX {
                let why = why(&board, &cgms(), limit, register).unwrap();
                let expected = sent.get(usize::from(register)) == Some(&true);
                assert_eq!(why != Why::NotSent, expected, "{register:02X}");
            }
        }
    }
}

/// The reason of a register on a board that has CGMS but for some bits.
fn of(wrong: &[(usize, u8)], register: u8) -> Why {
    let mut board = Board::known([0; REGISTERS]);
    let mut bytes = [0; PLAN_ROOM];
    let planned = plan(&board, &cgms(), ADDRESS, NO_LIMIT, &mut bytes).unwrap();
    adv7194::play(&mut board, ADDRESS, ADDRESS, &bytes[..planned.length]).unwrap();
    for &(place, bits) in wrong {
        board.bytes[place] ^= bits;
    }
    why(&board, &cgms(), NO_LIMIT, register).unwrap()
}

#[test]
fn each_reason() {
    let field = |field| Why::FieldChanged { field };
    let bridge = |below, above| Why::Bridge { below, above };
    assert_eq!(of(&[], 0x20), Why::NotSent);
    assert_eq!(of(&[(0x1B, 1)], 0x1B), field(11));
    assert_eq!(of(&[(0x23, 0x11)], 0x23), field(18));
    assert_eq!(of(&[(0x22, 0x11)], 0x22), field(17));
    assert_eq!(of(&[(0x22, 0x10)], 0x22), Why::MustBeZero);
    assert_eq!(of(&[(0x0D, 1)], 0x0C), Why::Companion);
    assert_eq!(of(&[(0x0D, 1)], 0x0D), field(28));
    assert_eq!(of(&[(0x1B, 1), (0x1E, 1)], 0x1D), bridge(0x1B, 0x1E));
    assert_eq!(of(&[(0x1B, 1), (0x1E, 1)], 0x1C), bridge(0x1B, 0x1E));
    assert_eq!(of(&[(0x1B, 1), (0x1F, 1)], 0x1D), Why::NotSent);
    let texts = [field(11), bridge(0x0A, 0x2F), Why::Companion].map(|why| why.to_string());
    let expected = [
        "field 11 changed",
        "between 0A and 2F",
        "sent with the subcarrier word",
    ];
    assert_eq!(texts, expected);
}

/// The limit, then the settings' count, then the fields, then 11.
#[test]
fn refused() {
    let board = Board::unknown();
    let refused = |settings: &[i32], limit: u32| {
        let refusal = why_numbers(&board, settings, limit, 0x20).unwrap_err();
        (refusal.reason, refusal.field)
    };
    let mut numbers = cgms().to_numbers();
    assert_eq!(refused(&numbers, NO_LIMIT), (Reason::RegisterUnknown, 1));
    numbers[0] = 2;
    assert_eq!(refused(&numbers, NO_LIMIT), (Reason::Reserved, 1));
    assert_eq!(refused(&numbers[1..], NO_LIMIT), (Reason::OutOfRange, 0));
    for limit in [0, 3, 55, 0x104, u32::MAX] {
        assert_eq!(refused(&numbers, limit), (Reason::OutOfRange, 0));
    }
}
