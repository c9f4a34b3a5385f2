//! Boards known in part, typed, through the archive.

use adv7194::{
    plan, play, read, transactions, Board, Reason, Refusal, Settings, Signalling, ALL_KNOWN,
    NO_LIMIT, PLAN_ROOM, REGISTERS,
};

/// An even address.
const ADDRESS: u32 = 0x54;
/// Flags past the last register.
const PAST: u64 = !ALL_KNOWN;

/// The house setting with CGMS.
fn cgms() -> Settings {
    Settings {
        signalling: Signalling::Cgms {
            payload: 4660,
            odd: true,
            even: false,
            chip_check: false,
        },
        ..Settings::house()
    }
}

/// Plans and plays, and gives what is written: each transaction's subaddress and data count.
fn settle(board: &mut Board, settings: &Settings) -> Result<Vec<(u8, usize)>, Refusal> {
    let mut bytes = [0; PLAN_ROOM];
    let planned = plan(board, settings, ADDRESS, NO_LIMIT, &mut bytes)?;
    let plan = &bytes[..planned.length];
    let list = transactions(plan)?.map(|one| (one.subaddress(), one.data().len()));
    let list = list.collect();
    assert_eq!(play(board, ADDRESS, ADDRESS, plan), Ok(true));
    Ok(list)
}

/// A board that has some settings, all known.
fn settled(settings: &Settings) -> Board {
    let mut board = Board::known([0x5A; REGISTERS]);
    settle(&mut board, settings).unwrap();
    board
}

/// The reason and field of a refusal.
fn refused<T: std::fmt::Debug>(answer: Result<T, Refusal>) -> (Reason, u8) {
    let refusal = answer.unwrap_err();
    (refusal.reason, refusal.field)
}

#[test]
fn board() {
    assert_eq!(Board::known([7; REGISTERS]).flags, ALL_KNOWN);
    let mut board = Board::unknown();
    assert!((0..=u8::MAX).all(|register| !board.knows(register)));
    board.learn(0x35, 0xA5);
    assert_eq!((board.bytes[0x35], board.flags), (0xA5, 1 << 0x35));
    board.flags = u64::MAX;
    assert!(board.knows(0x35) && !board.knows(0x36) && !board.knows(0xFF));
    for length in [0, 53, 55] {
        let image = vec![0; length];
        let answer = Board::try_from(image.as_slice());
        assert_eq!(refused(answer), (Reason::ImageLength, 0));
    }
    let image = [0x5A; REGISTERS];
    assert_eq!(Board::try_from(&image[..]), Ok(Board::known(image)));
}

#[test]
fn fixed_in_part() {
    for (register, field) in [(0x00, 1), (0x02, 2), (0x01, 3), (0x19, 11)] {
        let mut board = settled(&Settings::house());
        board.flags &= !(1 << register);
        let before = board;
        let answer = settle(&mut board, &Settings::house());
        assert_eq!(refused(answer), (Reason::RegisterUnknown, field));
        assert_eq!(board, before);
    }
    let refusal = settle(&mut Board::unknown(), &Settings::house()).unwrap_err();
    let text = "refusal 11: a register is not known (field 1)";
    assert_eq!(refusal.to_string(), text);
    // CGMS fixes all of 19.
    let mut board = settled(&cgms());
    board.flags &= !(1 << 0x19);
    assert_eq!(settle(&mut board, &cgms()), Ok(vec![(0x19, 1)]));
    assert_eq!(board.flags, ALL_KNOWN);
}

#[test]
fn written_and_known() {
    // All but 00 to 02 unknown: no register outside the fields is written.
    let mut board = settled(&cgms());
    board.flags = PAST | 0b111;
    let list = settle(&mut board, &cgms()).unwrap();
    assert_eq!(list, [(0x05, 1), (0x0C, 5), (0x19, 3), (0x1D, 23)]);
    let outside = [0x03, 0x04, 0x06, 0x11, 0x14, 0x18, 0x1C, 0x34, 0x35];
    assert!(outside.iter().all(|&register| !board.knows(register)));
    assert_eq!(board.flags & PAST, PAST);
    // What is read needs nothing more.
    let found = read(&board).unwrap();
    assert_eq!(found.signalling, cgms().signalling);
    assert_eq!(settle(&mut board, &found), Ok(vec![]));
}

#[test]
fn a_bridge_must_be_known() {
    for (unknown, list) in [
        (0, vec![(0x02, 4)]),
        (1 << 0x04, vec![(0x02, 1), (0x05, 1)]),
    ] {
        let mut board = settled(&Settings::house());
        board.bytes[0x02] ^= 0x08;
        board.bytes[0x05] ^= 0x01;
        board.flags &= !unknown;
        assert_eq!(settle(&mut board, &Settings::house()), Ok(list));
        assert_eq!(board.flags, ALL_KNOWN & !unknown);
    }
}

#[test]
fn reading() {
    let board = settled(&Settings::house());
    for (register, field) in [(0x00, 1), (0x01, 3), (0x05, 5), (0x1B, 11), (0x0F, 28)] {
        let mut board = board;
        board.flags &= !(1 << register);
        assert_eq!(refused(read(&board)), (Reason::RegisterUnknown, field));
    }
    let outside = Board {
        flags: ALL_KNOWN & !(1 << 0x35 | 1 << 0x1C | 0b1111 << 0x11),
        ..board
    };
    assert_eq!(read(&outside), read(&board));
}
