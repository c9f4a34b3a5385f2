//! Captions, typed, through the archive.

use adv7194::{
    plan_captions, play, play_captions, read, read_captions, transactions, Board, Captions, Pair,
    Reason, Refusal, CAPTION_ROOM, REGISTERS,
};

/// An even address.
const ADDRESS: u32 = 0x54;
/// One more than the last character.
const PAST_CHARACTERS: u8 = 128;

/// Plans and plays on a board of which nothing is known, and gives it.
fn sent(captions: &Captions) -> Result<Board, Refusal> {
    let mut board = Board::unknown();
    board.bytes = [0xFF; REGISTERS];
    let mut bytes = [0; CAPTION_ROOM];
    let planned = plan_captions(captions, ADDRESS, &mut bytes)?;
    let plan = &bytes[..planned.length];
    let before = board;
    assert_eq!(
        play(&mut board, ADDRESS, ADDRESS, plan).map_err(|refusal| refusal.reason),
        Err(Reason::PlanBytes)
    );
    assert_eq!(
        play_captions(&mut board, ADDRESS + 2, ADDRESS, plan),
        Ok(false)
    );
    assert_eq!(board, before);
    assert_eq!(play_captions(&mut board, ADDRESS, ADDRESS, plan), Ok(true));
    Ok(board)
}

#[test]
fn every_character() {
    for first in 0..PAST_CHARACTERS {
        let second = PAST_CHARACTERS - 1 - first;
        let captions = Captions {
            extended: Some([second, first]),
            ordinary: Some([first, second]),
        };
        let board = sent(&captions).unwrap();
        let odd = |&byte: &u8| byte.count_ones() % 2 == 1;
        assert!(board.bytes[0x11..=0x14].iter().all(odd));
        assert_eq!(read_captions(&board, Pair::Extended), Ok([second, first]));
        assert_eq!(read_captions(&board, Pair::Ordinary), Ok([first, second]));
    }
}

#[test]
fn each_pair_alone() {
    let board = sent(&Captions::ordinary(*b"HI")).unwrap();
    let held = [0xFF, 0xFF, 0xFF, 0xC8, 0x49, 0xFF];
    assert_eq!(
        (&board.bytes[0x10..=0x15], board.flags),
        (&held[..], 0b11 << 0x13)
    );
    let board = sent(&Captions::extended([0, 0])).unwrap();
    let held = [0xFF, 0x80, 0x80, 0xFF, 0xFF, 0xFF];
    assert_eq!(
        (&board.bytes[0x10..=0x15], board.flags),
        (&held[..], 0b11 << 0x11)
    );
}

#[test]
fn both_pairs_in_order() {
    let captions = Captions {
        extended: Some([0, 0]),
        ordinary: Some(*b"HI"),
    };
    let mut bytes = [0xAA; CAPTION_ROOM + 1];
    let planned = plan_captions(&captions, ADDRESS, &mut bytes).unwrap();
    assert_eq!(planned.length, CAPTION_ROOM);
    assert_eq!((planned.transactions, planned.bus_bytes), (2, 8));
    assert_eq!(bytes[CAPTION_ROOM], 0xAA);
    let list = transactions(&bytes[..planned.length]).unwrap();
    let list: Vec<_> = list
        .map(|one| (one.subaddress(), one.data().to_vec()))
        .collect();
    assert_eq!(list, [(0x11, vec![0x80, 0x80]), (0x13, vec![0xC8, 0x49])]);
}

/// The reason and field of a refusal.
fn refused<T: std::fmt::Debug>(answer: Result<T, Refusal>) -> (Reason, u8) {
    let refusal = answer.unwrap_err();
    (refusal.reason, refusal.field)
}

#[test]
fn planning_refused() {
    let hi = Captions::ordinary(*b"HI");
    let past = Captions::extended([0, PAST_CHARACTERS]);
    let mut bytes = [0xAA; CAPTION_ROOM];
    for address in [ADDRESS + 1, 0x154] {
        let answer = plan_captions(&past, address, &mut []);
        assert_eq!(refused(answer), (Reason::Address, 0));
    }
    for captions in [past, Captions::default()] {
        let answer = plan_captions(&captions, ADDRESS, &mut bytes);
        assert_eq!(refused(answer), (Reason::OutOfRange, 29));
        let answer = plan_captions(&captions, ADDRESS, &mut []);
        assert_eq!(refused(answer), (Reason::OutOfRange, 29));
    }
    let answer = plan_captions(&hi, ADDRESS, &mut bytes[..4]);
    assert_eq!(refused(answer), (Reason::PlanRoom, 0));
    assert_eq!(bytes, [0xAA; CAPTION_ROOM]);
    let refusal = plan_captions(&past, ADDRESS, &mut bytes).unwrap_err();
    assert_eq!(
        refusal.to_string(),
        "refusal 3: a number is outside its range (field 29)"
    );
}

#[test]
fn reading_refused() {
    let board = sent(&Captions::ordinary(*b"HI")).unwrap();
    let answer = read_captions(&board, Pair::Extended);
    assert_eq!(refused(answer), (Reason::RegisterUnknown, 29));
    let known = Board::known(board.bytes);
    let answer = read_captions(&known, Pair::Extended);
    assert_eq!(refused(answer), (Reason::Reserved, 29));
    // Captions are no field: reading settings doesn't judge them.
    assert_ne!(refused(read(&known)).1, 29);
}
