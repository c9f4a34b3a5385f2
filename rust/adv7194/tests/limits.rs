//! Limits on a transaction's data, typed, through the archive.

use adv7194::{
    plan, play, transactions, Board, Reason, Refusal, Settings, Signalling, NO_LIMIT, PLAN_ROOM,
    PLAN_ROOM_NO_LIMIT, REGISTERS,
};

/// An even address.
const ADDRESS: u32 = 0x54;
/// The least limit.
const LEAST: u32 = 4;

/// The house setting with CGMS: over ones it takes the most room.
fn cgms() -> Settings {
    Settings {
        signalling: Signalling::Cgms {
            payload: 4660,
            odd: true,
            even: true,
            chip_check: false,
        },
        ..Settings::house()
    }
}

/// Plans over ones, and gives each transaction's data count and the board after it.
fn settled(limit: u32, room: usize) -> Result<(Vec<usize>, Board), Refusal> {
    let mut board = Board::known([0xFF; REGISTERS]);
    let mut bytes = [0; PLAN_ROOM];
    let planned = plan(&board, &cgms(), ADDRESS, limit, &mut bytes[..room])?;
    let plan = &bytes[..planned.length];
    let counts: Vec<usize> = transactions(plan)?.map(|one| one.data().len()).collect();
    assert_eq!(play(&mut board, ADDRESS, ADDRESS, plan), Ok(true));
    assert_eq!(counts.len(), planned.transactions as usize);
    Ok((counts, board))
}

#[test]
fn every_limit() {
    let (runs, board) = settled(NO_LIMIT, PLAN_ROOM).unwrap();
    assert_eq!(runs, [6, 5, 27]);
    for limit in LEAST..NO_LIMIT {
        let (counts, after) = settled(limit, PLAN_ROOM).unwrap();
        assert!(counts.iter().all(|&count| count <= limit as usize));
        assert_eq!(after, board);
        assert_eq!(counts == runs, limit >= 27);
    }
}

#[test]
fn refused() {
    for limit in [0, LEAST - 1, NO_LIMIT + 1, 0x104, u32::MAX] {
        let refusal = settled(limit, 0).unwrap_err();
        assert_eq!((refusal.reason, refusal.field), (Reason::OutOfRange, 0));
        let board = Board::unknown();
        let refusal = plan(&board, &cgms(), ADDRESS + 1, limit, &mut []).unwrap_err();
        assert_eq!((refusal.reason, refusal.field), (Reason::Address, 0));
    }
}

#[test]
fn room() {
    for (limit, room) in [(LEAST, PLAN_ROOM), (NO_LIMIT, PLAN_ROOM_NO_LIMIT)] {
        let refusal = settled(limit, room - 1).unwrap_err();
        assert_eq!((refusal.reason, refusal.field), (Reason::PlanRoom, 0));
        assert!(settled(limit, room).is_ok());
    }
}
