//! Captions: pairs of seven-bit characters.

use crate::ffi;
use crate::refusal::{self, Refusal};
use crate::{Board, Planned};

/// Characters of a pair.
pub const PAIR: usize = 2;
/// Room for the longest packed plan of captions.
pub const CAPTION_ROOM: usize = 8;

/// A pair of caption registers.
#[derive(Clone, Copy, Debug, PartialEq, Eq, Hash)]
pub enum Pair {
    /// Registers 11 and 12.
    Extended = 0,
    /// Registers 13 and 14.
    Ordinary = 1,
}

/// What is written: one pair of characters or both. Characters above 127, and
/// neither pair, can be given, and are refused in planning.
#[derive(Clone, Copy, Debug, Default, PartialEq, Eq, Hash)]
pub struct Captions {
    /// The extended pair.
    pub extended: Option<[u8; PAIR]>,
    /// The ordinary pair.
    pub ordinary: Option<[u8; PAIR]>,
}

impl Captions {
    /// The ordinary pair alone.
    pub const fn ordinary(pair: [u8; PAIR]) -> Captions {
        Captions {
            extended: None,
            ordinary: Some(pair),
        }
    }

    /// The extended pair alone.
    pub const fn extended(pair: [u8; PAIR]) -> Captions {
        Captions {
            extended: Some(pair),
            ordinary: None,
        }
    }
}

/// Plans captions for a chip at the even `address`: each pair given is a
/// transaction of its own, the extended one first, and each character leaves
/// with bit 7 making its ones odd in number (EIA-608).
///
/// The packed plan goes to the front of `plan`; bytes past it stay as they
/// were. After a refusal all of `plan` is as it was.
///
/// ```
/// use adv7194::{plan_captions, transactions, Captions, Reason, CAPTION_ROOM};
///
/// let mut bytes = [0; CAPTION_ROOM];
/// let planned = plan_captions(&Captions::ordinary(*b"HI"), 0x54, &mut bytes)?;
/// let list: Vec<_> = transactions(&bytes[..planned.length])?.collect();
/// assert_eq!((list.len(), planned.bus_bytes), (1, 4));
/// assert_eq!((list[0].subaddress(), list[0].data()), (0x13, &[0xC8, 0x49][..]));
///
/// let refusal = plan_captions(&Captions::default(), 0x54, &mut bytes).unwrap_err();
/// assert_eq!((refusal.reason, refusal.field), (Reason::OutOfRange, 29));
/// # Ok::<(), adv7194::Refusal>(())
/// ```
pub fn plan_captions(
    captions: &Captions,
    address: u32,
    plan: &mut [u8],
) -> Result<Planned, Refusal> {
    let extended = captions.extended.map(|pair| pair.map(i32::from));
    let ordinary = captions.ordinary.map(|pair| pair.map(i32::from));
    plan_caption_numbers(
        extended.as_ref().map_or(&[], |pair| pair),
        ordinary.as_ref().map_or(&[], |pair| pair),
        address,
        plan,
    )
}

/// The same with each pair as numbers, of any length and any value; no number
/// where it isn't given.
///
/// ```
/// use adv7194::{plan_caption_numbers, Reason};
///
/// let refusal = plan_caption_numbers(&[0x48, 0x49, 0x21], &[], 0x54, &mut [0; 8]).unwrap_err();
/// assert_eq!((refusal.reason, refusal.field), (Reason::OutOfRange, 29));
/// ```
pub fn plan_caption_numbers(
    extended: &[i32],
    ordinary: &[i32],
    address: u32,
    plan: &mut [u8],
) -> Result<Planned, Refusal> {
    Planned::of(ffi::plan_captions(extended, ordinary, address, plan))
}

/// Plays a packed plan of captions, sent to the address `used`, on the chip of
/// `board`, which has the address `own`. Says whether every byte was
/// acknowledged; `board` is what the chip then holds, and the registers of the
/// pairs sent are known. After a refusal it is as it was. Every plan that
/// [`plan_captions`] doesn't make is refused, and [`play`](crate::play) refuses
/// those that it makes.
///
/// ```
/// use adv7194::{play, play_captions, Board, Reason};
///
/// let mut board = Board::unknown();
/// let plan = [0x05, 0x30, 0xB2, 0x12, 0x40];
/// assert_eq!(play_captions(&mut board, 0x54, 0x54, &plan), Ok(true));
/// assert_eq!(board.bytes[0x13..=0x14], [0xC8, 0x49]);
/// assert!(board.knows(0x13) && board.knows(0x14) && !board.knows(0x12));
///
/// let refusal = play(&mut board, 0x54, 0x54, &plan).unwrap_err();
/// assert_eq!(refusal.reason, Reason::PlanBytes);
/// let refusal = play_captions(&mut board, 0x54, 0x54, &[0x00]).unwrap_err();
/// assert_eq!(refusal.reason, Reason::PlanBytes);
/// ```
pub fn play_captions(board: &mut Board, used: u32, own: u32, plan: &[u8]) -> Result<bool, Refusal> {
    let answer = ffi::play_captions(&mut board.bytes, board.flags, used, own, plan);
    board.played(answer)
}

/// Reads back the characters that `board` holds in a pair.
///
/// ```
/// use adv7194::{read_captions, Board, Pair, Reason};
///
/// let mut board = Board::known([0; 54]);
/// board.bytes[0x13..=0x14].copy_from_slice(&[0xC8, 0x49]);
/// assert_eq!(read_captions(&board, Pair::Ordinary), Ok(*b"HI"));
///
/// // Zeros have an even number of ones; but first they must be known.
/// let refusal = read_captions(&board, Pair::Extended).unwrap_err();
/// assert_eq!((refusal.reason, refusal.field), (Reason::Reserved, 29));
/// board.flags &= !(1 << 0x11);
/// let refusal = read_captions(&board, Pair::Extended).unwrap_err();
/// assert_eq!((refusal.reason, refusal.field), (Reason::RegisterUnknown, 29));
/// ```
pub fn read_captions(board: &Board, pair: Pair) -> Result<[u8; PAIR], Refusal> {
    let answer = ffi::read_captions(&board.bytes, board.flags, pair as u32);
    refusal::check(answer.refusal, answer.field)?;
    Ok([answer.first as u8, answer.second as u8])
}
