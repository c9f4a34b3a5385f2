//! Plans, plays, reads back and compares the settings of ADV7194 video encoders,
//! says why a register is sent, and plans, plays and reads back their captions.
//!
//! The work is done by a proved archive with a C interface; this crate gives it
//! safe functions and types. All `unsafe` is in the module [`ffi`].
//!
//! A [`Board`] is 54 bytes, one for each register of its chip, with a flag for
//! each: only some may be known, after a power dip say. [`plan`] works out the
//! least list of write transactions that brings a chip to given settings,
//! and packs it into lent bytes; [`why`] says why that plan writes a register.
//! [`transactions`] takes a packed plan apart, to send it. [`play`] says what a chip holds after a packed plan, and what of it is
//! then known. [`read`] gives the settings that a board holds, [`compare`] says in
//! what two images differ. [`plan_captions`], [`play_captions`] and
//! [`read_captions`] do the same for pairs of caption characters, which are no
//! setting. Nothing is kept between calls and nothing is allocated.
//!
//! ```
//! use adv7194::{plan, play, read, Board, Settings, NO_LIMIT, PLAN_ROOM, REGISTERS};
//!
//! // What the chip holds now, all of it known.
//! let mut board = Board::known([0u8; REGISTERS]);
//! let mut settings = Settings::house();
//! settings.hue = 40;
//!
//! let mut bytes = [0u8; PLAN_ROOM];
//! let planned = plan(&board, &settings, 0x54, NO_LIMIT, &mut bytes).unwrap();
//!
//! // What the chip holds after the plan.
//! let acknowledged = play(&mut board, 0x54, 0x54, &bytes[..planned.length]).unwrap();
//! assert!(acknowledged);
//! assert_eq!(board.bytes[0x20], 0x97);
//!
//! // Of the settings with the same codes, reading gives those nearest zero.
//! let found = read(&board).unwrap();
//! let again = plan(&board, &found, 0x54, NO_LIMIT, &mut bytes).unwrap();
//! assert_eq!((again.length, again.transactions, again.bus_bytes), (1, 0, 0));
//! assert_eq!(bytes[0], 0x00);
//! ```
#![deny(unsafe_code)]
#![warn(missing_docs)]

mod board;
mod captions;
mod comparison;
pub mod ffi;
mod numbers;
mod refusal;
mod settings;
mod transactions;
mod why;

pub use board::{Board, ALL_KNOWN, REGISTERS};
pub use captions::{plan_caption_numbers, plan_captions, play_captions, read_captions};
pub use captions::{Captions, Pair, CAPTION_ROOM, PAIR};
pub use comparison::{compare, Comparison, Differing};
pub use numbers::{index, Numbers, NUMBERS};
pub use refusal::{Reason, Refusal};
pub use settings::{Curve, Settings, Signalling, Standard, YLevel, CURVE_BYTES};
pub use transactions::{transactions, Transaction, Transactions, DATA_ROOM};
pub use why::{why, why_numbers, Why};

/// The limit on a transaction's data bytes that is none: the highest.
pub const NO_LIMIT: u32 = 54;
/// Room for the longest packed plan, whatever the limit.
pub const PLAN_ROOM: usize = 53;
/// Room for the longest packed plan where the limit is [`NO_LIMIT`].
pub const PLAN_ROOM_NO_LIMIT: usize = 44;

/// What planning answers.
#[derive(Clone, Copy, Debug, PartialEq, Eq)]
pub struct Planned {
    /// Bytes of the packed plan, at the front of the lent bytes.
    pub length: usize,
    /// Its transactions.
    pub transactions: u32,
    /// Its bus bytes: 2 for each transaction, plus all data.
    pub bus_bytes: u32,
}

impl Planned {
    /// What the archive answers, or its refusal.
    pub(crate) fn of(answer: ffi::PlanAnswer) -> Result<Planned, Refusal> {
        refusal::check(answer.refusal, answer.field)?;
        Ok(Planned {
            length: answer.length as usize,
            transactions: answer.transactions,
            bus_bytes: answer.bus_bytes,
        })
    }
}

/// Plans the way from `board` to `settings`, for a chip at the even `address`, in
/// transactions of at most `limit` data bytes, 4 to 54. A register that isn't known
/// is written where the settings fix all its bits; where they fix only some,
/// planning is refused.
///
/// Of all lists that do it, the plan takes the fewest bus bytes, then the fewest
/// transactions, and of those it is the one whose first transaction is shortest,
/// then the second, and so on.
///
/// The packed plan goes to the front of `plan`; bytes past it stay as they
/// were. After a refusal all of `plan` is as it was.
///
/// ```
/// use adv7194::{plan, Board, Reason, Settings, NO_LIMIT, PLAN_ROOM};
///
/// let mut board = Board::known([0xFF; 54]);
/// let mut settings = Settings::house();
/// let free = plan(&board, &settings, 0x54, NO_LIMIT, &mut [0; PLAN_ROOM]).unwrap();
/// let short = plan(&board, &settings, 0x54, 8, &mut [0; PLAN_ROOM]).unwrap();
/// assert_eq!((free.transactions, free.bus_bytes), (4, 43));
/// assert_eq!((short.transactions, short.bus_bytes), (6, 47));
///
/// // A limit of three would cut the subcarrier word.
/// let refusal = plan(&board, &settings, 0x54, 3, &mut [0; PLAN_ROOM]).unwrap_err();
/// assert_eq!((refusal.reason, refusal.field), (Reason::OutOfRange, 0));
///
/// settings.hue = 225;
/// let refusal = plan(&board, &settings, 0x54, 8, &mut [0; PLAN_ROOM]).unwrap_err();
/// assert_eq!((refusal.reason, refusal.field), (Reason::OutOfRange, 15));
///
/// // The standard has two bits of register 00; the others are to stay as found.
/// board.flags &= !(1 << 0x00);
/// let refusal = plan(&board, &Settings::house(), 0x54, 8, &mut [0; PLAN_ROOM]).unwrap_err();
/// assert_eq!((refusal.reason, refusal.field), (Reason::RegisterUnknown, 1));
/// ```
pub fn plan(
    board: &Board,
    settings: &Settings,
    address: u32,
    limit: u32,
    plan: &mut [u8],
) -> Result<Planned, Refusal> {
    plan_numbers(board, &settings.to_numbers(), address, limit, plan)
}

/// The same with settings as numbers, of any length and any value.
///
/// ```
/// use adv7194::{plan_numbers, Board, Reason, NO_LIMIT};
///
/// let board = Board::known([0; 54]);
/// let refusal = plan_numbers(&board, &[0; 48], 0x54, NO_LIMIT, &mut []).unwrap_err();
/// assert_eq!((refusal.reason, refusal.field), (Reason::OutOfRange, 0));
/// ```
pub fn plan_numbers(
    board: &Board,
    settings: &[i32],
    address: u32,
    limit: u32,
    plan: &mut [u8],
) -> Result<Planned, Refusal> {
    let answer = ffi::plan(&board.bytes, board.flags, settings, address, limit, plan);
    Planned::of(answer)
}

/// Plays a packed plan, sent to the address `used`, on the chip of `board`, which
/// has the address `own`. Says whether every byte was acknowledged; `board` is
/// what the chip then holds, and each register that a byte was stored in is
/// known. After a refusal it is as it was.
///
/// ```
/// use adv7194::{play, Board, Reason};
///
/// let mut board = Board::unknown();
/// assert_eq!(play(&mut board, 0x54, 0x54, &[0x06, 0x00, 0x65, 0xC0]), Ok(true));
/// assert_eq!((board.bytes[0x20], board.flags), (0x97, 1 << 0x20));
///
/// // Another chip's address: nothing is stored.
/// assert_eq!(play(&mut board, 0x56, 0x54, &[0x06, 0x00, 0x41, 0x00]), Ok(false));
/// assert_eq!(board.bytes[0x20], 0x97);
///
/// let refusal = play(&mut board, 0x54, 0x54, &[0x06, 0x00]).unwrap_err();
/// assert_eq!(refusal.reason, Reason::PlanBytes);
/// ```
pub fn play(board: &mut Board, used: u32, own: u32, plan: &[u8]) -> Result<bool, Refusal> {
    let answer = ffi::play(&mut board.bytes, board.flags, used, own, plan);
    board.played(answer)
}

/// Reads the settings that `board` holds: of those with the same codes, the
/// ones nearest zero, and curves as seven bytes.
///
/// ```
/// use adv7194::{read, Board, Reason};
///
/// // All zero: NTSC, but no DNR input and no subcarrier word.
/// let mut board = Board::known([0; 54]);
/// let refusal = read(&board).unwrap_err();
/// assert_eq!((refusal.reason, refusal.field), (Reason::Reserved, 23));
///
/// // Contrast isn't known: field 12 comes first.
/// board.flags &= !(1 << 0x1D);
/// let refusal = read(&board).unwrap_err();
/// assert_eq!((refusal.reason, refusal.field), (Reason::RegisterUnknown, 12));
/// ```
pub fn read(board: &Board) -> Result<Settings, Refusal> {
    let mut numbers = [0; NUMBERS];
    read_numbers(board, &mut numbers)?;
    let settings = Settings::from_numbers(&numbers);
    Ok(settings.expect("numbers that reading writes have a typed form"))
}

/// The same into lent numbers. After a refusal they are as they were.
///
/// ```
/// use adv7194::{read_numbers, Board, Reason};
///
/// let refusal = read_numbers(&Board::known([0; 54]), &mut [0; 50]).unwrap_err();
/// assert_eq!((refusal.reason, refusal.field), (Reason::OutOfRange, 0));
/// ```
pub fn read_numbers(board: &Board, settings: &mut [i32]) -> Result<(), Refusal> {
    let answer = ffi::read(&board.bytes, board.flags, settings);
    refusal::check(answer.refusal, answer.field)
}
