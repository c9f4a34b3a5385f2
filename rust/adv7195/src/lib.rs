//! Plans, plays and reads back the settings of ADV7195 video encoders in
//! progressive-scan mode.
//!
//! The work is done by a proved archive with a C interface; this crate gives it
//! safe functions and types. All `unsafe` is in the module [`ffi`].
//!
//! An image is 40 bytes, one for each register of the chip. [`plan`] works out the
//! least list of write transactions that brings a chip to given settings, and packs
//! it into lent bytes. [`transactions`] takes a packed plan apart, to send it.
//! [`play`] says what a chip holds after a packed plan. [`read`] gives the settings
//! that an image holds. Nothing is kept between calls and nothing is allocated.
//!
//! Before a transaction that flips bit 6 of register 03 (MR36, interpolation), an
//! earlier one of the list has written 3E to 09 and none since has touched 09: plans
//! keep this order, and playing refuses a list that doesn't.
//!
//! ```
//! use adv7195::{plan, play, read, Settings, PLAN_ROOM, REGISTERS};
//!
//! // What the chip holds now.
//! let mut image = [0u8; REGISTERS];
//! let settings = Settings { interpolation: true, mode_register_6: 0x3E, ..Settings::default() };
//!
//! let mut bytes = [0u8; PLAN_ROOM];
//! let planned = plan(&image, &settings, 0x54, &mut bytes).unwrap();
//! assert_eq!(bytes[..planned.length], [0x08, 0x90, 0x4F, 0x83, 0x05, 0x00]);
//!
//! // What the chip holds after the plan.
//! let acknowledged = play(&mut image, 0x54, 0x54, &bytes[..planned.length]).unwrap();
//! assert!(acknowledged);
//! assert_eq!((image[0x03], image[0x09]), (0x40, 0x3E));
//!
//! // What is read and planned again needs nothing.
//! let found = read(&image).unwrap();
//! assert_eq!(found, settings);
//! let again = plan(&image, &found, 0x54, &mut bytes).unwrap();
//! assert_eq!((again.length, again.transactions, again.bus_bytes), (1, 0, 0));
//! assert_eq!(bytes[0], 0x00);
//! ```
#![deny(unsafe_code)]
#![warn(missing_docs)]

pub mod ffi;
mod numbers;
mod refusal;
mod settings;
mod transactions;

pub use numbers::{index, Numbers, NUMBERS};
pub use refusal::{Reason, Refusal};
pub use settings::{AdaptiveMode, Gains, GammaCurve, OutputStandard, TestPattern};
pub use settings::{Settings, CURVE_BYTES};
pub use transactions::{transactions, Transaction, Transactions, DATA_ROOM};

/// Bytes of an image.
pub const REGISTERS: usize = 40;
/// Room for the longest packed plan.
pub const PLAN_ROOM: usize = 41;

/// What planning answers.
#[derive(Clone, Copy, Debug, PartialEq, Eq)]
pub struct Planned {
    /// Bytes of the packed plan, at the front of the lent bytes.
    pub length: usize,
    /// Its transactions.
    pub transactions: u32,
    /// Its bus bytes: 2 for each transaction, plus all data.
    pub bus_bytes: u32,
}

/// Plans the way from `image` to `settings`, for a chip at the even `address`.
///
/// Of all lists that do it and keep the order of the 3E, the plan takes the fewest
/// bus bytes, then the fewest transactions, and of those it is the one whose first
/// transaction starts lowest, then is shortest, then the second, and so on.
///
/// The packed plan goes to the front of `plan`; bytes past it stay as they
/// were. After a refusal all of `plan` is as it was.
///
/// ```
/// use adv7195::{plan, Reason, Settings, PLAN_ROOM, REGISTERS};
///
/// let mut settings = Settings { y_delay: 4, ..Settings::default() };
/// let planned = plan(&[0; REGISTERS], &settings, 0x54, &mut [0; PLAN_ROOM]).unwrap();
/// assert_eq!((planned.transactions, planned.bus_bytes), (1, 3));
///
/// settings.y_delay = 5;
/// let refusal = plan(&[0; REGISTERS], &settings, 0x54, &mut [0; PLAN_ROOM]).unwrap_err();
/// assert_eq!((refusal.reason, refusal.field), (Reason::OutOfRange, 14));
///
/// settings.input_control = 3;
/// let refusal = plan(&[0; REGISTERS], &settings, 0x54, &mut [0; PLAN_ROOM]).unwrap_err();
/// assert_eq!((refusal.reason, refusal.field), (Reason::Reserved, 2));
///
/// let refusal = plan(&[0; 39], &settings, 0x54, &mut [0; PLAN_ROOM]).unwrap_err();
/// assert_eq!((refusal.reason, refusal.field), (Reason::ImageLength, 0));
/// ```
pub fn plan(
    image: &[u8],
    settings: &Settings,
    address: u32,
    plan: &mut [u8],
) -> Result<Planned, Refusal> {
    plan_numbers(image, &settings.to_numbers(), address, plan)
}

/// The same with settings as numbers, of any length and any value.
///
/// ```
/// use adv7195::{plan_numbers, Reason, REGISTERS};
///
/// let refusal = plan_numbers(&[0; REGISTERS], &[0; 57], 0x54, &mut []).unwrap_err();
/// assert_eq!((refusal.reason, refusal.field), (Reason::OutOfRange, 0));
/// ```
pub fn plan_numbers(
    image: &[u8],
    settings: &[i32],
    address: u32,
    plan: &mut [u8],
) -> Result<Planned, Refusal> {
    let answer = ffi::plan(image, settings, address, plan);
    refusal::check(answer.refusal, answer.field)?;
    Ok(Planned {
        length: answer.length as usize,
        transactions: answer.transactions,
        bus_bytes: answer.bus_bytes,
    })
}

/// Plays a packed plan, sent to the address `used`, on a chip that holds `image`
/// and has the address `own`. Says whether every byte was acknowledged; `image` is
/// what the chip then holds. After a refusal it is as it was.
///
/// ```
/// use adv7195::{play, Reason, REGISTERS};
///
/// let mut image = [0; REGISTERS];
/// assert_eq!(play(&mut image, 0x54, 0x54, &[0x04, 0x30, 0x46, 0x00]), Ok(true));
/// assert_eq!(image[0x03], 0x18);
///
/// // Another chip's address: nothing is stored.
/// assert_eq!(play(&mut image, 0x56, 0x54, &[0x04, 0x30, 0x4E, 0x00]), Ok(false));
/// assert_eq!(image[0x03], 0x18);
///
/// // Interpolation without the 3E.
/// let refusal = play(&mut image, 0x54, 0x54, &[0x04, 0x30, 0x5E, 0x00]).unwrap_err();
/// assert_eq!(refusal.reason, Reason::PlanBytes);
/// ```
pub fn play(image: &mut [u8], used: u32, own: u32, plan: &[u8]) -> Result<bool, Refusal> {
    let answer = ffi::play(image, used, own, plan);
    refusal::check(answer.refusal, answer.field)?;
    Ok(answer.acknowledged == 1)
}

/// Reads the settings that `image` holds.
///
/// ```
/// use adv7195::{read, Reason, Settings, REGISTERS};
///
/// let mut image = [0; REGISTERS];
/// assert_eq!(read(&image), Ok(Settings::default()));
///
/// // MR37 must be zero.
/// image[0x03] = 0x80;
/// let refusal = read(&image).unwrap_err();
/// assert_eq!((refusal.reason, refusal.field), (Reason::Reserved, 25));
///
/// // A Y delay of 5: field 14 comes first.
/// image[0x02] = 0x05;
/// let refusal = read(&image).unwrap_err();
/// assert_eq!((refusal.reason, refusal.field), (Reason::OutOfRange, 14));
/// ```
pub fn read(image: &[u8]) -> Result<Settings, Refusal> {
    let mut numbers = [0; NUMBERS];
    read_numbers(image, &mut numbers)?;
    let settings = Settings::from_numbers(&numbers);
    Ok(settings.expect("numbers that reading writes have a typed form"))
}

/// The same into lent numbers. After a refusal they are as they were.
///
/// ```
/// use adv7195::{read_numbers, Reason, REGISTERS};
///
/// let refusal = read_numbers(&[0; REGISTERS], &mut [0; 59]).unwrap_err();
/// assert_eq!((refusal.reason, refusal.field), (Reason::OutOfRange, 0));
/// ```
pub fn read_numbers(image: &[u8], settings: &mut [i32]) -> Result<(), Refusal> {
    let answer = ffi::read(image, settings);
    refusal::check(answer.refusal, answer.field)
}
