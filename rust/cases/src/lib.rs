//! Records of the program `adv7194_run`, pairs of images for `board_compare` and
//! inputs of `caption_plan`, `house_why` and `progressive_settings`, and what they
//! and the inputs of `house_plan` must give, by the plain implementation.
//!
//! A record is a line of text; crates/adv7194_run/src/main.rt says what each
//! kind asks and how it is answered. Nothing here is a program's or the library's.
#![forbid(unsafe_code)]
#![warn(missing_docs)]

pub mod answer;
pub mod house_images;
pub mod inputs;
pub mod make;
pub mod pairs;
pub mod progressive;

mod captions;
mod codings;
mod events;
mod house;
mod known;
mod known_plays;
mod known_reads;
mod limits;
mod plans;
mod plays;
mod random;
mod reason_boards;
mod reasons;
mod record;
mod signalling;
mod together;

pub use answer::answers;

/// Bytes in two hexadecimal digits each, a space between them.
pub(crate) fn hex(bytes: &[u8]) -> String {
    let digits: Vec<String> = bytes.iter().map(|byte| format!("{byte:02X}")).collect();
    digits.join(" ")
}

/// Numbers with a space between them.
pub(crate) fn decimal(numbers: &[i32]) -> String {
    let digits: Vec<String> = numbers.iter().map(i32::to_string).collect();
    digits.join(" ")
}
