//! Planning, playing, reading back and comparing settings of one ADV7194, why a
//! register is sent, and its captions, in plain Rust. All but comparing take a board of which only
//! some registers may be known. The module [`progressive`] has the ADV7195.
//!
//! Written from the papers alone. It shares no code and no table with the
//! proved library: it is what that library is compared with, and timed against.
#![forbid(unsafe_code)]
#![warn(missing_docs)]

pub mod chip;
pub mod codes;
pub mod fields;
pub mod gamma;
pub mod least;
pub mod order;
pub mod progressive;
pub mod refusal;
pub mod registers;
pub mod search;
pub mod signal;
pub mod subcarrier;

mod board;
mod caption_listing;
mod captions;
mod check;
mod compare;
mod cut;
mod fixed;
mod house;
mod house_listing;
mod listing;
mod needs;
mod pack;
mod plan;
mod play;
mod read;
mod side_by_side;
mod transaction;
mod unpack;
mod wanted;
mod why;

pub use board::ALL_KNOWN;
pub use caption_listing::caption_listing;
pub use captions::{is_odd, plan_captions, play_captions, read_captions, with_parity};
pub use captions::{CaptionsAnswer, CAPTION_ROOM, PAIR};
pub use check::check;
pub use compare::{compare, outside, raw_code, CompareAnswer, LAST_FIELD};
pub use house::{house, put_house};
pub use house_listing::{house_plan, house_why};
pub use plan::{plan, PlanAnswer};
pub use play::{play, PlayAnswer};
pub use read::{read, ReadAnswer};
pub use refusal::NO_LIMIT;
pub use side_by_side::side_by_side;
pub use transaction::{transaction, TransactionAnswer, MOST_DATA};
pub use why::{reason, why, Reason, WhyAnswer};
