//! Compares the proved archives with the plain implementation.
//!
//! Every answer and every byte of lent memory is compared, with guards around
//! it: on seeded cases, on systematic ones, and with an exhaustive search.
#![forbid(unsafe_code)]
#![warn(missing_docs)]

pub mod boards;
pub mod both;
pub mod caption_calls;
pub mod captions;
pub mod cases;
pub mod compare_calls;
pub mod comparer;
pub mod damage;
pub mod flags;
pub mod lent;
pub mod limits;
pub mod pairs;
pub mod progressive;
pub mod random;
pub mod reason_tally;
pub mod reasons;
pub mod round;
pub mod seeded;
pub mod seeded_captions;
pub mod sending;
pub mod systematic;
pub mod tally;
pub mod why_calls;
pub mod windows;
