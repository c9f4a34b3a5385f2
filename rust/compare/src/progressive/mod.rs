//! The ADV7195 on both sides: seeded cases, systematic ones, and with the exact search.

pub mod calls;
pub mod cases;
pub mod lists;
pub mod round;
pub mod seeded;
pub mod systematic;
pub mod windows;
