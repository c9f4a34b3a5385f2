//! The texts that the house setting's plan over an image is shown by.

use crate::board::ALL_KNOWN;
use crate::house::house;
use crate::listing::{listing, ADDRESS};
use crate::plan::plan;
use crate::refusal::NO_LIMIT;
use crate::registers::REGISTERS;
use crate::side_by_side::name;
use crate::why::{reason, Reason};

/// The plan, a line for each transaction.
pub fn house_plan(image: &[u8]) -> String {
    planned(image, |_| String::new())
}

/// The same, and under each transaction why each of its registers is sent.
pub fn house_why(image: &[u8]) -> String {
    planned(image, |register| {
        let reason = reason(image, ALL_KNOWN, &house(), NO_LIMIT, register);
        let words = words(reason.expect("a plan that isn't refused"));
        format!("{register:02X} {words}\n")
    })
}

/// The house setting planned, and what is said of each register that is sent.
fn planned(image: &[u8], said: impl Fn(u32) -> String) -> String {
    let mut bytes = [0; REGISTERS];
    let answer = plan(image, ALL_KNOWN, &house(), ADDRESS, NO_LIMIT, &mut bytes);
    listing(answer, &bytes, said)
}

/// A reason in words.
fn words(reason: Reason) -> String {
    match reason {
        Reason::NotSent => "not sent".to_string(),
        Reason::Unknown => "not known".to_string(),
        Reason::Field(field) => format!("{} changed", name(field)),
        Reason::MustBeZero => "must be zero".to_string(),
        Reason::Companion => "sent with the subcarrier word".to_string(),
        Reason::Bridge(below, above) => format!("between {below:02X} and {above:02X}"),
    }
}
