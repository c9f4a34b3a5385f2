//! The house setting.

use crate::check::numbers_of;
use crate::fields::{self as at, SETTINGS};
use crate::read::ReadAnswer;

/// Contrast and scales of one, in thousandths.
const WHOLE: i32 = 1000;

/// Document 01's house setting; the pedestal is off, since document 02's P8.
pub fn house() -> [i32; SETTINGS] {
    let mut s = [0; SETTINGS];
    s[at::FOUR_TIMES] = 1;
    s[at::PEDESTAL] = 0;
    for scale in [at::CONTRAST, at::U_SCALE, at::V_SCALE] {
        s[scale] = WHOLE;
    }
    s[at::DNR_INPUT] = 1;
    for kind in [at::CURVE_A, at::CURVE_B] {
        s[kind + at::CURVE_P] = 1;
        s[kind + at::CURVE_Q] = 1;
    }
    s
}

/// Writes the house setting into `settings`. Checks the length lent.
pub fn put_house(settings: &mut [i32]) -> ReadAnswer {
    match numbers_of(settings) {
        Ok(_) => {
            settings.copy_from_slice(&house());
            ReadAnswer::default()
        }
        Err(refused) => ReadAnswer {
            refusal: refused.refusal,
            field: refused.field,
        },
    }
}
