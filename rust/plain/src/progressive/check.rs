//! Checking the settings' fields, in their order.

use super::fields::{SETTINGS, TABLE};
use crate::refusal::{self, Refusal};

/// The 58 numbers, or the refusal of another count.
pub(super) fn numbers_of(settings: &[i32]) -> Result<&[i32; SETTINGS], Refusal> {
    settings
        .try_into()
        .map_err(|_| Refusal::bare(refusal::RANGE))
}

/// Checks all fields.
pub(super) fn check_fields(settings: &[i32; SETTINGS]) -> Result<(), Refusal> {
    let mut left = settings.iter();
    for (number, field) in (1..).zip(&TABLE) {
        for &setting in left.by_ref().take(field.settings()) {
            field.demand(setting, number)?;
        }
    }
    Ok(())
}
