//! Reading: from an image back to settings, or the first number at fault.

use super::check::numbers_of;
use super::fields::{Kind, SETTINGS, TABLE};
use super::{image_of, Image};
use crate::refusal::Refusal;
use crate::ReadAnswer;

/// Writes into `settings` what a chip holding `image` is set to. Checks 1, the
/// count lent, then fields and must-be-zero bits in order.
pub fn read(image: &[u8], settings: &mut [i32]) -> ReadAnswer {
    match settings_of(image, settings) {
        Ok(numbers) => {
            settings.copy_from_slice(&numbers);
            ReadAnswer::default()
        }
        Err(refused) => ReadAnswer {
            refusal: refused.refusal,
            field: refused.field,
        },
    }
}

/// Reading, with its refusal as an error.
fn settings_of(image: &[u8], settings: &[i32]) -> Result<[i32; SETTINGS], Refusal> {
    let image = image_of(image)?;
    numbers_of(settings)?;
    fields_of(image)
}

/// The settings of an image, number by number.
pub(super) fn fields_of(image: &Image) -> Result<[i32; SETTINGS], Refusal> {
    let mut settings = [0; SETTINGS];
    let mut left = settings.iter_mut();
    for (number, field) in (1..).zip(&TABLE) {
        for place in field.places() {
            let code = place.get(image);
            field.demand(code, number)?;
            if field.kind != Kind::MustBeZero {
                *left.next().expect("room for each setting") = code;
            }
        }
    }
    Ok(settings)
}
