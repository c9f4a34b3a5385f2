//! The image that checked settings ask for, over the image they start from.

use super::fields::{Kind, SETTINGS, TABLE};
use super::Image;

/// The wanted image: each field its setting, must-be-zero bits zero, every other
/// bit as found.
pub(super) fn wanted(found: &Image, settings: &[i32; SETTINGS]) -> Image {
    let mut image = *found;
    let mut left = settings.iter();
    for field in &TABLE {
        for place in field.places() {
            let code = match field.kind {
                Kind::MustBeZero => 0,
                _ => *left.next().expect("a setting for each place"),
            };
            place.put(&mut image, code);
        }
    }
    image
}
