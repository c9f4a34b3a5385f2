//! Settings and plans of the ADV7195. No test uses all of it.
#![allow(dead_code)]

use plain::progressive::fields::{first_setting, SETTINGS};
use plain::progressive::{self, Image};

/// Settings.
pub type Numbers = [i32; SETTINGS];

/// The boards' address.
pub const OWN: u32 = 0x54;
/// Room for any packed plan.
pub const ROOM: usize = 64;

/// Numbers of fields.
pub const OUTPUT_STANDARD: usize = 1;
pub const Y_DELAY: usize = 14;
pub const COLOUR_DELAY: usize = 15;
pub const DAC_C: usize = 23;
pub const INTERPOLATION: usize = 24;
pub const COLOUR_Y: usize = 35;
pub const COLOUR_CR: usize = 36;
pub const COLOUR_CB: usize = 37;
pub const MODE_REGISTER_6: usize = 38;

/// The settings of an image that reading accepts.
pub fn settings_of(image: &Image) -> Numbers {
    let mut settings = [0; SETTINGS];
    let answer = progressive::read(image, &mut settings);
    assert_eq!((answer.refusal, answer.field), (0, 0));
    settings
}

/// Settings with those of some fields changed.
pub fn with(mut settings: Numbers, changed: &[(usize, i32)]) -> Numbers {
    for &(number, setting) in changed {
        settings[first_setting(number)] = setting;
    }
    settings
}

/// The packed plan, which must be accepted.
pub fn packed(image: &Image, settings: &Numbers) -> Vec<u8> {
    let mut bytes = [0; ROOM];
    let answer = progressive::plan(image, settings, OWN, &mut bytes);
    assert_eq!((answer.refusal, answer.field), (0, 0));
    bytes[..answer.length as usize].to_vec()
}

/// A packed plan's transactions.
pub fn sent(plan: &[u8]) -> Vec<(u32, Vec<u8>)> {
    let mut list = Vec::new();
    loop {
        let mut data = [0; ROOM];
        let answer = progressive::transaction(plan, list.len() as u32, &mut data);
        if answer.refusal != 0 {
            return list;
        }
        list.push((answer.subaddress, data[..answer.count as usize].to_vec()));
    }
}

/// The image after a packed plan, which must be played and acknowledged.
pub fn played(mut image: Image, plan: &[u8]) -> Image {
    let answer = progressive::play(&mut image, OWN, OWN, plan);
    assert_eq!(
        (answer.refusal, answer.field, answer.acknowledged),
        (0, 0, 1)
    );
    image
}
