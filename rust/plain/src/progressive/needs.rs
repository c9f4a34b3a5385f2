//! What can be needed of the low block and of some registers above it: every case
//! that the exact search is compared over.

use super::published::power_up;
use super::registers::{FILTER_GAIN, INTERPOLATION_BIT, MODE_3, MODE_6, PREPARING};
use super::search::{Lists, Search};
use super::Image;

/// Bytes that 09 holds and is to hold.
const NINES: [(u8, u8); 5] = [
    (PREPARING, PREPARING),
    (0x00, PREPARING),
    (0xA5, 0xA5),
    (PREPARING, 0x00),
    (0x00, 0xA5),
];
/// A bit of each register that a field or a must-be-zero bit has, and of 03.
const BIT: u8 = 0x01;
const DAC_BIT: u8 = 0x08;

/// Registers that may be needed: 00 to 08, and so many from 10 on.
fn registers(high: usize) -> impl Iterator<Item = usize> {
    (0..MODE_6).chain(FILTER_GAIN..FILTER_GAIN + high)
}

/// The wanted image with these registers wrong, counted as above, and interpolation
/// too where it `flips`.
fn wrong(wanted: &Image, high: usize, needed: usize, flips: bool) -> Image {
    let mut image = *wanted;
    for (place, register) in registers(high).enumerate() {
        if needed >> place & 1 == 1 {
            image[register] ^= if register == MODE_3 { DAC_BIT } else { BIT };
        }
    }
    if flips {
        image[MODE_3] ^= INTERPOLATION_BIT;
    }
    image
}

/// Every set of needed registers, with interpolation changed or not and each kind of
/// byte found and wanted in 09: the image found, and the one wanted.
pub fn every(high: usize) -> impl Iterator<Item = (Image, Image)> {
    let sets = 0..1 << registers(high).count();
    let kinds = NINES
        .into_iter()
        .flat_map(|nines| [(nines, false), (nines, true)]);
    kinds.flat_map(move |((held, nine), flips)| {
        let mut wanted = power_up();
        wanted[MODE_6] = nine;
        sets.clone().map(move |needed| {
            let mut found = wrong(&wanted, high, needed, flips);
            found[MODE_6] = held;
            (found, wanted)
        })
    })
}

/// The searches for another byte wanted in 09 than 3E, and for 3E.
pub struct Searches([Search; 2]);

impl Searches {
    /// Searches all lists over 00 to 09 and so many registers from 10 on.
    pub fn new(high: usize, any_data: bool) -> Searches {
        Searches([false, true].map(|stays| {
            Search::new(Lists {
                stays,
                high: high as u32,
                any_data,
            })
        }))
    }

    /// The one for a wanted image.
    pub fn of(&self, wanted: &Image) -> &Search {
        &self.0[usize::from(wanted[MODE_6] == PREPARING)]
    }
}
