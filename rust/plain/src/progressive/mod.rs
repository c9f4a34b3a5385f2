//! The ADV7195 in progressive-scan mode: planning, playing and reading back its
//! settings, and its packed plans taken apart. All its registers are known, and a
//! transaction's data have no limit.

pub mod fields;
pub mod least;
pub mod needs;
pub mod published;
pub mod registers;
pub mod search;

mod check;
mod listing;
mod plan;
mod play;
mod read;
mod wanted;

pub use listing::progressive_settings;
pub use plan::plan;
pub use play::{play, PlayAnswer};
pub use read::read;

use crate::chip::Chip;
use crate::refusal::{self, Refusal};
use crate::transaction::{transaction_in, Order, TransactionAnswer};
use registers::{REGISTERS, RESERVED_MAP};

/// An image.
pub type Image = [u8; REGISTERS];

/// The registers of an image, or the refusal of one that isn't 40 bytes.
fn image_of(image: &[u8]) -> Result<&Image, Refusal> {
    image
        .try_into()
        .map_err(|_| Refusal::bare(refusal::IMAGE_LENGTH))
}

/// A fresh chip: idle, pointer 00, every register known. Data for a reserved
/// register are acknowledged and dropped.
pub fn fresh(own: u8, image: Image) -> Chip<REGISTERS> {
    Chip::dropping(RESERVED_MAP, own, image, u64::MAX)
}

/// Writes the data of transaction `index` to the front of `data`, in a plan whose
/// transactions may stand in any order and overlap. Checks 9 (the packing alone), 3
/// for an index past the last transaction, then 10.
pub fn transaction(plan: &[u8], index: u32, data: &mut [u8]) -> TransactionAnswer {
    transaction_in(Order::Any, plan, index, data)
}
