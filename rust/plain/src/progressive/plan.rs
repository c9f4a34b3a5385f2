//! Planning: from an image and settings to the packed least plan.

use super::check::{check_fields, numbers_of};
use super::registers::{INTERPOLATION_BIT, MODE_3, MODE_6, PREPARING, REGISTERS};
use super::wanted::wanted;
use super::{image_of, least, Image};
use crate::least::bus_bytes;
use crate::pack;
use crate::refusal::{self, check_address, Refusal};
use crate::registers::span;
use crate::PlanAnswer;

/// Packs into `plan` the least list of transactions that brings a chip holding
/// `image` to the settings and writes 3E to 09 before it turns interpolation on or
/// off. Checks 1, 2, the settings' count, their fields in order, then 10.
pub fn plan(image: &[u8], settings: &[i32], address: u32, plan: &mut [u8]) -> PlanAnswer {
    planned(image, settings, address, plan).unwrap_or_else(PlanAnswer::refused)
}

/// Planning, with its refusal as an error.
fn planned(
    image: &[u8],
    settings: &[i32],
    address: u32,
    plan: &mut [u8],
) -> Result<PlanAnswer, Refusal> {
    let found = image_of(image)?;
    check_address(address)?;
    let numbers = numbers_of(settings)?;
    check_fields(numbers)?;
    let wanted = wanted(found, numbers);
    let flips = (found[MODE_3] ^ wanted[MODE_3]) & INTERPOLATION_BIT != 0;
    let stays = wanted[MODE_6] == PREPARING;
    let list = least::list(differing(found, &wanted), flips, stays);
    let mut preparing = wanted;
    preparing[MODE_6] = PREPARING;
    let transactions = list.len() as u32;
    let bytes = list.iter().map(|(_, count)| count).sum();
    let length = pack::length(transactions, bytes);
    let room = plan
        .get_mut(..length)
        .ok_or(Refusal::bare(refusal::PLAN_ROOM))?;
    let sent = list.iter().enumerate().map(|(place, &(start, count))| {
        let image = if flips && place == 0 {
            &preparing
        } else {
            &wanted
        };
        (start, &image[start as usize..][..count as usize])
    });
    pack::pack(room, transactions, sent);
    Ok(PlanAnswer {
        refusal: 0,
        field: 0,
        length: length as u32,
        transactions,
        bus_bytes: bus_bytes(transactions, bytes),
    })
}

/// A map of the registers where two images differ.
fn differing(one: &Image, other: &Image) -> u64 {
    let registers = (0..REGISTERS).filter(|&register| one[register] != other[register]);
    registers.fold(0, |map, register| map | span(register, 1))
}
