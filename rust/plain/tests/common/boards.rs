//! Boards planned: settings with each kind of signalling, and what they make.

use plain::fields::{self as at, SETTINGS};
use plain::registers::REGISTERS;
use plain::{play, PlanAnswer, ALL_KNOWN, NO_LIMIT};

/// The board's address.
pub const OWN: u32 = 0x54;
/// Flags past the last register.
pub const PAST: u64 = !ALL_KNOWN;
/// Room for any packed plan.
pub const ROOM: usize = 64;

/// Planning at the board's address, with no limit.
pub fn plan(image: &[u8], known: u64, s: &[i32], bytes: &mut [u8]) -> PlanAnswer {
    plain::plan(image, known, s, OWN, NO_LIMIT, bytes)
}

/// Settings with some numbers changed.
pub fn with(mut s: [i32; SETTINGS], changed: &[(usize, i32)]) -> [i32; SETTINGS] {
    changed
        .iter()
        .for_each(|&(place, number)| s[place] = number);
    s
}

/// These settings, which have signalling off, then with CGMS, then as PAL with WSS.
pub fn three(house: [i32; SETTINGS]) -> [[i32; SETTINGS]; 3] {
    let cgms = [
        (at::SIGNALLING, at::CGMS),
        (at::PAYLOAD, 4660),
        (at::ODD, 1),
    ];
    let pal = [(at::STANDARD, at::PAL), (at::PEDESTAL, 0)];
    let wss = [(at::SIGNALLING, at::WSS), (at::PAYLOAD, 4657)];
    [house, with(house, &cgms), with(with(house, &pal), &wss)]
}

/// The image that settings make of one that holds the same byte everywhere.
pub fn settled(s: &[i32; SETTINGS], ground: u8) -> [u8; REGISTERS] {
    let mut image = [ground; REGISTERS];
    let mut bytes = [0; ROOM];
    let planned = plan(&image, ALL_KNOWN, s, &mut bytes);
    assert_eq!(planned.refusal, 0);
    play(
        &mut image,
        ALL_KNOWN,
        OWN,
        OWN,
        &bytes[..planned.length as usize],
    );
    image
}
