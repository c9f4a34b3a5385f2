//! Records with two faults at once.

use crate::plans::{house, pal, plan, wanted, with, ADDRESS};
use plain::fields::{self as at, SETTINGS};

/// A number outside every range.
const FAR: i32 = 99_999;

/// Two numbers of the settings far outside: each with the next, and with the last; then two rows that hold
/// at once, of different fields and of one.
pub fn refused_together() -> Vec<String> {
    let house = house();
    let mut both = Vec::new();
    for place in 0..SETTINGS - 1 {
        let others = [place + 1, SETTINGS - 1];
        both.extend(others.map(|other| with(house, &[(place, FAR), (other, FAR)])));
    }
    let of_house = [
        [(at::HUE, -226), (at::DNR_INPUT, 5)],
        [(at::STANDARD, 2), (at::SQUARE, 1)],
        [(at::STANDARD, 4), (at::SQUARE, 1)],
        [(at::SQUARE, 1), (at::FOUR_TIMES, 2)],
    ];
    both.extend(of_house.map(|numbers| with(house, &numbers)));
    let pedestal = with(house, &[(at::PEDESTAL, 1)]);
    both.push(with(pedestal, &[(at::STANDARD, 1), (at::SQUARE, 1)]));
    let cgms = with(
        house,
        &[
            (at::SIGNALLING, at::CGMS),
            (at::PAYLOAD, 4660),
            (at::ODD, 1),
        ],
    );
    let of_cgms = [
        [(at::PAYLOAD, 16384), (at::ODD, 0)],
        [(at::STANDARD, 1), (at::PEDESTAL, 0)],
    ];
    both.extend(of_cgms.map(|numbers| with(cgms, &numbers)));
    let wss = with(pal(), &[(at::SIGNALLING, at::WSS), (at::PAYLOAD, 4657)]);
    let of_wss = [
        [(at::STANDARD, 0), (at::PAYLOAD, 3)],
        [(at::ODD, 7), (at::EVEN, 7)],
    ];
    both.extend(of_wss.map(|numbers| with(wss, &numbers)));
    let image = wanted(&house, 0x00);
    let records = both
        .iter()
        .map(|settings| plan(&image, settings, ADDRESS, 1));
    records.collect()
}
