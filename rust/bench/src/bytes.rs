//! Bus bytes of the least plan, and of three simpler ways to write.

use adv7194::Board;
use compare::cases::{self, Image, Numbers, ADDRESS, ROOM};
use compare::random::Random;
use plain::least;
use plain::registers::{BARRED_MAP, WORD_BYTES, WORD_MAP};
use plain::{ALL_KNOWN, NO_LIMIT};

/// Cases of each kind.
const CASES: u32 = 16_384;
/// The most bits that differ, in an image with a few wrong.
const FLIPPED: i32 = 6;
/// Bus bytes before the data: the address and the subaddress.
const OPENING: u32 = 2;
/// Ways to write.
const WAYS: usize = 4;

/// Prints the table of means.
pub fn print(random: &mut Random) {
    println!("mean bus bytes           least  one at a time  runs as needed  all afresh");
    row("one setting changed", || one_changed(random));
    row("up to six bits wrong", || {
        let settings = cases::accepted(random);
        (cases::near_image(random, &settings, FLIPPED), settings)
    });
    row("any image", || {
        (cases::any_image(random), cases::accepted(random))
    });
}

/// Prints the means over one kind of cases.
fn row(name: &str, mut case: impl FnMut() -> (Image, Numbers)) {
    let mut sums = [0; WAYS];
    for _ in 0..CASES {
        let (image, settings) = case();
        for (sum, bytes) in sums.iter_mut().zip(bytes(&image, &settings)) {
            *sum += bytes;
        }
    }
    let [least, single, runs, afresh] = sums.map(|sum| sum as f64 / CASES as f64);
    println!("{name:22} {least:7.2} {single:14.2} {runs:15.2} {afresh:11.2}");
}

/// An image that some settings made, and the same settings with a field of
/// others that leaves them accepted and something to do.
fn one_changed(random: &mut Random) -> (Image, Numbers) {
    loop {
        let settings = cases::accepted(random);
        let image = cases::settled(&cases::any_image(random), &settings);
        let others = cases::accepted(random);
        let mut changed = settings;
        let place = random.below(changed.len() as u64) as usize;
        changed[place] = others[place];
        let (answer, _) = cases::packed(&image, ALL_KNOWN, &changed, NO_LIMIT);
        if answer.refusal == 0 && answer.transactions > 0 {
            return (image, changed);
        }
    }
}

/// Bus bytes of each way for one case; the least plan is the archive's.
fn bytes(image: &Image, settings: &Numbers) -> [u32; WAYS] {
    let board = Board::known(*image);
    let planned = adv7194::plan_numbers(&board, settings, ADDRESS, NO_LIMIT, &mut [0; ROOM]);
    let least = planned.expect("an accepted case").bus_bytes;
    let needed = least::differing(image, &cases::settled(image, settings));
    let word = needed & WORD_MAP != 0;
    let singles = (needed & !WORD_MAP).count_ones();
    let single = (OPENING + 1) * singles + word as u32 * (OPENING + WORD_BYTES as u32);
    let whole = if word { needed | WORD_MAP } else { needed };
    let writable = ALL_KNOWN & !BARRED_MAP;
    [least, single, in_runs(whole), in_runs(writable)]
}

/// Bus bytes of a map written run by run.
fn in_runs(map: u64) -> u32 {
    OPENING * least::runs(map) + map.count_ones()
}
