//! Taking the time: block after block, the sides in turn.

use crate::blocks::{Block, Case, CASES};
use crate::sides;
use compare::cases::{ADDRESS, ROOM};
use plain::fields::SETTINGS;
use plain::registers::REGISTERS;
use std::hint::black_box;
use std::time::Instant;

/// Times one entry over blocks and rounds: nanoseconds a case, proved and plain.
pub type Timer = fn(&[Block], u64) -> (f64, f64);

/// A planner: an image, its flags, settings, an address, a limit and the lent plan.
type Planner = fn(&[u8], u64, &[i32], u32, u32, &mut [u8]) -> u64;

/// Planning.
pub fn plan(blocks: &[Block], rounds: u64) -> (f64, f64) {
    let run = |block: &Block, entry: Planner| {
        let mut plan = [0; ROOM];
        sum(block, |case| {
            let lent = black_box(&mut plan);
            let (known, limit) = (case.known, case.limit);
            entry(&case.start, known, &case.settings, ADDRESS, limit, lent)
        })
    };
    medians(
        blocks,
        rounds,
        |block| run(block, sides::proved_plan),
        |block| run(block, sides::plain_plan),
    )
}

/// Playing. The image goes on from case to case.
pub fn play(blocks: &[Block], rounds: u64) -> (f64, f64) {
    let run = |block: &Block, entry: fn(&mut [u8], u64, u32, u32, &[u8]) -> u64| {
        let mut image = [0; REGISTERS];
        sum(block, |case| {
            let lent = black_box(&mut image);
            entry(lent, case.known, ADDRESS, ADDRESS, &case.plan)
        })
    };
    medians(
        blocks,
        rounds,
        |block| run(block, sides::proved_play),
        |block| run(block, sides::plain_play),
    )
}

/// Reading.
pub fn read(blocks: &[Block], rounds: u64) -> (f64, f64) {
    let run = |block: &Block, entry: fn(&[u8], u64, &mut [i32]) -> u64| {
        let mut settings = [0; SETTINGS];
        sum(block, |case| {
            entry(&case.image, case.image_known, black_box(&mut settings))
        })
    };
    medians(
        blocks,
        rounds,
        |block| run(block, sides::proved_read),
        |block| run(block, sides::plain_read),
    )
}

/// The sum of a block's answers.
#[inline(always)]
fn sum(block: &Block, entry: impl FnMut(&Case) -> u64) -> u64 {
    block.0.iter().map(entry).fold(0, u64::wrapping_add)
}

/// Runs both sides in turn, each first every other round, and gives the medians.
fn medians(
    blocks: &[Block],
    rounds: u64,
    proved: impl Fn(&Block) -> u64,
    plain: impl Fn(&Block) -> u64,
) -> (f64, f64) {
    let (mut ours, mut theirs) = (Vec::new(), Vec::new());
    for round in 0..rounds {
        let block = &blocks[round as usize % blocks.len()];
        let (one, other);
        if (round / blocks.len() as u64) & 1 == 0 {
            one = timed(&proved, block, &mut ours);
            other = timed(&plain, block, &mut theirs);
        } else {
            other = timed(&plain, block, &mut theirs);
            one = timed(&proved, block, &mut ours);
        }
        assert_eq!(one, other, "the sides' answers differ");
    }
    (median(ours), median(theirs))
}

/// Runs one block, and notes the nanoseconds a case.
fn timed(run: impl Fn(&Block) -> u64, block: &Block, times: &mut Vec<f64>) -> u64 {
    let start = Instant::now();
    let sum = black_box(run(black_box(block)));
    times.push(start.elapsed().as_nanos() as f64 / CASES as f64);
    sum
}

/// The middle one.
fn median(mut times: Vec<f64>) -> f64 {
    times.sort_by(f64::total_cmp);
    times[times.len() / 2]
}
