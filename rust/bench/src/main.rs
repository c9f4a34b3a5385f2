//! Times the proved archive against the plain implementation, and counts bus
//! bytes: `bench --rounds N --seed S`. The ratio, proved over plain, is last on
//! each line.
#![forbid(unsafe_code)]

mod blocks;
mod bytes;
mod sides;
mod timing;

use blocks::{Block, Mixture};
use compare::random::Random;
use std::process::ExitCode;

/// Rounds without `--rounds`.
const ROUNDS: u64 = 101;
/// The seed without `--seed`.
const SEED: u64 = 1;
/// Different blocks, taken in turn.
const BLOCKS: usize = 4;
/// One case in so many is drawn to be refused, where some are.
const SPOILT: u64 = 4;

/// The number after `name`, or another.
fn option(name: &str, otherwise: u64) -> Option<u64> {
    let mut words = std::env::args().skip_while(|word| word != name);
    match (words.next(), words.next()) {
        (None, _) => Some(otherwise),
        (_, word) => word?.parse().ok(),
    }
}

/// Times one family of cases.
fn family(name: &str, blocks: &[Block], rounds: u64) {
    for (entry, time) in [
        ("planning", timing::plan as timing::Timer),
        ("playing", timing::play),
        ("reading", timing::read),
    ] {
        let (proved, plain) = time(blocks, rounds);
        let ratio = proved / plain;
        println!(
            "{entry:8} {name:16} proved {proved:7.1} ns  plain {plain:7.1} ns  ratio {ratio:.2}"
        );
    }
}

fn main() -> ExitCode {
    let (Some(rounds), Some(seed)) = (option("--rounds", ROUNDS), option("--seed", SEED)) else {
        eprintln!("bench --rounds N --seed S");
        return ExitCode::FAILURE;
    };
    let rounds = rounds.max(1);
    let mut random = Random::new(seed);
    let (size, count) = (blocks::CASES, BLOCKS);
    println!("median of {rounds} rounds over {count} blocks of {size} cases, sides in turn");
    for (name, spoilt, flags, limits) in [
        ("all accepted", None, false, false),
        ("a quarter spoilt", Some(SPOILT), false, false),
        ("known in part", None, true, false),
        ("limits 4 to 54", None, false, true),
    ] {
        let mixture = Mixture {
            spoilt,
            flags,
            limits,
        };
        let block = |_| Block::new(&mut random, mixture);
        let blocks: Vec<Block> = (0..BLOCKS).map(block).collect();
        family(name, &blocks, rounds);
    }
    bytes::print(&mut random);
    ExitCode::SUCCESS
}
