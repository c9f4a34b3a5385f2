//! Compares the proved archives with the plain implementation.
//!
//! `compare --cases N --seed S`. The last line is `N cases, 0 differences`; the
//! status is 1 where there is a difference.
#![forbid(unsafe_code)]

use compare::comparer::Comparer;
use compare::progressive;
use compare::seeded::Seeded;
use compare::{systematic, windows};
use std::process::ExitCode;

/// Cases without `--cases`.
const CASES: u64 = 1_000_000;
/// The seed without `--seed`.
const SEED: u64 = 1;

/// The number after `name`, or another.
fn option(name: &str, otherwise: u64) -> Result<u64, String> {
    let mut words = std::env::args().skip_while(|word| word != name);
    match (words.next(), words.next()) {
        (None, _) => Ok(otherwise),
        (_, Some(word)) => word
            .parse()
            .map_err(|_| format!("{name} {word}: no number")),
        (_, None) => Err(format!("{name}: a number is missing")),
    }
}

/// Compares everything, and gives the differences.
fn compare(cases: u64, seed: u64) -> u64 {
    let mut comparer = Comparer::default();
    systematic::all(&mut comparer, seed);
    println!("systematic: {} calls", comparer.calls);
    let sets = windows::all(&mut comparer, seed);
    println!("exhaustive search: {sets} sets of registers");
    let mut seeded = Seeded::new(seed);
    for _ in 0..cases {
        seeded.case(&mut comparer);
    }
    let accepted = seeded.accepted;
    println!(
        "seeded: {cases} cases, {accepted} accepted; {} calls in all",
        comparer.calls
    );
    let mut captions = Seeded::new(seed);
    for _ in 0..cases {
        captions.captions(&mut comparer);
    }
    println!(
        "captions: {cases} cases, {} accepted; {} calls in all",
        captions.accepted, comparer.calls
    );
    let half = progressive(&mut comparer, cases, seed);
    comparer.expect(half, || "less than half accepted or flipping".to_string());
    let missing = comparer.tally.print();
    comparer.expect(missing == 0, || format!("{missing} refusals never came"));
    let missing = comparer.reasons.print();
    comparer.expect(missing == 0, || format!("{missing} reasons never came"));
    let half = 2 * accepted >= cases;
    comparer.expect(half, || "less than half accepted".to_string());
    comparer.differences
}

/// Compares the ADV7195. Whether at least half of the seeded cases are accepted, and an eighth of them are plans that
/// change interpolation.
fn progressive(comparer: &mut Comparer, cases: u64, seed: u64) -> bool {
    progressive::systematic::all(comparer, seed);
    let searched = progressive::windows::all(comparer);
    let mut seeded = Seeded::new(seed);
    for _ in 0..cases {
        seeded.progressive(comparer);
    }
    let (accepted, flips) = (seeded.accepted, seeded.flips);
    println!("ADV7195: exact search: {searched} cases");
    println!(
        "ADV7195: {cases} cases, {accepted} accepted, {flips} of them plans that change interpolation; {} calls in all",
        comparer.calls
    );
    2 * accepted >= cases && 8 * flips >= cases
}

fn main() -> ExitCode {
    let (cases, seed) = match (option("--cases", CASES), option("--seed", SEED)) {
        (Ok(cases), Ok(seed)) => (cases, seed),
        (Err(fault), _) | (_, Err(fault)) => {
            eprintln!("{fault}\ncompare --cases N --seed S");
            return ExitCode::FAILURE;
        }
    };
    let differences = compare(cases, seed);
    println!("{cases} cases, {differences} differences");
    if differences == 0 {
        ExitCode::SUCCESS
    } else {
        ExitCode::FAILURE
    }
}
