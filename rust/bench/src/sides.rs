//! Both sides' entry points, each behind a function that isn't inlined.
//! Each gives a sum of its answer, so that the sides can be held equal.

use adv7194::ffi;

/// Planning by the archive.
#[inline(never)]
pub fn proved_plan(
    image: &[u8],
    known: u64,
    settings: &[i32],
    address: u32,
    limit: u32,
    plan: &mut [u8],
) -> u64 {
    let answer = ffi::plan(image, known, settings, address, limit, plan);
    let counts = answer.length + answer.transactions + answer.bus_bytes;
    (answer.refusal + answer.field + counts).into()
}

/// Planning in plain Rust.
#[inline(never)]
pub fn plain_plan(
    image: &[u8],
    known: u64,
    settings: &[i32],
    address: u32,
    limit: u32,
    plan: &mut [u8],
) -> u64 {
    let answer = plain::plan(image, known, settings, address, limit, plan);
    let counts = answer.length + answer.transactions + answer.bus_bytes;
    (answer.refusal + answer.field + counts).into()
}

/// Playing by the archive.
#[inline(never)]
pub fn proved_play(image: &mut [u8], known: u64, used: u32, own: u32, plan: &[u8]) -> u64 {
    let answer = ffi::play(image, known, used, own, plan);
    let numbers = answer.refusal + answer.field + answer.acknowledged;
    answer.known.wrapping_add(numbers.into())
}

/// Playing in plain Rust.
#[inline(never)]
pub fn plain_play(image: &mut [u8], known: u64, used: u32, own: u32, plan: &[u8]) -> u64 {
    let answer = plain::play(image, known, used, own, plan);
    let numbers = answer.refusal + answer.field + answer.acknowledged;
    answer.known.wrapping_add(numbers.into())
}

/// Reading by the archive.
#[inline(never)]
pub fn proved_read(image: &[u8], known: u64, settings: &mut [i32]) -> u64 {
    let answer = ffi::read(image, known, settings);
    (answer.refusal + answer.field).into()
}

/// Reading in plain Rust.
#[inline(never)]
pub fn plain_read(image: &[u8], known: u64, settings: &mut [i32]) -> u64 {
    let answer = plain::read(image, known, settings);
    (answer.refusal + answer.field).into()
}
