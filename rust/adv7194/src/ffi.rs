//! The archive's functions, and safe ones with the same numbers around them.
//!
//! All `unsafe` of this crate is here. Each call lends slices for its own
//! time only: shared ones are read, mutable ones overlap nothing else.
#![allow(unsafe_code)]

/// What planning answers. After a refusal all but the first two are 0.
#[repr(C)]
#[derive(Clone, Copy, Debug, PartialEq, Eq)]
pub struct PlanAnswer {
    /// The refusal, or 0.
    pub refusal: u32,
    /// The field at fault, or 0.
    pub field: u32,
    /// Bytes of the packed plan.
    pub length: u32,
    /// Transactions.
    pub transactions: u32,
    /// Bus bytes.
    pub bus_bytes: u32,
}

/// What playing answers. After a refusal `acknowledged` is 0, and `known` as
/// handed in.
#[repr(C)]
#[derive(Clone, Copy, Debug, PartialEq, Eq)]
pub struct PlayAnswer {
    /// The refusal, or 0.
    pub refusal: u32,
    /// The field at fault, or 0.
    pub field: u32,
    /// 1 if every byte was acknowledged, else 0.
    pub acknowledged: u32,
    /// Bit r is set where register r is then known.
    pub known: u64,
}

/// What reading answers, and asking for the house setting.
#[repr(C)]
#[derive(Clone, Copy, Debug, PartialEq, Eq)]
pub struct ReadAnswer {
    /// The refusal, or 0.
    pub refusal: u32,
    /// The field at fault, or 0.
    pub field: u32,
}

/// What asking for a transaction answers. After a refusal all but the first
/// two are 0.
#[repr(C)]
#[derive(Clone, Copy, Debug, PartialEq, Eq)]
pub struct TransactionAnswer {
    /// The refusal, or 0.
    pub refusal: u32,
    /// The field at fault, or 0.
    pub field: u32,
    /// The register of the first data byte.
    pub subaddress: u32,
    /// Data bytes.
    pub count: u32,
}

/// What comparing two images answers. After a refusal all but the first is 0.
#[repr(C)]
#[derive(Clone, Copy, Debug, PartialEq, Eq)]
pub struct CompareAnswer {
    /// The refusal, or 0.
    pub refusal: u32,
    /// The field at fault, or 0.
    pub field: u32,
    /// 1 if reading accepts both images, else 0.
    pub readable: u32,
    /// Bit f is set where field f differs.
    pub fields: u32,
    /// Bit r is set where register r differs outside all fields.
    pub registers: u64,
}

/// What asking why a register is sent answers. After a refusal the last three are 0.
#[repr(C)]
#[derive(Clone, Copy, Debug, PartialEq, Eq)]
pub struct WhyAnswer {
    /// The refusal, or 0.
    pub refusal: u32,
    /// The field at fault, or 0.
    pub field: u32,
    /// The reason, 1 to 5, or 0 where the register isn't sent.
    pub reason: u32,
    /// The field that changes, or the needed register below a bridge; else 0.
    pub first: u32,
    /// The needed register above a bridge; else 0.
    pub second: u32,
}

/// What reading a pair of captions answers. After a refusal the last two are 0.
#[repr(C)]
#[derive(Clone, Copy, Debug, PartialEq, Eq)]
pub struct CaptionsAnswer {
    /// The refusal, or 0.
    pub refusal: u32,
    /// The field at fault, or 0.
    pub field: u32,
    /// The first character.
    pub first: u32,
    /// The second one.
    pub second: u32,
}

extern "C" {
    fn adv7194_plan(
        image: *const u8,
        image_len: usize,
        known: u64,
        settings: *const i32,
        settings_len: usize,
        address: u32,
        limit: u32,
        plan: *mut u8,
        plan_len: usize,
    ) -> PlanAnswer;

    fn adv7194_why(
        image: *const u8,
        image_len: usize,
        known: u64,
        settings: *const i32,
        settings_len: usize,
        limit: u32,
        subaddress: u32,
    ) -> WhyAnswer;

    fn adv7194_play(
        image: *mut u8,
        image_len: usize,
        known: u64,
        used: u32,
        own: u32,
        plan: *const u8,
        plan_len: usize,
    ) -> PlayAnswer;

    fn adv7194_transaction(
        plan: *const u8,
        plan_len: usize,
        index: u32,
        data: *mut u8,
        data_len: usize,
    ) -> TransactionAnswer;

    fn adv7194_read(
        image: *const u8,
        image_len: usize,
        known: u64,
        settings: *mut i32,
        settings_len: usize,
    ) -> ReadAnswer;

    fn adv7194_house(settings: *mut i32, settings_len: usize) -> ReadAnswer;

    fn adv7194_compare(a: *const u8, a_len: usize, b: *const u8, b_len: usize) -> CompareAnswer;

    fn adv7194_plan_captions(
        extended: *const i32,
        extended_len: usize,
        ordinary: *const i32,
        ordinary_len: usize,
        address: u32,
        plan: *mut u8,
        plan_len: usize,
    ) -> PlanAnswer;

    fn adv7194_play_captions(
        image: *mut u8,
        image_len: usize,
        known: u64,
        used: u32,
        own: u32,
        plan: *const u8,
        plan_len: usize,
    ) -> PlayAnswer;

    fn adv7194_read_captions(
        image: *const u8,
        image_len: usize,
        known: u64,
        pair: u32,
    ) -> CaptionsAnswer;
}

/// Plans, with the archive's own numbers.
#[inline]
pub fn plan(
    image: &[u8],
    known: u64,
    settings: &[i32],
    address: u32,
    limit: u32,
    plan: &mut [u8],
) -> PlanAnswer {
    // Sound: each pointer comes with the length of its own slice, and the
    // archive touches nothing outside them.
    unsafe {
        adv7194_plan(
            image.as_ptr(),
            image.len(),
            known,
            settings.as_ptr(),
            settings.len(),
            address,
            limit,
            plan.as_mut_ptr(),
            plan.len(),
        )
    }
}

/// Asks why a register is sent, with the archive's own numbers.
#[inline]
pub fn why(image: &[u8], known: u64, settings: &[i32], limit: u32, subaddress: u32) -> WhyAnswer {
    // Sound: as in `plan`.
    unsafe {
        adv7194_why(
            image.as_ptr(),
            image.len(),
            known,
            settings.as_ptr(),
            settings.len(),
            limit,
            subaddress,
        )
    }
}

/// Plays, with the archive's own numbers.
#[inline]
pub fn play(image: &mut [u8], known: u64, used: u32, own: u32, plan: &[u8]) -> PlayAnswer {
    // Sound: as in `plan`.
    unsafe {
        adv7194_play(
            image.as_mut_ptr(),
            image.len(),
            known,
            used,
            own,
            plan.as_ptr(),
            plan.len(),
        )
    }
}

/// Asks for a transaction, with the archive's own numbers.
#[inline]
pub fn transaction(plan: &[u8], index: u32, data: &mut [u8]) -> TransactionAnswer {
    // Sound: as in `plan`.
    unsafe {
        adv7194_transaction(
            plan.as_ptr(),
            plan.len(),
            index,
            data.as_mut_ptr(),
            data.len(),
        )
    }
}

/// Reads, with the archive's own numbers.
#[inline]
pub fn read(image: &[u8], known: u64, settings: &mut [i32]) -> ReadAnswer {
    // Sound: as in `plan`.
    unsafe {
        adv7194_read(
            image.as_ptr(),
            image.len(),
            known,
            settings.as_mut_ptr(),
            settings.len(),
        )
    }
}

/// Writes the house setting, with the archive's own numbers.
#[inline]
pub fn house(settings: &mut [i32]) -> ReadAnswer {
    // Sound: as in `plan`.
    unsafe { adv7194_house(settings.as_mut_ptr(), settings.len()) }
}

/// Compares, with the archive's own numbers.
#[inline]
pub fn compare(a: &[u8], b: &[u8]) -> CompareAnswer {
    // Sound: as in `plan`; both are only read, so they may be the same.
    unsafe { adv7194_compare(a.as_ptr(), a.len(), b.as_ptr(), b.len()) }
}

/// Plans captions, with the archive's own numbers.
#[inline]
pub fn plan_captions(
    extended: &[i32],
    ordinary: &[i32],
    address: u32,
    plan: &mut [u8],
) -> PlanAnswer {
    // Sound: as in `plan`; both pairs are only read, so they may be the same.
    unsafe {
        adv7194_plan_captions(
            extended.as_ptr(),
            extended.len(),
            ordinary.as_ptr(),
            ordinary.len(),
            address,
            plan.as_mut_ptr(),
            plan.len(),
        )
    }
}

/// Plays captions, with the archive's own numbers.
#[inline]
pub fn play_captions(image: &mut [u8], known: u64, used: u32, own: u32, plan: &[u8]) -> PlayAnswer {
    // Sound: as in `plan`.
    unsafe {
        adv7194_play_captions(
            image.as_mut_ptr(),
            image.len(),
            known,
            used,
            own,
            plan.as_ptr(),
            plan.len(),
        )
    }
}

/// Reads a pair of captions, with the archive's own numbers.
#[inline]
pub fn read_captions(image: &[u8], known: u64, pair: u32) -> CaptionsAnswer {
    // Sound: as in `plan`.
    unsafe { adv7194_read_captions(image.as_ptr(), image.len(), known, pair) }
}
