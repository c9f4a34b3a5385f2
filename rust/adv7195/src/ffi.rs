//! The archive's functions, and safe ones with the same numbers around them.
//!
//! All `unsafe` of this crate is here. Each call lends slices for its own
//! time only: shared ones are read, mutable ones overlap nothing else.
#![allow(unsafe_code)]

/// What planning answers. After a refusal all but the first two are 0.
#[repr(C)]
#[derive(Clone, Copy, Debug, PartialEq, Eq)]
pub struct PlanAnswer {
    /// The refusal, or 0.
    pub refusal: u32,
    /// The field at fault, or 0.
    pub field: u32,
    /// Bytes of the packed plan.
    pub length: u32,
    /// Transactions.
    pub transactions: u32,
    /// Bus bytes.
    pub bus_bytes: u32,
}

/// What playing answers. After a refusal `acknowledged` is 0.
#[repr(C)]
#[derive(Clone, Copy, Debug, PartialEq, Eq)]
pub struct PlayAnswer {
    /// The refusal, or 0.
    pub refusal: u32,
    /// The field at fault, or 0.
    pub field: u32,
    /// 1 if every byte was acknowledged, else 0.
    pub acknowledged: u32,
}

/// What reading answers.
#[repr(C)]
#[derive(Clone, Copy, Debug, PartialEq, Eq)]
pub struct ReadAnswer {
    /// The refusal, or 0.
    pub refusal: u32,
    /// The field at fault, or 0.
    pub field: u32,
}

/// What asking for a transaction answers. After a refusal all but the first
/// two are 0.
#[repr(C)]
#[derive(Clone, Copy, Debug, PartialEq, Eq)]
pub struct TransactionAnswer {
    /// The refusal, or 0.
    pub refusal: u32,
    /// The field at fault, or 0.
    pub field: u32,
    /// The register of the first data byte.
    pub subaddress: u32,
    /// Data bytes.
    pub count: u32,
}

extern "C" {
    fn adv7195_plan(
        image: *const u8,
        image_len: usize,
        settings: *const i32,
        settings_len: usize,
        address: u32,
        plan: *mut u8,
        plan_len: usize,
    ) -> PlanAnswer;

    fn adv7195_play(
        image: *mut u8,
        image_len: usize,
        used: u32,
        own: u32,
        plan: *const u8,
        plan_len: usize,
    ) -> PlayAnswer;

    fn adv7195_transaction(
        plan: *const u8,
        plan_len: usize,
        index: u32,
        data: *mut u8,
        data_len: usize,
    ) -> TransactionAnswer;

    fn adv7195_read(
        image: *const u8,
        image_len: usize,
        settings: *mut i32,
        settings_len: usize,
    ) -> ReadAnswer;
}

/// Plans, with the archive's own numbers.
#[inline]
pub fn plan(image: &[u8], settings: &[i32], address: u32, plan: &mut [u8]) -> PlanAnswer {
    // Sound: each pointer comes with the length of its own slice, and the
    // archive touches nothing outside them.
    unsafe {
        adv7195_plan(
            image.as_ptr(),
            image.len(),
            settings.as_ptr(),
            settings.len(),
            address,
            plan.as_mut_ptr(),
            plan.len(),
        )
    }
}

/// Plays, with the archive's own numbers.
#[inline]
pub fn play(image: &mut [u8], used: u32, own: u32, plan: &[u8]) -> PlayAnswer {
    // Sound: as in `plan`.
    unsafe {
        adv7195_play(
            image.as_mut_ptr(),
            image.len(),
            used,
            own,
            plan.as_ptr(),
            plan.len(),
        )
    }
}

/// Asks for a transaction, with the archive's own numbers.
#[inline]
pub fn transaction(plan: &[u8], index: u32, data: &mut [u8]) -> TransactionAnswer {
    // Sound: as in `plan`.
    unsafe {
        adv7195_transaction(
            plan.as_ptr(),
            plan.len(),
            index,
            data.as_mut_ptr(),
            data.len(),
        )
    }
}

/// Reads, with the archive's own numbers.
#[inline]
pub fn read(image: &[u8], settings: &mut [i32]) -> ReadAnswer {
    // Sound: as in `plan`.
    unsafe {
        adv7195_read(
            image.as_ptr(),
            image.len(),
            settings.as_mut_ptr(),
            settings.len(),
        )
    }
}
