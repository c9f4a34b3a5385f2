//! Signalling: the three registers of CGMS and WSS.

/// Payload bits of CGMS, and bits of a WSS number.
pub const PAYLOAD_BITS: u32 = 14;
/// The largest payload or number.
pub const LAST_PAYLOAD: i32 = (1 << PAYLOAD_BITS) - 1;

/// Bit 4 of the top register: the chip works out the check.
pub const CHIP_CHECK_BIT: u8 = 0x10;
/// Bit 5 of the top register: CGMS in odd fields.
pub const ODD_BIT: u8 = 0x20;
/// Bit 6 of the top register: CGMS in even fields.
pub const EVEN_BIT: u8 = 0x40;
/// Bit 7 of the top register: WSS.
pub const WSS_BIT: u8 = 0x80;
/// The four switches of the top register.
pub const SWITCHES: u8 = 0xF0;
/// The bits of the middle register that WSS uses.
pub const WSS_MIDDLE_BITS: u8 = 0x3F;

/// The bits of a WSS number that hold an odd number of ones.
const ODD_COUNTED: u32 = 0x0F;
/// Six ones.
const CHECK_START: u32 = 0x3F;
/// The feedback, with the first check bit lowest.
const CHECK_FEEDBACK: u32 = 0x30;

/// Payload bits that one table is for.
const HALF_BITS: u32 = PAYLOAD_BITS / 2;
/// Entries of such a table.
const HALF_CODES: usize = 1 << HALF_BITS;
/// The check bits in their place, by C0 to C6. The check is linear but for its
/// start, which this table has.
static LOW_CHECKS: [u32; HALF_CODES] = checks(CHECK_START, 0);
/// What C7 to C13 change in them.
static HIGH_CHECKS: [u32; HALF_CODES] = checks(0, HALF_BITS);

/// C0 to C19 of a payload, C0 lowest.
#[inline]
pub fn cgms_bits(payload: u32) -> u32 {
    let low = payload as usize % HALF_CODES;
    let high = (payload >> HALF_BITS) as usize % HALF_CODES;
    payload | LOW_CHECKS[low] ^ HIGH_CHECKS[high]
}

/// The check bits in their place for each half of a payload, moved up by `place`.
const fn checks(start: u32, place: u32) -> [u32; HALF_CODES] {
    let mut table = [0; HALF_CODES];
    let mut half = 0;
    while half < HALF_CODES {
        table[half] = check(start, (half as u32) << place) << PAYLOAD_BITS;
        half += 1;
    }
    table
}

/// The check of a payload. It is kept with C14, its top bit, lowest, and so
/// shifts to the right.
const fn check(start: u32, payload: u32) -> u32 {
    let mut check = start;
    let mut place = 0;
    while place < PAYLOAD_BITS {
        let feedback = (check ^ (payload >> place)) & 1;
        check = (check >> 1) ^ (feedback * CHECK_FEEDBACK);
        place += 1;
    }
    check
}

/// Whether W0 to W3 hold an odd number of ones.
#[inline]
pub fn wss_is_odd(number: u32) -> bool {
    (number & ODD_COUNTED).count_ones() % 2 == 1
}
