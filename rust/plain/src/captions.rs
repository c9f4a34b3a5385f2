//! Captions: the extended pair of characters and the ordinary one, each written
//! by a transaction of its own.

use crate::board::Board;
use crate::fields::number;
use crate::least;
use crate::pack::{BYTE_BITS, HEAD_BITS};
use crate::plan::PlanAnswer;
use crate::play::{PlayAnswer, Played};
use crate::refusal::{self, check_address, demand, Refusal};
use crate::registers::{span, CAPTIONS};

/// Characters of a pair.
pub const PAIR: usize = 2;
/// Bytes of the longest packed plan of captions.
pub const CAPTION_ROOM: usize = 8;

/// Pairs: the extended one, then the ordinary one.
const PAIRS: usize = 2;
/// The first register of each pair.
const FIRSTS: [usize; PAIRS] = [CAPTIONS, CAPTIONS + PAIR];
/// The largest character.
const LAST_CHARACTER: u8 = 0x7F;
/// The bit that makes a character's ones odd in number.
const PARITY_BIT: u8 = 0x80;
/// Bit n is set where the four-bit number n has an odd number of ones.
const ODD_NIBBLES: u16 = 0x6996;
/// Bits of half a byte.
const NIBBLE_BITS: u32 = BYTE_BITS / 2;
/// Bits of a transaction before its data.
const OPENING_BITS: u32 = 2 * HEAD_BITS;
/// Bits of a pair's data.
const DATA_BITS: u32 = PAIR as u32 * BYTE_BITS;

/// The refusal of characters, of their count and of a pair's number.
const OUT_OF_RANGE: Refusal = Refusal {
    refusal: refusal::RANGE,
    field: number::CAPTIONS,
};

/// The bytes for each pair, with their parity; none for a pair that isn't given.
type Given = [Option<[u8; PAIR]>; PAIRS];

/// What reading a pair answers. After a refusal the last two are 0.
#[derive(Clone, Copy, Debug, Default, PartialEq, Eq)]
pub struct CaptionsAnswer {
    /// The refusal, or 0.
    pub refusal: u32,
    /// The field at fault, or 0.
    pub field: u32,
    /// The first character.
    pub first: u32,
    /// The second one.
    pub second: u32,
}

/// Whether a byte has an odd number of ones. Its halves laid over each other
/// lose ones by twos only.
pub fn is_odd(byte: u8) -> bool {
    let folded = byte ^ byte >> NIBBLE_BITS;
    ODD_NIBBLES >> (folded % (1 << NIBBLE_BITS)) & 1 == 1
}

/// A seven-bit character as it leaves: with an odd number of ones (EIA-608).
pub fn with_parity(character: u8) -> u8 {
    if is_odd(character) {
        character
    } else {
        character | PARITY_BIT
    }
}

/// Packs into `plan` the transactions that write one pair or both, a pair being
/// two numbers, or none where it isn't given. Checks 2, 3 at field 29, then 10.
pub fn plan_captions(
    extended: &[i32],
    ordinary: &[i32],
    address: u32,
    plan: &mut [u8],
) -> PlanAnswer {
    planned(extended, ordinary, address, plan).unwrap_or_else(PlanAnswer::refused)
}

/// Planning captions, with its refusal as an error.
fn planned(
    extended: &[i32],
    ordinary: &[i32],
    address: u32,
    plan: &mut [u8],
) -> Result<PlanAnswer, Refusal> {
    check_address(address)?;
    let given = [bytes_of(extended)?, bytes_of(ordinary)?];
    if given == [None; PAIRS] {
        return Err(OUT_OF_RANGE);
    }
    let packed = pack(given);
    let room = plan
        .get_mut(..packed.length)
        .ok_or(Refusal::bare(refusal::PLAN_ROOM))?;
    room.copy_from_slice(&packed.bytes[..packed.length]);
    Ok(PlanAnswer {
        refusal: 0,
        field: 0,
        length: packed.length as u32,
        transactions: packed.transactions,
        bus_bytes: least::bus_bytes(packed.transactions, PAIR as u32 * packed.transactions),
    })
}

/// The bytes that a pair's characters leave as; none for no characters.
fn bytes_of(characters: &[i32]) -> Result<Option<[u8; PAIR]>, Refusal> {
    match characters {
        [] => Ok(None),
        [first, second] => match [u8::try_from(*first), u8::try_from(*second)] {
            [Ok(first @ ..=LAST_CHARACTER), Ok(second @ ..=LAST_CHARACTER)] => {
                Ok(Some([first, second].map(with_parity)))
            }
            _ => Err(OUT_OF_RANGE),
        },
        _ => Err(OUT_OF_RANGE),
    }
}

/// A packed plan at the front of the bytes.
struct Packed {
    bytes: [u8; CAPTION_ROOM],
    length: usize,
    transactions: u32,
}

/// Packs the pairs given: the longest plan is 62 bits, and fits a number.
fn pack(given: Given) -> Packed {
    let transactions = given.iter().flatten().count() as u32;
    let (mut bits, mut width) = (transactions as u64, HEAD_BITS);
    for (first, pair) in FIRSTS.into_iter().zip(given) {
        let Some(data) = pair else { continue };
        let opening = first << HEAD_BITS | PAIR;
        bits = bits << OPENING_BITS | opening as u64;
        bits = bits << DATA_BITS | u16::from_be_bytes(data) as u64;
        width += OPENING_BITS + DATA_BITS;
    }
    Packed {
        bytes: (bits << (u64::BITS - width)).to_be_bytes(),
        length: width.div_ceil(BYTE_BITS) as usize,
        transactions,
    }
}

/// The bytes for each pair that a packed plan of captions writes; nothing for
/// other plans. It is one exactly where its data have odd numbers of ones and,
/// packed again, give it back.
fn unpack(plan: &[u8]) -> Option<Given> {
    let mut bytes = [0; CAPTION_ROOM];
    bytes.get_mut(..plan.len())?.copy_from_slice(plan);
    let bits = u64::from_be_bytes(bytes);
    let data = |place: u32| {
        let [first, second, ..] = (bits << place).to_be_bytes();
        Some([first, second])
    };
    let one = data(HEAD_BITS + OPENING_BITS);
    let other = data(HEAD_BITS + 2 * OPENING_BITS + DATA_BITS);
    let mut every = [[one, None], [None, one], [one, other]].into_iter();
    every.find(|given| {
        let packed = pack(*given);
        let odd = given.iter().flatten().flatten().all(|&byte| is_odd(byte));
        odd && packed.bytes[..packed.length] == *plan
    })
}

/// Plays a packed plan of captions, sent to the address `used`, on a chip holding
/// `image` in its `known` registers, whose own address is `own`. Checks 1, 2 for
/// either address, then 9: for every plan that planning captions doesn't give.
pub fn play_captions(image: &mut [u8], known: u64, used: u32, own: u32, plan: &[u8]) -> PlayAnswer {
    PlayAnswer::of(played(image, known, used, own, plan), known)
}

/// Playing captions, with its refusal as an error.
fn played(
    image: &mut [u8],
    known: u64,
    used: u32,
    own: u32,
    plan: &[u8],
) -> Result<Played, Refusal> {
    Board::of(image, known)?;
    check_address(used)?;
    check_address(own)?;
    let given = unpack(plan).ok_or(Refusal::bare(refusal::PLAN_BYTES))?;
    let (acknowledged, mut stored) = (used == own, 0);
    for (first, pair) in FIRSTS.into_iter().zip(given) {
        if let Some(data) = pair.filter(|_| acknowledged) {
            image[first..][..PAIR].copy_from_slice(&data);
            stored |= span(first, PAIR);
        }
    }
    Ok(Played {
        acknowledged,
        stored,
    })
}

/// Reads a pair back: 0 is the extended one, 1 the ordinary one. Checks 1, then
/// at field 29: 3 for another pair, 11 for a register of the pair that isn't
/// `known`, 4 for an even number of ones.
pub fn read_captions(image: &[u8], known: u64, pair: u32) -> CaptionsAnswer {
    match characters(image, known, pair) {
        Ok([first, second]) => CaptionsAnswer {
            first: first.into(),
            second: second.into(),
            ..CaptionsAnswer::default()
        },
        Err(refused) => CaptionsAnswer {
            refusal: refused.refusal,
            field: refused.field,
            ..CaptionsAnswer::default()
        },
    }
}

/// A pair's characters, with the refusal as an error.
fn characters(image: &[u8], known: u64, pair: u32) -> Result<[u8; PAIR], Refusal> {
    let board = Board::of(image, known)?;
    let &first = FIRSTS.get(pair as usize).ok_or(OUT_OF_RANGE)?;
    board.demand_known(first, PAIR, number::CAPTIONS)?;
    let bytes = [board.registers[first], board.registers[first + 1]];
    let odd = bytes.into_iter().all(is_odd);
    demand(odd, refusal::RESERVED, number::CAPTIONS)?;
    Ok(bytes.map(|byte| byte & !PARITY_BIT))
}
