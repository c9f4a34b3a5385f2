//! Why a register is sent, against document 02's words.

#[path = "common/boards.rs"]
mod boards;

use boards::{plan, settled, three, with, OWN, PAST, ROOM};
use plain::fields::{self as at, SETTINGS};
use plain::registers::REGISTERS;
use plain::{house, house_plan, house_why, play, raw_code, reason, transaction, why};
use plain::{Reason, WhyAnswer, ALL_KNOWN, LAST_FIELD, MOST_DATA, NO_LIMIT};

/// Seeded boards.
const BOARDS: u64 = 1500;
/// What seeds are mixed with.
const MIX: u64 = 0x9E37_79B9_7F4A_7C15;
/// What flags and bits are mixed with besides.
const OTHER_MIX: u64 = 0xC2B2_AE3D_27D4_EB4F;
/// The registers that settings fix in part.
const PARTS: u64 = 0b111 | 1 << 0x19;

/// A board, settings and a limit, that planning accepts.
struct Case {
    image: [u8; REGISTERS],
    known: u64,
    settings: [i32; SETTINGS],
    limit: u32,
}

/// What the packed plan of a case shows: its spans, what the chip holds after it, and
/// the needed registers.
struct Shown {
    spans: Vec<(u32, u32)>,
    after: [u8; REGISTERS],
    needed: u64,
}

impl Case {
    /// The reason of a register.
    fn reason(&self, register: u32) -> Reason {
        let answer = reason(
            &self.image,
            self.known,
            &self.settings,
            self.limit,
            register,
        );
        answer.expect("a plan that is accepted")
    }

    /// Plans and plays.
    fn shown(&self) -> Shown {
        let (mut bytes, mut after) = ([0; ROOM], self.image);
        let (known, limit) = (self.known, self.limit);
        let planned = plain::plan(&self.image, known, &self.settings, OWN, limit, &mut bytes);
        assert_eq!(planned.refusal, 0);
        let bytes = &bytes[..planned.length as usize];
        let played = play(&mut after, known, OWN, OWN, bytes);
        let differs = |register: &usize| after[*register] != self.image[*register];
        let changed = (0..REGISTERS).filter(differs);
        let changed = changed.fold(0, |map, register| map | 1 << register);
        let spans = (0..planned.transactions)
            .map(|index| transaction(bytes, index, &mut [0; MOST_DATA]))
            .map(|one| (one.subaddress, one.count));
        Shown {
            spans: spans.collect(),
            after,
            needed: changed & known | played.known & !known,
        }
    }
}

/// Whether a map has a register.
fn has(map: u64, register: u32) -> bool {
    map >> register & 1 == 1
}

/// An image without its must-be-zero bits.
fn without_zero_bits(image: &[u8; REGISTERS]) -> [u8; REGISTERS] {
    let mut image = *image;
    image[0x21] &= 0x7F;
    image[0x22] &= 0x0F;
    image
}

/// Whether what is answered of a register is true, by document 02's words.
fn holds(case: &Case, shown: &Shown, register: u32, reason: Reason) -> bool {
    let span = |one: &&(u32, u32)| (one.0..one.0 + one.1).contains(&register);
    let place = register as usize;
    match reason {
        Reason::NotSent => !shown.spans.iter().any(|one| span(&one)),
        Reason::Unknown => !has(case.known, register),
        Reason::Field(field) => {
            let [mut found, mut after] = [&case.image, &shown.after].map(without_zero_bits);
            let others = (0..REGISTERS).filter(|&other| other != place);
            others.for_each(|other| (found[other], after[other]) = (0, 0));
            raw_code(&found, field) != raw_code(&after, field)
        }
        Reason::MustBeZero => without_zero_bits(&case.image)[place] != case.image[place],
        Reason::Companion => {
            let another = |other: u32| other != register && has(shown.needed, other);
            (0x0C..=0x0F).contains(&register) && (0x0C..=0x0F).any(another)
        }
        Reason::Bridge(below, above) => {
            let between = below + 1..above;
            let one = shown.spans.iter().find(span);
            let within = one.is_some_and(|one| one.0 <= below && above < one.0 + one.1);
            let ends = has(shown.needed, below) && has(shown.needed, above);
            let none = !between.clone().any(|other| has(shown.needed, other));
            ends && none && within && between.contains(&register)
        }
    }
}

/// What can be answered before a reason.
fn before(reason: Reason) -> Vec<Reason> {
    let fields = (1..=LAST_FIELD).map(Reason::Field);
    let mut all = vec![Reason::NotSent, Reason::Unknown];
    all.extend(fields.chain([Reason::MustBeZero, Reason::Companion]));
    let place = all.iter().position(|one| *one == reason);
    all.truncate(place.unwrap_or(all.len()));
    all
}

/// A seeded case: few bits wrong or many, few registers unknown or many.
fn seeded(seed: u64) -> Case {
    let bits = |n: u64| {
        (seed * 8 + n)
            .wrapping_mul(MIX)
            .wrapping_mul(OTHER_MIX | n << 1)
            >> 7
    };
    let settings = three(house())[(seed % 3) as usize];
    let mut image = settled(&settings, bits(0) as u8);
    let wrong = [bits(1) & bits(2) & bits(3), bits(1) & bits(2), bits(1)][(seed / 3 % 3) as usize];
    for register in (0..REGISTERS).filter(|register| has(wrong, *register as u32)) {
        image[register] ^= 1 << (bits(4) >> (register % 16) & 7);
    }
    let unknown = [0, bits(5) & bits(6) & bits(7), bits(5)][(seed / 9 % 3) as usize] & !PARTS;
    let limit = [NO_LIMIT, 4, 5, 6, 8][(seed / 27 % 5) as usize];
    Case {
        image,
        known: ALL_KNOWN & !unknown,
        settings,
        limit,
    }
}

/// For every register what is answered is true, and nothing before it is.
#[test]
fn true_and_first() {
    let mut came = [0; 6];
    for case in (0..BOARDS).map(seeded) {
        let shown = case.shown();
        for register in 0..REGISTERS as u32 {
            let reason = case.reason(register);
            let before = before(reason);
            assert!(holds(&case, &shown, register, reason), "{register:02X}");
            let earlier = before
                .iter()
                .find(|&&one| holds(&case, &shown, register, one));
            assert_eq!(earlier, None, "{register:02X} {reason:?}");
            let (known, limit) = (case.known, case.limit);
            let answer = why(&case.image, known, &case.settings, limit, register);
            came[answer.reason as usize] += 1;
        }
    }
    assert!(came.iter().all(|&count| count > 100), "{came:?}");
}

/// The reason of a register on a board that has the house setting but for some bits.
fn found(wrong: &[(usize, u8)], register: u32) -> Reason {
    let mut image = settled(&house(), 0x00);
    wrong.iter().for_each(|&(place, bits)| image[place] ^= bits);
    let answer = reason(&image, ALL_KNOWN, &house(), NO_LIMIT, register);
    answer.expect("the house setting")
}

#[test]
fn each_reason() {
    assert_eq!(found(&[(0x20, 1)], 0x20), Reason::Field(15));
    assert_eq!(found(&[(0x20, 1)], 0x21), Reason::NotSent);
    // The lowest field: 02 has fields 2 and 4, 23 fields 18 and 19.
    assert_eq!(found(&[(0x02, 0x18)], 0x02), Reason::Field(2));
    assert_eq!(found(&[(0x02, 0x08)], 0x02), Reason::Field(4));
    assert_eq!(found(&[(0x23, 0x81)], 0x23), Reason::Field(18));
    // A field's bits before must-be-zero bits.
    assert_eq!(found(&[(0x21, 0x80)], 0x21), Reason::MustBeZero);
    assert_eq!(found(&[(0x21, 0x81)], 0x21), Reason::Field(16));
    assert_eq!(found(&[(0x22, 0x10)], 0x22), Reason::MustBeZero);
    assert_eq!(found(&[(0x22, 0x11)], 0x22), Reason::Field(17));
    // The word: its bytes that change, and those beside them.
    let word = [(0x0D, 1), (0x0F, 1)];
    let reasons = [0x0C, 0x0D, 0x0E, 0x0F].map(|register| found(&word, register));
    let changed = Reason::Field(28);
    assert_eq!(
        reasons,
        [Reason::Companion, changed, Reason::Companion, changed]
    );
    assert_eq!(found(&word, 0x10), Reason::NotSent);
    // Gaps of one and two, and one of three.
    assert_eq!(
        found(&[(0x1D, 1), (0x1F, 1), (0x22, 1)], 0x1E),
        Reason::Bridge(0x1D, 0x1F)
    );
    for register in [0x20, 0x21] {
        let wrong = [(0x1D, 1), (0x1F, 1), (0x22, 1)];
        assert_eq!(found(&wrong, register), Reason::Bridge(0x1F, 0x22));
        assert_eq!(found(&[(0x1E, 1), (0x22, 1)], register), Reason::NotSent);
    }
    for register in [0x03, 0x04] {
        let wrong = [(0x02, 0x10), (0x05, 1)];
        assert_eq!(found(&wrong, register), Reason::Bridge(0x02, 0x05));
    }
}

/// Unknown before all else.
#[test]
fn unknown_first() {
    let image = settled(&house(), 0x00).map(|byte| !byte);
    let known = 0b111 | 1 << 0x19;
    let of = |register| reason(&image, known, &house(), NO_LIMIT, register);
    for register in [0x05, 0x0C, 0x0F, 0x10, 0x1D, 0x21, 0x22, 0x33] {
        assert_eq!(of(register), Ok(Reason::Unknown));
    }
    for register in [0x03, 0x1A, 0x1C, 0x34, 0x35] {
        assert_eq!(of(register), Ok(Reason::NotSent));
    }
    assert_eq!(of(0x00), Ok(Reason::Field(1)));
}

/// A limit that cuts a run leaves out the bridge at the cut.
#[test]
fn cut_bridges() {
    let mut image = settled(&house(), 0x00);
    for register in [0x1D, 0x1E, 0x1F, 0x21, 0x22] {
        image[register] ^= 1;
    }
    let of = |limit| reason(&image, ALL_KNOWN, &house(), limit, 0x20);
    assert_eq!(of(NO_LIMIT), Ok(Reason::Bridge(0x1F, 0x21)));
    assert_eq!(of(6), Ok(Reason::Bridge(0x1F, 0x21)));
    assert_eq!(of(5), Ok(Reason::NotSent));
}

/// What is no register isn't sent, whatever it is when cut to fewer bits.
#[test]
fn no_register() {
    let image = [0xFF; REGISTERS];
    let wide = (6..u32::BITS).map(|place| 1 << place | 0x20);
    for register in (54..=60).chain(wide).chain([u32::MAX]) {
        let answer = why(&image, ALL_KNOWN | PAST, &house(), NO_LIMIT, register);
        assert_eq!(answer, WhyAnswer::default(), "{register}");
    }
}

/// 1, the limit, the settings' count, the fields, 11; an address and room aren't taken.
#[test]
fn order_of_the_checks() {
    let image = settled(&house(), 0x00);
    let of = |image: &[u8], known: u64, s: &[i32], limit: u32| {
        let answer = why(image, known, s, limit, 0x20);
        assert_eq!((answer.reason, answer.first, answer.second), (0, 0, 0));
        (answer.refusal, answer.field)
    };
    let wrong = with(house(), &[(at::STANDARD, 2)]);
    for limit in [3, 55, 256 + 8] {
        assert_eq!(of(&image[1..], ALL_KNOWN, &wrong[1..], limit), (1, 0));
        assert_eq!(of(&image, 0, &wrong[1..], limit), (3, 0));
        assert_eq!(of(&image, 0, &wrong, limit), (3, 0));
        assert_eq!(of(&image, 0, &house(), limit), (3, 0));
    }
    for limit in [4, 54] {
        assert_eq!(of(&image, 0, &wrong[1..], limit), (3, 0));
        assert_eq!(of(&image, 0, &wrong, limit), (4, 1));
        assert_eq!(of(&image, 0, &house(), limit), (11, 1));
        assert_eq!(of(&image, ALL_KNOWN, &house(), limit), (0, 0));
    }
}

/// The text: the plan's own lines, and one for each register under its transaction.
#[test]
fn text() {
    let mut image = settled(&house(), 0x00);
    for (register, bits) in [(0x02, 0x10), (0x05, 1), (0x0F, 0x80), (0x21, 0x80)] {
        image[register] ^= bits;
    }
    let expected = "PLAN 3 15\n02 00 00 00 00\n02 square pixel changed\n03 between 02 and 05\n\
                    04 between 02 and 05\n05 Y level changed\n0C 1F 7C F0 21\n\
                    0C sent with the subcarrier word\n0D sent with the subcarrier word\n\
                    0E sent with the subcarrier word\n0F subcarrier word changed\n21 00\n\
                    21 must be zero\n";
    assert_eq!(house_why(&image), expected);
    let plan_text = "PLAN 3 15\n02 00 00 00 00\n0C 1F 7C F0 21\n21 00\n";
    assert_eq!(house_plan(&image), plan_text);
    for text in [house_why, house_plan] {
        assert_eq!(text(&settled(&house(), 0x5A)), "PLAN 0 0\n");
        assert_eq!(text(&image[1..]), "REFUSED 1 0\n");
    }
    let lines = house_why(&[0xFF; REGISTERS]).lines().count();
    let planned = plan(&[0xFF; REGISTERS], ALL_KNOWN, &house(), &mut [0; ROOM]);
    let sent = planned.bus_bytes - 2 * planned.transactions;
    assert_eq!(lines as u32, 1 + planned.transactions + sent);
}
