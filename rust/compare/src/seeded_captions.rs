//! Seeded cases of captions.

use crate::both::TRANSACTION;
use crate::captions::{three, with_captions};
use crate::captions::{
    EXTENDED, FIRSTS, LAST, MOST_CHARACTERS, MOST_ROOM, NO_PAIRS, ORDINARY, WIDE,
};
use crate::cases::{self, Image, BEFORE};
use crate::comparer::Comparer;
use crate::damage::{self, packed};
use crate::flags;
use crate::limits;
use crate::random::Random;
use crate::seeded::{resized, Seeded};
use crate::sending;
use plain::registers::{span, CAPTIONS, CAPTION_BYTES, REGISTERS};
use plain::{with_parity, ALL_KNOWN, CAPTION_ROOM, PAIR};

/// One in so many counts of characters, and of pairs that are read, is any; one in twice as many characters.
const SELDOM: u64 = 12;
/// The caption registers.
const CAPTION_MAP: u64 = span(CAPTIONS, CAPTION_BYTES);

/// A pair: two characters or none, seldom another count, or a number that is no character.
fn pair(random: &mut Random) -> Vec<i32> {
    let count = if random.once_in(SELDOM) {
        random.below(MOST_CHARACTERS as u64 + 1) as usize
    } else {
        PAIR * random.below(2) as usize
    };
    let mut pair: Vec<i32> = (0..count).map(|_| random.within(0, LAST)).collect();
    for character in &mut pair {
        if random.once_in(2 * SELDOM) {
            let near = random.within(-LAST, 3 * LAST);
            let wide = random.one_of(&WIDE);
            *character = random.one_of(&[near, wide]);
        }
    }
    pair
}

/// A plan of transactions around the caption registers, often with odd numbers of ones.
fn near(random: &mut Random) -> Vec<u8> {
    let transaction = |random: &mut Random| {
        let first = if random.once_in(3) {
            random.within(0x10, 0x15) as u32
        } else {
            random.one_of(&FIRSTS)
        };
        let count = if random.once_in(3) {
            1 + random.below(4) as u32
        } else {
            PAIR as u32
        };
        (first, count)
    };
    let list: Vec<(u32, u32)> = (0..random.below(4)).map(|_| transaction(random)).collect();
    packed(&list, || {
        if random.once_in(SELDOM) {
            return random.byte();
        }
        with_parity(random.within(0, LAST) as u8)
    })
}

impl Seeded {
    /// One case of captions: half of them plan, a quarter each plays by both players and reads.
    pub fn captions(&mut self, comparer: &mut Comparer) {
        let accepted = match self.random.below(4) {
            0 => self.play_captions(comparer),
            1 => self.read_captions(comparer),
            _ => self.plan_captions(comparer),
        };
        self.accepted += accepted as u64;
    }

    /// Plans captions; where accepted, goes round.
    fn plan_captions(&mut self, comparer: &mut Comparer) -> bool {
        let (extended, ordinary) = (pair(&mut self.random), pair(&mut self.random));
        let room = match self.random.below(4) {
            0 => self.random.below(MOST_ROOM as u64 + 1) as usize,
            _ => self.random.within(CAPTION_ROOM as i32, MOST_ROOM as i32) as usize,
        };
        let address = self.address();
        let room = &[BEFORE; MOST_ROOM][..room];
        let (answer, lent) = comparer.plan_captions(&extended, &ordinary, address, room);
        if answer.refusal != 0 {
            return false;
        }
        let plan = &lent.get()[..answer.length as usize];
        let image = cases::any_image(&mut self.random);
        let flags = flags::flags(&mut self.random, 0);
        let (played, after) = comparer.play_captions(&image, flags, address, address, plan);
        let taken = (played.refusal, played.acknowledged) == (0, 1);
        comparer.expect(taken, || format!("captions aren't played: {plan:02X?}"));
        let after: Image = after.get().try_into().expect("an image's length");
        let cost = (after, answer.bus_bytes, answer.transactions);
        let sent = sending::sent(comparer, TRANSACTION, &image, plan);
        comparer.expect(sent == cost, || {
            format!("sent otherwise than played: {plan:02X?}")
        });
        for (number, given) in [(EXTENDED, extended), (ORDINARY, ordinary)] {
            let read = comparer.read_captions(&after, played.known, number);
            let back = [read.first as i32, read.second as i32];
            let same = given.is_empty() || read.refusal == 0 && given == back;
            comparer.expect(same, || format!("not read back: {given:?} {read:?}"));
        }
        true
    }

    /// Plays a plan of captions, of settings or of another make, sound or damaged, by both players.
    fn play_captions(&mut self, comparer: &mut Comparer) -> bool {
        let random = &mut self.random;
        let mut plan = match random.below(8) {
            0 => damage::foreign(random),
            1 => {
                let settings = cases::accepted(random);
                let (answer, bytes) = cases::packed(
                    &cases::any_image(random),
                    ALL_KNOWN,
                    &settings,
                    limits::right(random),
                );
                bytes[..answer.length as usize].to_vec()
            }
            2 => near(random),
            _ => {
                let which = random.below(3) as usize;
                three(random).swap_remove(which)
            }
        };
        if random.once_in(3) {
            damage::damage(random, &mut plan);
        }
        let image = cases::any_image(random);
        let used = self.address();
        let own = if self.random.once_in(8) {
            self.address()
        } else {
            used
        };
        let given = resized(&image, self.length(REGISTERS), 0);
        let known = flags::flags(&mut self.random, 0);
        comparer.play_both(&given, known, used, own, &plan).refusal == 0
    }

    /// Reads a pair of an image, with or without characters in it.
    fn read_captions(&mut self, comparer: &mut Comparer) -> bool {
        let mut image = with_captions(&mut self.random);
        if self.random.once_in(3) {
            let place = CAPTIONS + self.random.below(CAPTION_BYTES as u64) as usize;
            image[place] = self.random.byte();
        }
        let number = if self.random.once_in(SELDOM) {
            self.random.one_of(&NO_PAIRS)
        } else {
            self.random.one_of(&[EXTENDED, ORDINARY])
        };
        let given = resized(&image, self.length(REGISTERS), 0);
        let known = flags::flags(&mut self.random, CAPTION_MAP);
        comparer.read_captions(&given, known, number).refusal == 0
    }
}
