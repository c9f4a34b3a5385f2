//! Seeded cases.

use crate::both::TRANSACTION;
use crate::cases::{self, Numbers, BEFORE, ROOM};
use crate::comparer::Comparer;
use crate::damage;
use crate::flags;
use crate::limits;
use crate::pairs;
use crate::random::Random;
use crate::reasons;
use crate::round::{round, Made};
use crate::sending;
use crate::why_calls::Asked;
use plain::fields::SETTINGS;
use plain::registers::REGISTERS;
use plain::ALL_KNOWN;

/// One in so many cases has a wrong length, or a wrong address.
const SELDOM: u64 = 24;
/// The most bits that are wrong in an image near the wanted one.
const FLIPPED: i32 = 6;
/// The longest image or settings tried.
const LONGEST: u64 = 61;
/// Bytes of the longest packed plan, with the least limit.
const LONGEST_PLAN: i32 = 53;
/// What lent settings hold before.
const NUMBER_BEFORE: i32 = -77;

/// Seeded cases.
pub struct Seeded {
    pub(crate) random: Random,
    /// Cases that were accepted.
    pub accepted: u64,
    /// Plans of the ADV7195 among them that change interpolation.
    pub flips: u64,
}

impl Seeded {
    /// Starts from a seed.
    pub fn new(seed: u64) -> Seeded {
        Seeded {
            random: Random::new(seed),
            accepted: 0,
            flips: 0,
        }
    }

    /// One case: two fifths of them plan, a fifth each plays, reads and compares.
    pub fn case(&mut self, comparer: &mut Comparer) {
        let accepted = match self.random.below(5) {
            0 => self.play(comparer),
            1 => self.read(comparer),
            2 => self.compare(comparer),
            _ => self.plan(comparer),
        };
        self.accepted += accepted as u64;
    }

    /// An address, seldom a wrong one.
    pub(crate) fn address(&mut self) -> u32 {
        if !self.random.once_in(SELDOM) {
            return 2 * self.random.below(128) as u32;
        }
        let wide = self.random.bits() as u32;
        self.random.one_of(&[1, 255, 256, 0x154, wide, wide & !1])
    }

    /// A length, seldom another than the right one.
    pub(crate) fn length(&mut self, right: usize) -> usize {
        if self.random.once_in(SELDOM) {
            self.random.below(LONGEST) as usize
        } else {
            right
        }
    }

    /// Plans, and asks why registers are sent; where accepted, goes round.
    fn plan(&mut self, comparer: &mut Comparer) -> bool {
        let mut settings = cases::accepted(&mut self.random);
        let image = match self.random.below(4) {
            0 => cases::any_image(&mut self.random),
            _ => cases::near_image(&mut self.random, &settings, FLIPPED),
        };
        if self.random.once_in(4) {
            cases::spoil(&mut self.random, &mut settings);
        }
        let known = flags::planning(&mut self.random);
        let limit = limits::any(&mut self.random);
        let room = match self.random.below(6) {
            0 => {
                let length = cases::packed(&image, known, &settings, limit).0.length as usize;
                (length + self.random.below(4) as usize).saturating_sub(2)
            }
            _ => self.random.within(LONGEST_PLAN, ROOM as i32) as usize,
        };
        let given = resized(&image, self.length(REGISTERS), 0);
        let numbers = resized(&settings, self.length(SETTINGS), 0);
        let address = self.address();
        let room = &[BEFORE; ROOM][..room];
        let (answer, plan) = comparer.plan(&given, known, &numbers, address, limit, room);
        let asked = Asked {
            image: &given,
            known,
            settings: &numbers,
            limit,
        };
        reasons::some(comparer, &mut self.random, &asked, (answer, plan.get()));
        if answer.refusal != 0 {
            return false;
        }
        let made = Made {
            image: &image,
            known,
            settings: &settings,
            limit,
            plan: &plan.get()[..answer.length as usize],
            cost: (answer.bus_bytes, answer.transactions),
        };
        round(comparer, &mut self.random, &made);
        true
    }

    /// Plays a plan of ours or of another make, sound or damaged.
    fn play(&mut self, comparer: &mut Comparer) -> bool {
        let image = cases::any_image(&mut self.random);
        let mut plan = if self.random.once_in(3) {
            damage::foreign(&mut self.random)
        } else {
            let settings = cases::accepted(&mut self.random);
            let start = cases::near_image(&mut self.random, &settings, FLIPPED);
            let limit = limits::right(&mut self.random);
            let (planned, bytes) = cases::packed(&start, ALL_KNOWN, &settings, limit);
            bytes[..planned.length as usize].to_vec()
        };
        if self.random.once_in(4) {
            damage::damage(&mut self.random, &mut plan);
        }
        let used = self.address();
        let own = if self.random.once_in(8) {
            self.address()
        } else {
            used
        };
        let given = resized(&image, self.length(REGISTERS), 0);
        sending::asked(comparer, TRANSACTION, &mut self.random, &plan);
        let known = flags::flags(&mut self.random, 0);
        comparer.play(&given, known, used, own, &plan).0.refusal == 0
    }

    /// Reads an image that settings made, sound or damaged.
    fn read(&mut self, comparer: &mut Comparer) -> bool {
        let settings: Numbers = cases::accepted(&mut self.random);
        let mut image = cases::settled(&cases::any_image(&mut self.random), &settings);
        if self.random.once_in(3) {
            for _ in 0..self.random.within(1, 3) {
                cases::flip_one(&mut self.random, &mut image);
            }
        } else if self.random.once_in(8) {
            let register = self.random.below(REGISTERS as u64) as usize;
            image[register] = self.random.byte();
        }
        let given = resized(&image, self.length(REGISTERS), 0);
        let numbers = vec![NUMBER_BEFORE; self.length(SETTINGS)];
        let known = flags::reading(&mut self.random);
        comparer.read(&given, known, &numbers).0.refusal == 0
    }

    /// Compares two images: equal, near or far.
    fn compare(&mut self, comparer: &mut Comparer) -> bool {
        let (a, b) = pairs::pair(&mut self.random);
        let a = resized(&a, self.length(REGISTERS), 0);
        let b = resized(&b, self.length(REGISTERS), 0);
        comparer.compare(&a, &b).refusal == 0
    }
}

/// The same at another length.
pub fn resized<T: Copy>(contents: &[T], length: usize, more: T) -> Vec<T> {
    let mut all = contents.to_vec();
    all.resize(length, more);
    all
}
