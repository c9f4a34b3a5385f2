//! Seeded cases of the ADV7195.

use super::calls::TRANSACTION;
use super::cases::{self, Numbers};
use super::lists;
use super::round::{round, Made};
use crate::cases::{BEFORE, ROOM};
use crate::comparer::Comparer;
use crate::damage;
use crate::seeded::{resized, Seeded};
use crate::sending;
use plain::progressive::fields::SETTINGS;
use plain::progressive::registers::REGISTERS;

/// The most bits that are wrong in an image near the wanted one.
const FLIPPED: i32 = 6;
/// Bytes of the longest packed plan.
const LONGEST_PLAN: i32 = 41;
/// What lent settings hold before.
const NUMBER_BEFORE: i32 = -77;

impl Seeded {
    /// One case: half of them plan, a quarter plays, a quarter reads.
    pub fn progressive(&mut self, comparer: &mut Comparer) {
        let accepted = match self.random.below(4) {
            0 => self.progressive_play(comparer),
            1 => self.progressive_read(comparer),
            _ => self.progressive_plan(comparer),
        };
        self.accepted += accepted as u64;
    }

    /// Plans; where accepted, goes round.
    fn progressive_plan(&mut self, comparer: &mut Comparer) -> bool {
        let mut settings = cases::accepted(&mut self.random);
        let image = match self.random.below(4) {
            0 => cases::any_image(&mut self.random),
            _ => cases::near_image(&mut self.random, &settings, FLIPPED),
        };
        if self.random.once_in(4) {
            cases::spoil(&mut self.random, &mut settings);
        }
        let room = match self.random.below(6) {
            0 => {
                let length = cases::packed(&image, &settings).len();
                (length + self.random.below(4) as usize).saturating_sub(2)
            }
            _ => self.random.within(LONGEST_PLAN, ROOM as i32) as usize,
        };
        let given = resized(&image, self.length(REGISTERS), 0);
        let numbers = resized(&settings, self.length(SETTINGS), 0);
        let address = self.address();
        let room = &[BEFORE; ROOM][..room];
        let (answer, plan) = comparer.progressive_plan(&given, &numbers, address, room);
        if answer.refusal != 0 {
            return false;
        }
        let made = Made {
            image: &image,
            settings: &settings,
            plan: &plan.get()[..answer.length as usize],
            cost: (answer.bus_bytes, answer.transactions),
        };
        self.flips += round(comparer, &made) as u64;
        true
    }

    /// Plays a plan of ours, whole, reordered or damaged, or one of another make.
    fn progressive_play(&mut self, comparer: &mut Comparer) -> bool {
        let settings = cases::accepted(&mut self.random);
        let start = cases::near_image(&mut self.random, &settings, FLIPPED);
        let mut list = lists::listed(&cases::packed(&start, &settings));
        match self.random.below(4) {
            0 => list = lists::foreign(&mut self.random),
            1 => lists::reordered(&mut self.random, &mut list),
            _ => {}
        }
        let mut plan = lists::packed(&list);
        if self.random.once_in(6) {
            damage::damage(&mut self.random, &mut plan);
        }
        let image = match self.random.below(4) {
            0 => cases::any_image(&mut self.random),
            _ => start,
        };
        let used = self.address();
        let own = match self.random.below(8) {
            0 => self.address(),
            _ => used,
        };
        let given = resized(&image, self.length(REGISTERS), 0);
        sending::asked(comparer, TRANSACTION, &mut self.random, &plan);
        comparer
            .progressive_play(&given, used, own, &plan)
            .0
            .refusal
            == 0
    }

    /// Reads an image that settings made, sound or damaged.
    fn progressive_read(&mut self, comparer: &mut Comparer) -> bool {
        let settings: Numbers = cases::accepted(&mut self.random);
        let mut image = cases::settled(&cases::any_image(&mut self.random), &settings);
        if self.random.once_in(3) {
            for _ in 0..self.random.within(1, 3) {
                cases::flip_one(&mut self.random, &mut image);
            }
        } else if self.random.once_in(8) {
            image = cases::any_image(&mut self.random);
        }
        let given = resized(&image, self.length(REGISTERS), 0);
        let numbers = vec![NUMBER_BEFORE; self.length(SETTINGS)];
        comparer.progressive_read(&given, &numbers).0.refusal == 0
    }
}
