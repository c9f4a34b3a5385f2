//! Seeded cases, made before any time is taken.

use compare::cases::{self, Image, Numbers};
use compare::damage;
use compare::flags;
use compare::random::Random;
use plain::{ALL_KNOWN, NO_LIMIT};

/// Cases in a block.
pub const CASES: usize = 4096;
/// The most bits that differ from what is wanted, in an image that is near it.
const FLIPPED: i32 = 6;
/// The least limit.
const LEAST_LIMIT: i32 = 4;

/// One case for each entry point.
pub struct Case {
    /// The image that planning starts from.
    pub start: Image,
    /// Its flags of known registers, and those that playing starts from.
    pub known: u64,
    /// Settings.
    pub settings: Numbers,
    /// The limit.
    pub limit: u32,
    /// A packed plan.
    pub plan: Vec<u8>,
    /// An image to read.
    pub image: Image,
    /// Its flags.
    pub image_known: u64,
}

/// Which cases a block has.
#[derive(Clone, Copy)]
pub struct Mixture {
    /// One case in so many has faults in it, if any.
    pub spoilt: Option<u64>,
    /// Whether flags are seeded, a third of them all known; else all are.
    pub flags: bool,
    /// Whether limits are drawn from the least to the highest; else there is none.
    pub limits: bool,
}

/// A block of cases.
pub struct Block(pub Vec<Case>);

impl Block {
    /// A block of such cases.
    pub fn new(random: &mut Random, mixture: Mixture) -> Block {
        Block((0..CASES).map(|_| case(random, mixture)).collect())
    }
}

/// One case: half of the images are near what is wanted, half are any.
fn case(random: &mut Random, mixture: Mixture) -> Case {
    let mut settings = cases::accepted(random);
    let start = if random.flag() {
        cases::near_image(random, &settings, FLIPPED)
    } else {
        cases::any_image(random)
    };
    let (known, image_known) = if mixture.flags {
        (flags::planning(random), flags::reading(random))
    } else {
        (ALL_KNOWN, ALL_KNOWN)
    };
    let limit = if mixture.limits {
        random.within(LEAST_LIMIT, NO_LIMIT as i32) as u32
    } else {
        NO_LIMIT
    };
    // What is played is planned all the same where flags would refuse it.
    let all = known | flags::PARTS;
    let (planned, bytes) = cases::packed(&start, all, &settings, limit);
    let mut plan = bytes[..planned.length as usize].to_vec();
    let mut image = cases::settled(&start, &settings);
    let spoilt = mixture.spoilt;
    if spoilt.is_some_and(|times| random.once_in(times)) {
        cases::spoil(random, &mut settings);
        damage::damage(random, &mut plan);
        cases::flip_one(random, &mut image);
    }
    Case {
        start,
        known,
        settings,
        limit,
        plan,
        image,
        image_known,
    }
}
