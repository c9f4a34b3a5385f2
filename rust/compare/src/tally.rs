//! Which refusals came, and which can.

use plain::progressive::fields as progressive;

/// The entry points.
#[derive(Clone, Copy, PartialEq, Eq)]
pub enum Entry {
    /// Planning.
    Plan,
    /// Why a register is sent.
    Why,
    /// Playing.
    Play,
    /// Reading.
    Read,
    /// The house setting.
    House,
    /// A transaction by its index.
    Transaction,
    /// Comparing two images.
    Compare,
    /// Planning captions.
    PlanCaptions,
    /// Playing captions.
    PlayCaptions,
    /// Reading captions.
    ReadCaptions,
    /// Planning for the ADV7195.
    ProgressivePlan,
    /// Playing on it.
    ProgressivePlay,
    /// Reading it.
    ProgressiveRead,
    /// A transaction of one of its plans.
    ProgressiveTransaction,
}

impl Entry {
    /// Its name.
    pub fn name(self) -> &'static str {
        NAMES[self as usize]
    }
}

/// How many there are.
const ENTRIES: usize = 14;
/// All of them.
const ALL: [Entry; ENTRIES] = [
    Entry::Plan,
    Entry::Why,
    Entry::Play,
    Entry::Read,
    Entry::House,
    Entry::Transaction,
    Entry::Compare,
    Entry::PlanCaptions,
    Entry::PlayCaptions,
    Entry::ReadCaptions,
    Entry::ProgressivePlan,
    Entry::ProgressivePlay,
    Entry::ProgressiveRead,
    Entry::ProgressiveTransaction,
];
/// Their names, in that order.
const NAMES: [&str; ENTRIES] = [
    "plan",
    "why",
    "play",
    "read",
    "house",
    "transaction",
    "compare",
    "plan_captions",
    "play_captions",
    "read_captions",
    "7195_plan",
    "7195_play",
    "7195_read",
    "7195_transaction",
];
/// Numbers of refusals, none among them.
const REFUSALS: usize = 12;
/// Numbers of fields, none among them.
const FIELDS: usize = progressive::FIELDS + 1;
/// The refusal of a number outside its range.
const RANGE: u32 = 3;
/// The refusal of an unknown register.
const UNKNOWN: u32 = 11;
/// Fields that are the first of a register, for reading.
const FIRST_OF_REGISTER: [u32; 18] = [
    1, 2, 3, 5, 10, 11, 12, 13, 14, 15, 16, 17, 18, 20, 23, 26, 27, 28,
];
/// The last field that settings have.
const LAST_SET: u32 = 27;

/// Planning alone: an address and room.
const PLAN_ONLY: [(u32, u32); 2] = [(2, 0), (10, 0)];
/// Planning and asking why: at no field, and at one.
const PLAN: [(u32, u32); 14] = [
    (1, 0),
    (UNKNOWN, 1),
    (UNKNOWN, 2),
    (UNKNOWN, 3),
    (UNKNOWN, 11),
    (4, 1),
    (5, 3),
    (6, 4),
    (4, 6),
    (7, 11),
    (4, 11),
    (4, 18),
    (4, 19),
    (4, 23),
];
/// Playing, settings or captions.
const PLAY: [(u32, u32); 3] = [(1, 0), (2, 0), (9, 0)];
/// Reading, where all registers are known. Fields whose every code has a setting
/// aren't among them.
const READ: [(u32, u32); 19] = [
    (1, 0),
    (3, 0),
    (4, 1),
    (5, 3),
    (6, 4),
    (4, 6),
    (4, 8),
    (7, 11),
    (4, 11),
    (8, 11),
    (3, 12),
    (3, 16),
    (4, 16),
    (3, 17),
    (4, 17),
    (4, 18),
    (4, 19),
    (4, 23),
    (8, 28),
];

/// The house setting: another length than 49.
const HOUSE: [(u32, u32); 1] = [(RANGE, 0)];
/// A transaction.
const TRANSACTION: [(u32, u32); 3] = [(9, 0), (3, 0), (10, 0)];
/// Comparing.
const COMPARE: [(u32, u32); 1] = [(1, 0)];
/// Planning captions.
const PLAN_CAPTIONS: [(u32, u32); 3] = [(2, 0), (3, 29), (10, 0)];
/// Reading captions.
const READ_CAPTIONS: [(u32, u32); 4] = [(1, 0), (3, 29), (UNKNOWN, 29), (4, 29)];

/// Planning for the ADV7195, but for refusal 3 at a field.
const PROGRESSIVE_PLAN: [(u32, u32); 6] = [(1, 0), (2, 0), (RANGE, 0), (4, 1), (4, 2), (10, 0)];
/// Reading it.
const PROGRESSIVE_READ: [(u32, u32); 12] = [
    (1, 0),
    (RANGE, 0),
    (4, 1),
    (4, 2),
    (4, 4),
    (4, 6),
    (RANGE, 14),
    (RANGE, 15),
    (4, 19),
    (4, 20),
    (4, 25),
    (4, 27),
];

/// Counts by entry, refusal and field.
pub struct Tally([[[u64; FIELDS]; REFUSALS]; ENTRIES]);

impl Tally {
    /// Nothing counted.
    pub fn new() -> Tally {
        Tally([[[0; FIELDS]; REFUSALS]; ENTRIES])
    }

    /// Counts one answer; says whether such a one can be.
    pub fn count(&mut self, entry: Entry, refusal: u32, field: u32) -> bool {
        let (r, f) = (refusal as usize, field as usize);
        if r < REFUSALS && f < FIELDS {
            self.0[entry as usize][r][f] += 1;
        }
        can_be(entry, refusal, field)
    }

    /// Prints the table, and gives how many that can occur never came.
    pub fn print(&self) -> u64 {
        println!("entry            refusal field      count");
        let mut missing = 0;
        for entry in ALL {
            for refusal in 0..REFUSALS as u32 {
                for field in 0..FIELDS as u32 {
                    let count = self.0[entry as usize][refusal as usize][field as usize];
                    let can = can_be(entry, refusal, field);
                    if count > 0 || can {
                        let name = entry.name();
                        let note = if count == 0 { "  NEVER CAME" } else { "" };
                        println!("{name:16} {refusal:7} {field:5} {count:10}{note}");
                    }
                    missing += (count == 0 && can) as u64;
                }
            }
        }
        missing
    }
}

impl Default for Tally {
    fn default() -> Tally {
        Tally::new()
    }
}

/// Whether planning and asking why can answer this. Refusal 3 can occur at every field
/// that is set, and for a wrong limit or another length than 49.
fn planning((refusal, field): (u32, u32)) -> bool {
    PLAN.contains(&(refusal, field)) || refusal == RANGE && field <= LAST_SET
}

/// Whether planning for the ADV7195 can answer this. Refusal 3 can occur at every number that has
/// a setting.
fn progressive_planning((refusal, field): (u32, u32)) -> bool {
    let number = progressive::TABLE.get((field as usize).wrapping_sub(1));
    let set = number.is_some_and(|number| number.settings() > 0);
    PROGRESSIVE_PLAN.contains(&(refusal, field)) || refusal == RANGE && set
}

/// Whether an entry can answer this. 0 with 0 is an accepted call.
fn can_be(entry: Entry, refusal: u32, field: u32) -> bool {
    let pair = (refusal, field);
    let listed = match entry {
        Entry::Plan => planning(pair) || PLAN_ONLY.contains(&pair),
        Entry::Why => planning(pair),
        Entry::Play | Entry::PlayCaptions | Entry::ProgressivePlay => PLAY.contains(&pair),
        Entry::Read => {
            READ.contains(&pair) || refusal == UNKNOWN && FIRST_OF_REGISTER.contains(&field)
        }
        Entry::House => HOUSE.contains(&pair),
        Entry::Transaction | Entry::ProgressiveTransaction => TRANSACTION.contains(&pair),
        Entry::Compare => COMPARE.contains(&pair),
        Entry::PlanCaptions => PLAN_CAPTIONS.contains(&pair),
        Entry::ReadCaptions => READ_CAPTIONS.contains(&pair),
        Entry::ProgressivePlan => progressive_planning(pair),
        Entry::ProgressiveRead => PROGRESSIVE_READ.contains(&pair),
    };
    listed || pair == (0, 0)
}
