//! The answers to records.

use crate::codings;
use crate::progressive;
use crate::record::Record;
use crate::{decimal, hex};
use plain::chip::{Acknowledge, Chip, Phase};
use plain::fields::SETTINGS;
use plain::refusal::Refusal;
use plain::{PlanAnswer, PlayAnswer, ALL_KNOWN, NO_LIMIT};

/// The answer to a line that is no record.
const NOT_A_RECORD: &str = "NOT A RECORD";
/// The most characters of a pair in a record.
const MOST_CHARACTERS: usize = 8;
/// The most lent settings of a record, and what they hold before.
pub(crate) const MOST_SETTINGS: usize = 64;
const BEFORE: i32 = 77;

/// The answers to all lines of a text, a line each. All registers are known until
/// a line says which are, and there is no limit until a line gives one.
pub fn answers(text: &str) -> String {
    let mut given = Given {
        flags: None,
        limit: NO_LIMIT,
    };
    let answers = text.lines().map(|line| answer(line, &mut given) + "\n");
    answers.collect()
}

/// What lines gave, for the records after them.
#[derive(Clone, Copy)]
struct Given {
    // The flags of known registers.
    flags: Option<u64>,
    limit: u32,
}

impl Given {
    /// The flags, or all.
    fn known(self) -> u64 {
        self.flags.unwrap_or(ALL_KNOWN)
    }

    /// The flags after a call, shown where a line gave some.
    fn shown(self, after: u64) -> String {
        match self.flags {
            Some(_) => format!("known {}", hex(&after.to_be_bytes())),
            None => String::new(),
        }
    }
}

/// The answer to a line; nothing to an empty one or a comment.
fn answer(line: &str, given: &mut Given) -> String {
    if line.is_empty() || line.starts_with('#') {
        return String::new();
    }
    let answered = Record::of(line).and_then(|record| answer_record(&record, given));
    answered.unwrap_or_else(|| NOT_A_RECORD.to_string())
}

/// The answer to a record, if it is of a kind.
fn answer_record(record: &Record, given: &mut Given) -> Option<String> {
    let lists = (record.has_first(), record.has_second());
    match (record.word, record.numbers.as_slice(), lists) {
        ("known", [], (_, false)) => known(record, given),
        ("limit", [limit], (false, false)) => {
            given.limit = unsigned(*limit);
            Some(verdict(0, 0))
        }
        ("plan", [address, settings @ ..], _) => plan(record, *given, *address, settings),
        ("why", [register, settings @ ..], (_, false)) => why(record, *given, *register, settings),
        ("caption", [address, numbers @ ..], (false, _)) => caption(record, *address, numbers),
        ("play", [used, own], _) => play(record, plain::play, *given, *used, *own),
        ("playcap", [used, own], _) => play(record, plain::play_captions, *given, *used, *own),
        ("readcap", [pair], (_, false)) => readcap(record, *given, *pair),
        ("read", [], (_, false)) => read(record, *given),
        ("plan7195", [address, settings @ ..], _) => {
            progressive::plan(record, unsigned(*address), &all_signed(settings))
        }
        ("play7195", [used, own], _) => progressive::play(record, unsigned(*used), unsigned(*own)),
        ("read7195", [], (_, false)) => progressive::read(record),
        ("house", [count], (false, false)) => house(*count),
        ("events", [own], _) => events(record, *given, *own),
        ("code", [field, setting], (false, false)) => codings::code(*field, signed(*setting)),
        ("setting", [field], (true, false)) => match record.first()?.as_slice() {
            [code] => codings::setting(*field, *code),
            _ => None,
        },
        _ => None,
    }
}

/// The nearest signed number of 32 bits.
fn signed(number: i64) -> i32 {
    number.clamp(i32::MIN.into(), i32::MAX.into()) as i32
}

/// The unsigned number of 32 bits, or the largest.
fn unsigned(number: i64) -> u32 {
    number.try_into().unwrap_or(u32::MAX)
}

/// What every answer begins with.
pub(crate) fn verdict(refusal: u32, field: u32) -> String {
    if refusal == 0 {
        return "ok".to_string();
    }
    format!("REFUSED {refusal} {field}")
}

/// A refusal, or `ok` and what is answered.
pub(crate) fn judged(answered: Result<String, Refusal>) -> String {
    match answered {
        Ok(answered) => format!("ok {answered}"),
        Err(refused) => verdict(refused.refusal, refused.field),
    }
}

/// Words with a space between them, empty ones left out.
pub(crate) fn joined(words: &[String]) -> String {
    let words: Vec<&str> = words
        .iter()
        .map(String::as_str)
        .filter(|word| !word.is_empty())
        .collect();
    words.join(" ")
}

/// The flags for the records after it: eight bytes, the highest first.
fn known(record: &Record, given: &mut Given) -> Option<String> {
    let bytes = record.first()?.try_into().ok()?;
    given.flags = Some(u64::from_be_bytes(bytes));
    Some(verdict(0, 0))
}

/// Settings or characters.
fn all_signed(numbers: &[i64]) -> Vec<i32> {
    numbers.iter().map(|&number| signed(number)).collect()
}

/// Planning.
fn plan(record: &Record, given: Given, address: i64, settings: &[i64]) -> Option<String> {
    let settings = all_signed(settings);
    let mut lent = record.second()?;
    let image = record.first()?;
    let (known, limit) = (given.known(), given.limit);
    let address = unsigned(address);
    let answer = plain::plan(&image, known, &settings, address, limit, &mut lent);
    Some(planned(answer, &lent))
}

/// Why a register is sent.
fn why(record: &Record, given: Given, register: i64, settings: &[i64]) -> Option<String> {
    let (settings, image) = (all_signed(settings), record.first()?);
    let (known, limit) = (given.known(), given.limit);
    let answer = plain::why(&image, known, &settings, limit, unsigned(register));
    Some(joined(&[
        verdict(answer.refusal, answer.field),
        answer.reason.to_string(),
        answer.first.to_string(),
        answer.second.to_string(),
    ]))
}

/// What planning answers, and the lent plan after it.
pub(crate) fn planned(answer: PlanAnswer, lent: &[u8]) -> String {
    joined(&[
        verdict(answer.refusal, answer.field),
        answer.length.to_string(),
        answer.transactions.to_string(),
        answer.bus_bytes.to_string(),
        hex(lent),
    ])
}

/// Planning captions: how many characters each pair has, and the characters of both.
fn caption(record: &Record, address: i64, numbers: &[i64]) -> Option<String> {
    let [extended, ordinary, characters @ ..] = numbers else {
        return None;
    };
    let counts = [*extended, *ordinary].map(|count| usize::try_from(count).ok());
    let [Some(extended @ ..=MOST_CHARACTERS), Some(ordinary @ ..=MOST_CHARACTERS)] = counts else {
        return None;
    };
    if characters.len() != extended + ordinary {
        return None;
    }
    let characters = all_signed(characters);
    let (extended, ordinary) = characters.split_at(extended);
    let mut lent = record.second()?;
    let answer = plain::plan_captions(extended, ordinary, unsigned(address), &mut lent);
    Some(planned(answer, &lent))
}

/// A player: it plays a plan, sent to the first address, on a chip with the second one.
type Player = fn(&mut [u8], u64, u32, u32, &[u8]) -> PlayAnswer;

/// Playing.
fn play(record: &Record, player: Player, given: Given, used: i64, own: i64) -> Option<String> {
    let mut image = record.first()?;
    let plan = record.second()?;
    let (used, own) = (unsigned(used), unsigned(own));
    let answer = player(&mut image, given.known(), used, own, &plan);
    Some(joined(&[
        verdict(answer.refusal, answer.field),
        answer.acknowledged.to_string(),
        hex(&image),
        given.shown(answer.known),
    ]))
}

/// Reading.
fn read(record: &Record, given: Given) -> Option<String> {
    let mut settings = [0; SETTINGS];
    let answer = plain::read(&record.first()?, given.known(), &mut settings);
    Some(joined(&[
        verdict(answer.refusal, answer.field),
        decimal(&settings),
    ]))
}

/// The house setting in so many lent settings.
fn house(count: i64) -> Option<String> {
    let count = usize::try_from(count).ok()?;
    if count > MOST_SETTINGS {
        return None;
    }
    let mut settings = vec![BEFORE; count];
    let answer = plain::put_house(&mut settings);
    Some(joined(&[
        verdict(answer.refusal, answer.field),
        decimal(&settings),
    ]))
}

/// Reading a pair of captions back.
fn readcap(record: &Record, given: Given, pair: i64) -> Option<String> {
    let answer = plain::read_captions(&record.first()?, given.known(), unsigned(pair));
    Some(joined(&[
        verdict(answer.refusal, answer.field),
        answer.first.to_string(),
        answer.second.to_string(),
    ]))
}

/// The chip at its events.
fn events(record: &Record, given: Given, own: i64) -> Option<String> {
    let registers = record.first()?.try_into().ok()?;
    let mut chip = Chip::fresh(own.try_into().ok()?, registers, given.known());
    let mut words = vec![verdict(0, 0)];
    for event in record.events()? {
        let (byte, acknowledge) = chip.step(event);
        let mark = match acknowledge {
            Acknowledge::Yes => '+',
            Acknowledge::No => '-',
            Acknowledge::NotAsked => '.',
        };
        words.push(format!("{byte:02X}{mark}"));
    }
    let phase = match chip.phase {
        Phase::Idle => 'I',
        Phase::Address => 'A',
        Phase::Subaddress => 'S',
        Phase::Data => 'D',
        Phase::Sending => 'T',
    };
    words.push(format!("{:02X}{phase}", chip.pointer));
    words.push(hex(&chip.registers));
    words.push(given.shown(chip.known));
    Some(joined(&words))
}
