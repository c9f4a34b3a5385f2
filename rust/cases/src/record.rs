//! A record taken apart.

use plain::chip::Event;

/// The most bytes of a list.
const MOST_BYTES: usize = 64;

/// A record: its word, its numbers and its lists.
pub struct Record<'a> {
    /// The operation.
    pub word: &'a str,
    /// Decimal numbers.
    pub numbers: Vec<i64>,
    first: Option<&'a str>,
    second: Option<&'a str>,
}

impl<'a> Record<'a> {
    /// Takes a line apart; nothing where a number isn't one.
    pub fn of(line: &'a str) -> Option<Record<'a>> {
        let (line, second) = split(line, ';');
        let (head, first) = split(line, ':');
        let mut tokens = head.split(' ');
        let word = tokens.next()?;
        let numbers = tokens.map(number).collect::<Option<_>>()?;
        Some(Record {
            word,
            numbers,
            first,
            second,
        })
    }

    /// Whether there is a first list.
    pub fn has_first(&self) -> bool {
        self.first.is_some()
    }

    /// Whether there is a second list.
    pub fn has_second(&self) -> bool {
        self.second.is_some()
    }

    /// The bytes of the first list.
    pub fn first(&self) -> Option<Vec<u8>> {
        bytes(self.first)
    }

    /// The bytes of the second list.
    pub fn second(&self) -> Option<Vec<u8>> {
        bytes(self.second)
    }

    /// The events of the second list.
    pub fn events(&self) -> Option<Vec<Event>> {
        let tokens = self.second.into_iter().flat_map(|list| list.split(' '));
        tokens.map(event).collect()
    }
}

/// What stands before a mark, and after it.
fn split(text: &str, mark: char) -> (&str, Option<&str>) {
    match text.split_once(mark) {
        Some((before, after)) => (before, Some(after)),
        None => (text, None),
    }
}

/// A decimal number; only its last digit may be past 32 bits.
fn number(token: &str) -> Option<i64> {
    let number: i64 = token.parse().ok()?;
    let long = number / 10 > u32::MAX.into() || number / 10 < -i64::from(u32::MAX);
    (!long && !token.starts_with('+')).then_some(number)
}

/// A byte of two capital hexadecimal digits.
fn byte(token: &str) -> Option<u8> {
    let digits = token
        .bytes()
        .all(|b| matches!(b, b'0'..=b'9' | b'A'..=b'F'));
    if !digits || token.len() != 2 {
        return None;
    }
    u8::from_str_radix(token, 16).ok()
}

/// The bytes of a list; none where there is no list.
fn bytes(list: Option<&str>) -> Option<Vec<u8>> {
    let tokens = list.into_iter().flat_map(|list| list.split(' '));
    let bytes: Vec<u8> = tokens.map(byte).collect::<Option<_>>()?;
    (bytes.len() <= MOST_BYTES).then_some(bytes)
}

/// An event by its letter, or a byte from the master.
fn event(token: &str) -> Option<Event> {
    match token {
        "S" => Some(Event::Start),
        "P" => Some(Event::Stop),
        "R" => Some(Event::ToMaster { acknowledged: true }),
        "N" => Some(Event::ToMaster {
            acknowledged: false,
        }),
        _ => byte(token).map(Event::FromMaster),
    }
}
