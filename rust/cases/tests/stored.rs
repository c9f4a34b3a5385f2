//! The stored cases are those that are made, and every stored answer is the plain implementation's.

use cases::inputs::stored;
use std::fs;
use std::path::PathBuf;

/// The program that answers records.
const RECORDS: &str = "adv7194_run";
/// The program that compares pairs of images.
const PAIRS: &str = "board_compare";
/// The programs that answer one input by a text: the text, and whether every input is made.
const TEXTS: [(&str, Text, bool); 4] = [
    ("caption_plan", plain::caption_listing, true),
    ("house_plan", plain::house_plan, false),
    ("house_why", plain::house_why, true),
    (
        "progressive_settings",
        plain::progressive::progressive_settings,
        true,
    ),
];

/// What an input must give.
type Text = fn(&[u8]) -> String;

/// Where a program's cases are stored.
fn directory(program: &str) -> PathBuf {
    PathBuf::from(concat!(env!("CARGO_MANIFEST_DIR"), "/../../cases")).join(program)
}

/// The first line in which two texts differ.
fn first_difference(stored: &str, expected: &str) -> Option<String> {
    let (mut left, mut right) = (stored.lines(), expected.lines());
    for line in 1.. {
        match (left.next(), right.next()) {
            (None, None) => return None,
            (a, b) if a == b => {}
            (a, b) => return Some(format!("line {line}: {a:?}, expected {b:?}")),
        }
    }
    None
}

#[test]
fn records_are_as_made() {
    for (name, records) in cases::make::files() {
        let stored = fs::read_to_string(directory(RECORDS).join(name).with_extension("in"));
        let stored = stored.expect("a stored file");
        assert_eq!(first_difference(&stored, &records), None, "{name}.in");
    }
}

#[test]
fn answers_are_the_plain_implementations() {
    let mut files = 0;
    for path in stored(&directory(RECORDS)).expect("the stored cases") {
        let records = fs::read_to_string(&path).expect("records");
        let stored = fs::read_to_string(path.with_extension("out")).expect("answers");
        let expected = cases::answers(&records);
        assert_eq!(first_difference(&stored, &expected), None, "{path:?}");
        files += 1;
    }
    assert!(
        files > cases::make::files().len(),
        "the written file is missing"
    );
}

#[test]
fn pairs_and_their_texts_are_as_made() {
    let directory = directory(PAIRS);
    let pairs = cases::pairs::pairs();
    for pair in &pairs {
        let path = directory.join(&pair.name);
        let stored = |end: &str| fs::read(path.with_extension(end)).expect("a stored file");
        assert!(stored("a") == pair.a, "{}.a", pair.name);
        assert!(stored("b") == pair.b, "{}.b", pair.name);
        let text = plain::side_by_side(&pair.a, &pair.b);
        let stored = String::from_utf8(stored("out")).expect("a text");
        assert_eq!(first_difference(&stored, &text), None, "{}.out", pair.name);
    }
    // three files for each, and what says what they are
    let files = fs::read_dir(&directory).expect("the stored cases").count();
    assert_eq!(files, 3 * pairs.len() + 1, "files that aren't made");
}

#[test]
fn inputs_are_as_made() {
    let held = |program: &str, name: &str, input: &[u8]| {
        let path = directory(program).join(name).with_extension("in");
        assert!(fs::read(path).expect("a stored file") == input, "{name}.in");
    };
    for (name, input) in cases::inputs::INPUTS {
        held("caption_plan", name, input);
    }
    for (name, image) in cases::house_images::images() {
        held("house_why", name, &image);
    }
    for (name, image) in cases::progressive::images::images() {
        held("progressive_settings", &name, &image);
    }
}

#[test]
fn texts_are_the_plain_implementations() {
    let made = cases::inputs::INPUTS.len()
        + cases::house_images::images().len()
        + cases::progressive::images::images().len();
    let mut files = 0;
    for (program, text, all_made) in TEXTS {
        let inputs = stored(&directory(program)).expect("the stored cases");
        for path in &inputs {
            let input = fs::read(path).expect("an input");
            let stored = fs::read_to_string(path.with_extension("out")).expect("a text");
            assert_eq!(first_difference(&stored, &text(&input)), None, "{path:?}");
        }
        files += if all_made { inputs.len() } else { 0 };
    }
    assert_eq!(files, made, "inputs that aren't made");
}

#[test]
fn each_field_differs_alone_in_a_pair() {
    let mut alone = 0;
    for pair in cases::pairs::pairs() {
        let answer = plain::compare(&pair.a, &pair.b);
        if answer.registers == 0 && answer.fields.count_ones() == 1 {
            alone |= answer.fields;
        }
    }
    assert_eq!(alone, (1 << (plain::LAST_FIELD + 1)) - 2);
}
