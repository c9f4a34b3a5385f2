//! Writes the stored cases of `adv7194_run`, `board_compare`, `caption_plan`, `house_plan`, `house_why` and
//! `progressive_settings`.
//!
//! `cases DIRECTORY` writes into its folders of these names what is made, and what it must give; a
//! file that stands there beside them is left as it is, but for the text of an image of the house setting's
//! programs. `cases` alone answers the records of standard input.
#![forbid(unsafe_code)]

use std::io::{self, Read};
use std::path::Path;

fn main() -> io::Result<()> {
    if let Some(directory) = std::env::args().nth(1) {
        let directory = Path::new(&directory);
        records(&directory.join("adv7194_run"))?;
        pairs(&directory.join("board_compare"))?;
        for (name, input) in cases::inputs::INPUTS {
            put(&directory.join("caption_plan"), name, input)?;
        }
        for (name, image) in cases::house_images::images() {
            put(&directory.join("house_why"), name, &image)?;
        }
        for (name, image) in cases::progressive::images::images() {
            put(&directory.join("progressive_settings"), &name, &image)?;
        }
        texts(&directory.join("caption_plan"), plain::caption_listing)?;
        let settings = plain::progressive::progressive_settings;
        texts(&directory.join("progressive_settings"), settings)?;
        texts(&directory.join("house_why"), plain::house_why)?;
        return texts(&directory.join("house_plan"), plain::house_plan);
    }
    let mut text = String::new();
    io::stdin().read_to_string(&mut text)?;
    print!("{}", cases::answers(&text));
    Ok(())
}

/// Writes every file of records that is made, with its answers.
fn records(directory: &Path) -> io::Result<()> {
    for (name, records) in cases::make::files() {
        let answers = cases::answers(&records);
        std::fs::write(directory.join(name).with_extension("in"), records)?;
        std::fs::write(directory.join(name).with_extension("out"), answers)?;
    }
    Ok(())
}

/// Writes an input of a program.
fn put(directory: &Path, name: &str, input: &[u8]) -> io::Result<()> {
    std::fs::write(directory.join(name).with_extension("in"), input)
}

/// Writes the text of every input in a folder.
fn texts(directory: &Path, text: fn(&[u8]) -> String) -> io::Result<()> {
    for path in cases::inputs::stored(directory)? {
        let input = std::fs::read(&path)?;
        std::fs::write(path.with_extension("out"), text(&input))?;
    }
    Ok(())
}

/// Writes every pair of images, with its text.
fn pairs(directory: &Path) -> io::Result<()> {
    for pair in cases::pairs::pairs() {
        let path = directory.join(&pair.name);
        let text = plain::side_by_side(&pair.a, &pair.b);
        std::fs::write(path.with_extension("a"), pair.a)?;
        std::fs::write(path.with_extension("b"), pair.b)?;
        std::fs::write(path.with_extension("out"), text)?;
    }
    Ok(())
}
