//! Inputs of the program `caption_plan`, by what they show, and those that are stored. The text of each is the plain
//! implementation's.

use std::io;
use std::path::{Path, PathBuf};

/// An input's name and its bytes.
pub const INPUTS: [(&str, &[u8]); 24] = [
    ("no_bytes", b""),
    ("byte_1", b"H"),
    ("ordinary_hi", b"HI"),
    ("ordinary_nulls", b"\0\0"),
    ("ordinary_last", b"\x7F\x7F"),
    ("ordinary_control", b"\x14\x2C"),
    ("ordinary_newline", b"H\n"),
    ("bytes_3", b"HI\n"),
    ("both_hi_there", b"HI, "),
    ("both_nulls", b"\0\0\0\0"),
    ("both_nulls_and_hi", b"\0\0HI"),
    ("both_hi_and_nulls", b"HI\0\0"),
    ("both_last", b"\x7F\x7F\x7F\x7F"),
    ("bytes_5", b"HI, U"),
    ("bytes_6", b"HI HI!"),
    ("bytes_54", &[0x20; 54]),
    ("bytes_5000", &[0x20; 5000]),
    ("ordinary_first_80", b"\x80I"),
    ("ordinary_second_80", b"H\x80"),
    ("ordinary_with_parity", b"\xC8\x49"),
    ("both_first_ff", b"\xFF\0HI"),
    ("both_second_80", b"\0\x80HI"),
    ("both_third_c8", b"\0\0\xC8I"),
    ("both_fourth_80", b"\0\0H\x80"),
];

/// The stored inputs of a folder.
pub fn stored(directory: &Path) -> io::Result<Vec<PathBuf>> {
    let mut paths = Vec::new();
    for entry in std::fs::read_dir(directory)? {
        let path = entry?.path();
        if path.extension().is_some_and(|end| end == "in") {
            paths.push(path);
        }
    }
    Ok(paths)
}
