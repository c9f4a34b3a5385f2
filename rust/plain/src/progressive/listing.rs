//! The text that the settings of an image are shown by.

use super::fields::{Kind, TABLE};
use super::image_of;
use super::read::fields_of;
use crate::refusal::Refusal;
use crate::side_by_side::hex;

/// A line for each field, with its number, name and setting; or the refusal.
pub fn progressive_settings(image: &[u8]) -> String {
    lines(image).unwrap_or_else(|refused| {
        let Refusal { refusal, field } = refused;
        format!("REFUSED {refusal} {field}\n")
    })
}

/// The lines, with the refusal as an error.
fn lines(image: &[u8]) -> Result<String, Refusal> {
    let settings = fields_of(image_of(image)?)?;
    let mut left = &settings[..];
    let mut text = String::new();
    for (number, field) in (1..).zip(&TABLE) {
        let (own, others) = left.split_at(field.settings());
        left = others;
        let shown = match (field.kind, own) {
            (Kind::Curve, bytes) => hex(&bytes.iter().map(|&byte| byte as u8).collect::<Vec<_>>()),
            (_, [setting]) => setting.to_string(),
            _ => continue,
        };
        text += &format!("{number} {} {shown}\n", field.name);
    }
    Ok(text)
}
