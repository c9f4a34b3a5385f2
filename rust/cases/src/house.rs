//! Records of the house setting.

use crate::answer::MOST_SETTINGS;
use crate::plans::{house, plan, wanted, with, ADDRESS};
use plain::fields as at;
use plain::registers as reg;

/// Room for a plan of one byte, and one more.
const ROOM: usize = 5;
/// Lines that are no record: too many numbers, none, or lists.
const NONE: [&str; 9] = [
    "house 65",
    "house -1",
    "house 4294967345",
    "house",
    "house 49 49",
    "house 49:00",
    "house 49;00",
    "house:49",
    "House 49",
];

/// The house setting in every count of lent numbers; planned where only its pedestal is wrong.
pub fn records() -> Vec<String> {
    let mut lines = vec!["# Every count of lent numbers.".to_string()];
    lines.extend((0..=MOST_SETTINGS).map(|count| format!("house {count}")));
    lines.push("# Lines that are no record.".to_string());
    lines.extend(NONE.map(str::to_string));
    lines.push(
        "# Document 02, P8: planned over an image that is right, and right but for 02 at 08."
            .to_string(),
    );
    let image = wanted(&house(), 0x00);
    let mut on = image;
    on[reg::MODE_2] = reg::PEDESTAL_BIT;
    lines.extend([image, on].map(|image| plan(&image, &house(), ADDRESS, ROOM)));
    lines.push("# The same with the pedestal on.".to_string());
    let settings = with(house(), &[(at::PEDESTAL, 1)]);
    lines.extend([image, on].map(|image| plan(&image, &settings, ADDRESS, ROOM)));
    lines
}
