//! Records of planning for the ADV7195 with settings at the ends of their ranges.

use super::plans::{planned, MOST_ROOM, ROOM};
use super::{settings_of, with, Numbers};
use crate::limits::comment;
use plain::progressive::fields::{first_setting, Field, Kind, TABLE};
use plain::progressive::published::power_up;

/// Faults of two fields at once: the first is given.
const TOGETHER: [[(usize, i32); 2]; 9] = [
    [(1, 3), (2, 3)],
    [(1, 4), (2, 3)],
    [(2, 3), (3, 2)],
    [(2, 3), (14, 5)],
    [(14, 5), (15, 5)],
    [(14, 5), (1, 3)],
    [(24, 2), (38, 256)],
    [(38, -1), (41, 1_048_576)],
    [(41, -1), (52, 256)],
];

/// Every setting at the ends of its range, and faults of two at once.
pub fn ranges() -> Vec<String> {
    let settings = settings_of(&power_up());
    let mut lines = Vec::new();
    for (number, field) in (1..).zip(TABLE) {
        if field.settings() > 0 {
            lines.push(comment(&format!("{number}, {}.", field.name)));
        }
        for place in 0..field.settings() {
            let index = first_setting(number) + place;
            lines.extend(
                tried(&field)
                    .iter()
                    .map(|&setting| one(settings, index, setting)),
            );
        }
    }
    lines.push(comment("Two faults at once: the first is given."));
    for faults in TOGETHER {
        lines.push(planned(&power_up(), &with(settings, &faults), ROOM));
    }
    let last = [(41, 1_048_575), (52, 255)];
    lines.push(comment("The first fault before the room."));
    lines.push(planned(&power_up(), &with(settings, &TOGETHER[0]), 0));
    lines.push(planned(&power_up(), &with(settings, &last), 0));
    lines.push(planned(&power_up(), &with(settings, &last), MOST_ROOM));
    lines
}

/// A record with one setting changed.
fn one(mut settings: Numbers, index: usize, setting: i32) -> String {
    settings[index] = setting;
    planned(&power_up(), &settings, ROOM)
}

/// The settings of a field that are tried: its range's ends and beyond, reserved codes, all delays.
fn tried(field: &Field) -> Vec<i32> {
    let last = (1 << field.place.bits) - 1;
    match field.kind {
        Kind::Curve => vec![-1, last, last + 1],
        Kind::Delay | Kind::LastReserved => {
            let ends = [i32::MIN, i32::MAX];
            (-1..=last + 1).chain(ends).collect()
        }
        _ => vec![i32::MIN, -1, 0, last, last + 1, i32::MAX],
    }
}
