//! Date and time patterns: their spelling, their flags and what they admit.

use crate::words::{PartialDate, PartialTime};

/// The date patterns; flag 1 to 5 as listed.
pub const DATE: [&[u8]; 5] = [b"yyyy-mm-dd", b"yyyy-mm-??", b"yyyy-??-??", b"yyyy-mm-XX", b"yyyy-??-XX"];
/// The time patterns; flag 1 to 4 as listed.
pub const TIME: [&[u8]; 4] = [b"Thh:mm:ss", b"Thh:mm:XX", b"Thh:??:XX", b"Thh:??:??"];

/// The flag of the pattern that the bytes open with.
pub fn flag_at_front(patterns: &[&[u8]], rest: &[u8]) -> Option<u8> {
    patterns.iter().position(|pattern| rest.starts_with(pattern)).map(|index| index as u8 + 1)
}

/// "lettered parts must be there, `??` may, `XX` may not"
fn part_fits(part: &[u8], present: bool) -> bool {
    match part {
        b"??" => true,
        b"XX" => !present,
        _ => present,
    }
}

/// Whether the date pattern with this flag admits the date.
pub fn admits_date(flag: u8, date: PartialDate) -> bool {
    let Some(pattern) = DATE.get(usize::from(flag).wrapping_sub(1)) else {
        return false;
    };
    let month = !matches!(date, PartialDate::Year);
    let day = matches!(date, PartialDate::Full(_));
    part_fits(&pattern[5..7], month) && part_fits(&pattern[8..10], day)
}

/// Whether the time pattern with this flag admits the time.
pub fn admits_time(flag: u8, time: PartialTime) -> bool {
    let Some(pattern) = TIME.get(usize::from(flag).wrapping_sub(1)) else {
        return false;
    };
    let minute = !matches!(time, PartialTime::Hour);
    let second = matches!(time, PartialTime::Second);
    part_fits(&pattern[4..6], minute) && part_fits(&pattern[7..9], second)
}
