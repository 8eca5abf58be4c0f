//! What a word of a data text reads as.

use crate::calendar::{days_in_month, Date};
use crate::durations;
use crate::numbers::{fixed_digits, integer};

/// `yyyy`, `yyyy-mm` or `yyyy-mm-dd`.
#[derive(Clone, Copy, Debug, PartialEq, Eq)]
pub enum PartialDate {
    Year,
    Month,
    Full(Date),
}

/// `hh`, `hh:mm` or `hh:mm:ss`; the zone is free and not kept.
#[derive(Clone, Copy, Debug, PartialEq, Eq)]
pub enum PartialTime {
    Hour,
    Minute,
    Second,
}

/// "it is good if it reads as at least one of: True or False; an integer; a date ...; a time ...",
/// and a duration is good too.
pub fn is_good(word: &[u8]) -> bool {
    boolean(word).is_some()
        || integer(word).is_some()
        || date(word).is_some()
        || time(word).is_some()
        || durations::word(word).is_some()
}

pub fn boolean(word: &[u8]) -> Option<bool> {
    match word {
        b"True" => Some(true),
        b"False" => Some(false),
        _ => None,
    }
}

pub fn date(word: &[u8]) -> Option<PartialDate> {
    match word.len() {
        4 => fixed_digits(word, 4).map(|_| PartialDate::Year),
        7 if word[4] == b'-' => {
            let year = fixed_digits(&word[..4], 4)?;
            let month = fixed_digits(&word[5..], 2)?;
            if days_in_month(year, month) > 0 {
                Some(PartialDate::Month)
            } else {
                None
            }
        }
        10 => Date::read(word).map(PartialDate::Full),
        _ => None,
    }
}

/// "Hours 00..23 (002: 24:00:00 nowhere), minutes and seconds 00..59."
pub fn time(word: &[u8]) -> Option<PartialTime> {
    two_digits(word, 23)?;
    let mut parts = PartialTime::Hour;
    let mut rest = &word[2..];
    if let Some(after) = sixty(rest) {
        (parts, rest) = (PartialTime::Minute, after);
        if let Some(after) = sixty(rest) {
            (parts, rest) = (PartialTime::Second, after);
        }
    }
    if rest.is_empty() || is_zone(rest) {
        Some(parts)
    } else {
        None
    }
}

/// The first two bytes as a number up to `most`.
fn two_digits(bytes: &[u8], most: u32) -> Option<u32> {
    fixed_digits(bytes.get(..2)?, 2).filter(|value| *value <= most)
}

/// What stands behind a `:` and two digits 00..59.
fn sixty(bytes: &[u8]) -> Option<&[u8]> {
    let digits = bytes.strip_prefix(b":")?;
    two_digits(digits, 59)?;
    digits.get(2..)
}

/// "Zone: `Z`, or sign and two digits, alone or with `:` and two more digits; hours to 13 after `+`,
/// to 12 after `-`, minutes 00..59; nought is never `-`."
fn is_zone(bytes: &[u8]) -> bool {
    match bytes {
        b"Z" => true,
        [b'+', offset @ ..] => zone_minutes(offset, 13).is_some(),
        [b'-', offset @ ..] => zone_minutes(offset, 12).is_some_and(|minutes| minutes > 0),
        _ => false,
    }
}

/// The offset in minutes, its sign left out.
fn zone_minutes(offset: &[u8], most_hours: u32) -> Option<u32> {
    let hours = two_digits(offset, most_hours)?;
    let rest = &offset[2..];
    if rest.is_empty() {
        return Some(hours * 60);
    }
    let minutes = two_digits(rest.strip_prefix(b":")?, 59)?;
    if rest.len() == 3 {
        Some(hours * 60 + minutes)
    } else {
        None
    }
}
