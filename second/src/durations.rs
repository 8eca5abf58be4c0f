//! Durations: the patterns with their flags, and the slots that a word fills.

/// The letters before a `T`; bits 0 to 3 of a flag.
const DAYS: &[u8] = b"ymwd";
/// The letters behind a `T`; bits 4 to 6 of a flag.
const TIMES: &[u8] = b"hms";

/// How a slot of one letter is read: the bytes behind it, if the bytes open with it.
type Slot = fn(&[u8], u8) -> Option<&[u8]>;

/// The flag of the pattern that the bytes are: "P, then any of small y m w d in that order, then optionally
/// T and any of small h m s in that order, at least one letter in all and at least one behind a T".
pub fn pattern(spelling: &[u8]) -> Option<u8> {
    filled(spelling, letter)
}

/// The slots that a word fills, as a flag: "an optional `-`, P and slots in that order, each one to four
/// digits and its letter in either case, at least one slot, T only with a slot behind it".
pub fn word(word: &[u8]) -> Option<u8> {
    filled(word.strip_prefix(b"-").unwrap_or(word), digits_and_letter)
}

/// "A value is admitted when each slot it fills is in the pattern."
pub fn admits(pattern: u8, filled: u8) -> bool {
    filled & !pattern == 0
}

/// `P` and slots, the flag of those that are there; nothing if there is none or something else stands there.
fn filled(bytes: &[u8], slot: Slot) -> Option<u8> {
    let (days, mut rest) = slots(bytes.strip_prefix(b"P")?, DAYS, slot);
    let mut times = 0;
    if let Some(behind) = rest.strip_prefix(b"T") {
        (times, rest) = slots(behind, TIMES, slot);
        if times == 0 {
            return None;
        }
    }
    let flag = days | times << DAYS.len();
    if rest.is_empty() && flag != 0 {
        Some(flag)
    } else {
        None
    }
}

/// Any of the slots in the order of their letters, one bit to each that is there, and the bytes behind them.
fn slots<'b>(mut bytes: &'b [u8], letters: &[u8], slot: Slot) -> (u8, &'b [u8]) {
    let mut flag = 0;
    for (bit, letter) in letters.iter().enumerate() {
        if let Some(behind) = slot(bytes, *letter) {
            flag |= 1 << bit;
            bytes = behind;
        }
    }
    (flag, bytes)
}

/// A pattern's slot is the small letter alone.
fn letter(bytes: &[u8], letter: u8) -> Option<&[u8]> {
    bytes.strip_prefix(&[letter])
}

/// A word's slot is one to four digits and the letter, small or capital.
fn digits_and_letter(bytes: &[u8], letter: u8) -> Option<&[u8]> {
    let digits = bytes.iter().take_while(|byte| byte.is_ascii_digit()).count();
    let (last, behind) = bytes[digits..].split_first()?;
    if (1..=4).contains(&digits) && last.to_ascii_lowercase() == letter {
        Some(behind)
    } else {
        None
    }
}
