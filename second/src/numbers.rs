//! Integers as they are spelled in both texts.

/// "An integer is spelled without needless zeros, isn't `-0`, and lies in -2,147,483,648..2,147,483,647."
/// Anything else than an optional `-` and digits reads as no integer either.
pub fn integer(spelling: &[u8]) -> Option<i32> {
    let (negative, digits) = match spelling.split_first() {
        Some((b'-', digits)) => (true, digits),
        _ => (false, spelling),
    };
    if digits.is_empty() || digits.len() > 10 || !digits.iter().all(u8::is_ascii_digit) {
        return None;
    }
    if digits[0] == b'0' && (digits.len() > 1 || negative) {
        return None;
    }
    let size = unsigned(digits) as i64;
    i32::try_from(if negative { -size } else { size }).ok()
}

/// The value of a few digits (at most ten of them).
pub fn unsigned(digits: &[u8]) -> u64 {
    digits.iter().fold(0, |value, digit| value * 10 + u64::from(digit - b'0'))
}

/// The value of exactly `count` digits, if the bytes are that.
pub fn fixed_digits(bytes: &[u8], count: usize) -> Option<u32> {
    if bytes.len() == count && bytes.iter().all(u8::is_ascii_digit) {
        Some(unsigned(bytes) as u32)
    } else {
        None
    }
}
