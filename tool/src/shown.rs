//! Bytes and file names as they are shown to a person.

use std::ffi::OsStr;
use std::fmt::Write;

/// Bytes as text: printable ASCII as it is, every other byte as `\xHH`.
pub fn bytes(bytes: &[u8]) -> String {
    let mut out = String::new();
    for byte in bytes {
        match byte {
            b' '..=b'~' => out.push(char::from(*byte)),
            _ => {
                let _ = write!(out, "\\x{byte:02X}");
            }
        }
    }
    out
}

/// A file's name, with control characters as `\xHH`, and quotes where it is empty.
pub fn file(name: &OsStr) -> String {
    if name.is_empty() {
        return "''".to_string();
    }
    let mut out = String::new();
    for character in name.to_string_lossy().chars() {
        if character.is_control() {
            let _ = write!(out, "\\x{:02X}", u32::from(character));
        } else {
            out.push(character);
        }
    }
    out
}

/// A number with a comma between thousands.
pub fn thousands(number: u64) -> String {
    let digits = number.to_string();
    let mut out = String::new();
    for (index, digit) in digits.chars().enumerate() {
        if index > 0 && (digits.len() - index).is_multiple_of(3) {
            out.push(',');
        }
        out.push(digit);
    }
    out
}

/// So many of a thing, by its singular.
pub fn counted(number: u64, thing: &str) -> String {
    let plural = if number == 1 { "" } else { "s" };
    format!("{} {thing}{plural}", thousands(number))
}

#[cfg(test)]
mod tests {
    use super::*;

    #[test]
    fn bytes_outside_printable_ascii_are_spelled_out() {
        assert_eq!(bytes(b"rate \x00\x1F~\x7F\xC3"), "rate \\x00\\x1F~\\x7F\\xC3");
    }

    #[test]
    fn a_file_name_keeps_its_letters() {
        assert_eq!(file(OsStr::new("é\n.table")), "é\\x0A.table");
        assert_eq!(file(OsStr::new("")), "''");
    }

    #[test]
    fn thousands_have_commas() {
        assert_eq!(thousands(0), "0");
        assert_eq!(thousands(999), "999");
        assert_eq!(thousands(1_000), "1,000");
        assert_eq!(thousands(16_384), "16,384");
        assert_eq!(thousands(1_234_567), "1,234,567");
    }

    #[test]
    fn one_thing_is_singular() {
        assert_eq!(counted(0, "byte"), "0 bytes");
        assert_eq!(counted(1, "byte"), "1 byte");
        assert_eq!(counted(1_180, "byte"), "1,180 bytes");
    }
}
