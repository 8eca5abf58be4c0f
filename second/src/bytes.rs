//! Sorts of bytes, and the separators that both texts share.

/// Space, tab, CR and LF.
pub fn is_blank(byte: u8) -> bool {
    matches!(byte, b' ' | b'\t' | b'\r' | b'\n')
}

/// Letters, digits and `_`: what follows the first letter of a TYPE or NAME.
pub fn is_identifier(byte: u8) -> bool {
    byte.is_ascii_alphanumeric() || byte == b'_'
}

/// "letters, digits, `_ + - . :`": the bytes of a run in data text.
pub fn is_run(byte: u8) -> bool {
    is_identifier(byte) || matches!(byte, b'+' | b'-' | b'.' | b':')
}

/// "bytes 20 to 7E hex except `"` and `\`": what stands between the quotes of a string.
pub fn is_string(byte: u8) -> bool {
    (0x20..=0x7E).contains(&byte) && byte != b'"' && byte != b'\\'
}

/// How many bytes at the front are of a sort.
pub fn count_while(bytes: &[u8], sort: fn(u8) -> bool) -> usize {
    bytes.iter().take_while(|byte| sort(**byte)).count()
}

/// The place of the first byte at or behind `place` that isn't in a blank or a comment.
/// "space, tab, CR, LF and `--` with any bytes up to the next CR or LF separate"
pub fn skip_separators(text: &[u8], mut place: usize) -> usize {
    loop {
        let rest = text.get(place..).unwrap_or(&[]);
        if rest.first().is_some_and(|byte| is_blank(*byte)) {
            place += 1;
        } else if rest.starts_with(b"--") {
            place += count_while(rest, |byte| byte != b'\r' && byte != b'\n');
        } else {
            return place;
        }
    }
}

/// The length of the string token that the bytes open with, its quotes counted.
pub fn string_length(rest: &[u8]) -> Option<usize> {
    if rest.first() != Some(&b'"') {
        return None;
    }
    let inner = count_while(&rest[1..], is_string);
    if rest.get(1 + inner) == Some(&b'"') {
        Some(inner + 2)
    } else {
        None
    }
}

/// "TYPE: capital, then letters, digits, `_`; `True` and `False` aren't TYPEs."
pub fn is_type(bytes: &[u8]) -> bool {
    is_spelled(bytes, |byte| byte.is_ascii_uppercase()) && bytes != b"True" && bytes != b"False"
}

/// "NAME: small letter, then the same; the keywords aren't NAMEs."
pub fn is_name(bytes: &[u8]) -> bool {
    is_spelled(bytes, |byte| byte.is_ascii_lowercase()) && bytes != b"matches" && bytes != b"existence"
}

fn is_spelled(bytes: &[u8], first: fn(u8) -> bool) -> bool {
    match bytes.split_first() {
        Some((head, tail)) => first(*head) && tail.iter().all(|byte| is_identifier(*byte)),
        None => false,
    }
}
