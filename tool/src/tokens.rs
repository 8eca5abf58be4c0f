//! What stands at a place of a text: as much of the tokens of document 01 as the words for a refusal need.

/// Whether a token of constraint text can be read at a place.
pub fn constraint_token(text: &[u8], place: usize) -> bool {
    let rest = text.get(place..).unwrap_or(&[]);
    let second = rest.get(1).copied();
    match rest.first() {
        Some(b'{' | b'}' | b',' | b'*' | b'|' | b'<' | b'>') => true,
        Some(byte) if byte.is_ascii_alphanumeric() => true,
        Some(b'-') => second.is_some_and(|byte| byte.is_ascii_digit()),
        Some(b'.') => second == Some(b'.'),
        Some(b'+') => rest.starts_with(b"+/-"),
        Some(0xE2) => rest.starts_with("∈".as_bytes()),
        Some(b'"') => string(rest).is_some(),
        Some(b'[') => code(rest),
        _ => false,
    }
}

/// Whether a token of data text can be read at a place.
pub fn data_token(text: &[u8], place: usize) -> bool {
    let rest = text.get(place..).unwrap_or(&[]);
    match rest.first() {
        Some(b'(' | b')' | b'<' | b'>' | b'=') => true,
        Some(b'"') => string(rest).is_some(),
        Some(byte) if in_run(*byte) => !follows_bracket(text, place) && (!byte.is_ascii_lowercase() || name(run(rest))),
        _ => false,
    }
}

/// What a `<` of a good data text opens.
#[derive(Clone, Copy, Debug, PartialEq, Eq)]
pub enum Opened {
    Block,
    Text,
    Word,
}

/// What the `<` at a place opens. (Behind a block's `<` stands a name or a `>`.)
pub fn opened(data: &[u8], place: usize) -> Opened {
    match data.get(skip(data, place + 1)) {
        Some(b'"') => Opened::Text,
        Some(byte) if in_run(*byte) && !byte.is_ascii_lowercase() => Opened::Word,
        _ => Opened::Block,
    }
}

/// The length of a whole string with its quotes.
fn string(rest: &[u8]) -> Option<usize> {
    let inside = rest.get(1..)?;
    let end = inside.iter().position(|byte| !matches!(byte, b' '..=b'~') || matches!(byte, b'"' | b'\\'))?;
    (inside.get(end) == Some(&b'"')).then_some(end + 2)
}

/// Whether a whole code with its brackets stands first.
fn code(rest: &[u8]) -> bool {
    let Some(inside) = rest.strip_prefix(b"[at") else { return false };
    let Some(end) = inside.iter().position(|byte| *byte == b']') else { return false };
    inside[..end].split(|byte| *byte == b'.').all(|group| !group.is_empty() && group.iter().all(u8::is_ascii_digit))
}

/// Whether a byte belongs to a run of a data text.
fn in_run(byte: u8) -> bool {
    byte.is_ascii_alphanumeric() || matches!(byte, b'_' | b'+' | b'-' | b'.' | b':')
}

/// The longest run that stands first.
fn run(rest: &[u8]) -> &[u8] {
    let end = rest.iter().position(|byte| !in_run(*byte)).unwrap_or(rest.len());
    &rest[..end]
}

/// Whether a run that opens with a small letter is a name.
fn name(run: &[u8]) -> bool {
    run.iter().all(|byte| byte.is_ascii_alphanumeric() || *byte == b'_') && run != b"matches" && run != b"existence"
}

/// Whether the token before a place of a data text is a `(`.
fn follows_bracket(text: &[u8], place: usize) -> bool {
    let mut before = None;
    let mut at = skip(text, 0);
    while at < place {
        before = text.get(at);
        at = skip(text, at + data_length(&text[at..]));
    }
    before == Some(&b'(')
}

/// The length of the token that stands first; 1 where none can be read.
fn data_length(rest: &[u8]) -> usize {
    match rest.first() {
        Some(b'"') => string(rest).unwrap_or(1),
        _ => run(rest).len().max(1),
    }
}

/// The next place that isn't in a blank or a comment, or the text's end.
fn skip(text: &[u8], from: usize) -> usize {
    let mut at = from;
    while let Some(byte) = text.get(at) {
        match byte {
            b' ' | b'\t' | b'\r' | b'\n' => at += 1,
            b'-' if text.get(at + 1) == Some(&b'-') => {
                while !matches!(text.get(at), None | Some(b'\r' | b'\n')) {
                    at += 1;
                }
            }
            _ => return at,
        }
    }
    text.len()
}

#[cfg(test)]
mod tests {
    use super::*;

    #[test]
    fn tokens_of_constraint_text() {
        for good in ["{", "..", "+/-", "-5", "5", "A", "a", "∈", "\"a b\"", "\"\"", "[at1.2]", "<=", "|"] {
            assert!(constraint_token(good.as_bytes(), 0), "{good}");
        }
        for bad in
            ["", ".", "+", "-", "/", "=", "?", "\"a", "\"a\\\"", "\"a\n\"", "[at]", "[at1.]", "[ac1]", "[at1", "\u{e9}"]
        {
            assert!(!constraint_token(bad.as_bytes(), 0), "{bad}");
        }
        assert!(!constraint_token(&[0xE2, 0x88], 0));
    }

    #[test]
    fn tokens_of_data_text() {
        for good in ["<", "=", "5", "B", "abc_1", "\"a\"", "_x"] {
            assert!(data_token(good.as_bytes(), 0), "{good}");
        }
        for bad in ["", "a-b", "matches", "existence", "\"a", "{", "[", "?"] {
            assert!(!data_token(bad.as_bytes(), 0), "{bad}");
        }
    }

    #[test]
    fn a_run_behind_a_bracket_that_is_refused_is_unreadable() {
        assert!(!data_token(b"(True)<>", 1));
        assert!(!data_token(b"<a = <\"(\"> --(\n b = ( T-x)<>>", 22));
        assert!(data_token(b"(T)5", 3));
        assert!(data_token(b"<a = <\"(\"> 5>", 11));
    }

    #[test]
    fn what_is_opened() {
        assert_eq!(opened(b"<a = <5>>", 0), Opened::Block);
        assert_eq!(opened(b"<a = <5>>", 5), Opened::Word);
        assert_eq!(opened(b"<a = < --c\n \"x\">>", 5), Opened::Text);
        assert_eq!(opened(b"<>", 0), Opened::Block);
        assert_eq!(opened(b"<-5>", 0), Opened::Word);
    }
}
