//! The tokens of a constraint text, by longest match.

use crate::bytes::{count_while, is_identifier, skip_separators, string_length};
use crate::durations;
use crate::patterns;

/// The kinds of token; the text end is a token too.
#[derive(Clone, Copy, Debug, PartialEq, Eq)]
pub enum Kind {
    OpenBrace,
    CloseBrace,
    Comma,
    Star,
    Bar,
    Ellipsis,
    Less,
    Greater,
    LessEqual,
    GreaterEqual,
    PlusMinus,
    Type,
    Name,
    Matches,
    Existence,
    Boolean(bool),
    Code,
    Integer,
    Date,
    String,
    DatePattern(u8),
    TimePattern(u8),
    /// Never by longest match, only where a value may stand.
    DurationPattern(u8),
    End,
    Unreadable,
}

/// A token and the bytes it takes.
#[derive(Clone, Copy, Debug)]
pub struct Token {
    pub kind: Kind,
    pub start: usize,
    pub end: usize,
}

impl Token {
    /// The bytes of the token.
    pub fn spelling<'t>(&self, text: &'t [u8]) -> &'t [u8] {
        &text[self.start..self.end]
    }

    /// The bytes of a string or code without its quotes or brackets.
    pub fn inner<'t>(&self, text: &'t [u8]) -> &'t [u8] {
        &text[self.start + 1..self.end - 1]
    }
}

/// The first token at or behind `place`, separators left out.
pub fn token_at(text: &[u8], place: usize) -> Token {
    let start = skip_separators(text, place);
    let rest = &text[start..];
    let (kind, length) = if rest.is_empty() { (Kind::End, 0) } else { longest(rest) };
    Token { kind, start, end: start + length }
}

/// The token where an attribute's value may stand: "a token such as Pd, a TYPE too, is the pattern exactly
/// when `}` follows", every other one is what it is elsewhere.
pub fn value_token_at(text: &[u8], place: usize) -> Token {
    let token = token_at(text, place);
    match durations::pattern(token.spelling(text)) {
        Some(flag) if token_at(text, token.end).kind == Kind::CloseBrace => {
            Token { kind: Kind::DurationPattern(flag), ..token }
        }
        _ => token,
    }
}

/// "Tokens by longest match": every rule is tried and the longest match taken.
fn longest(rest: &[u8]) -> (Kind, usize) {
    let rules = [mark, identifier, matches_sign, code, integer, date, string, date_pattern, time_pattern];
    let mut best = (Kind::Unreadable, 0);
    for rule in rules {
        if let Some(found) = rule(rest) {
            if found.1 > best.1 {
                best = found;
            }
        }
    }
    if best.1 == 0 {
        (Kind::Unreadable, 1)
    } else {
        best
    }
}

/// The marks, the longer of two with the same beginning first.
fn mark(rest: &[u8]) -> Option<(Kind, usize)> {
    Some(match rest {
        [b'{', ..] => (Kind::OpenBrace, 1),
        [b'}', ..] => (Kind::CloseBrace, 1),
        [b',', ..] => (Kind::Comma, 1),
        [b'*', ..] => (Kind::Star, 1),
        [b'|', ..] => (Kind::Bar, 1),
        [b'.', b'.', ..] => (Kind::Ellipsis, 2),
        [b'<', b'=', ..] => (Kind::LessEqual, 2),
        [b'<', ..] => (Kind::Less, 1),
        [b'>', b'=', ..] => (Kind::GreaterEqual, 2),
        [b'>', ..] => (Kind::Greater, 1),
        [b'+', b'/', b'-', ..] => (Kind::PlusMinus, 3),
        _ => return None,
    })
}

/// TYPE, NAME, the spelled keywords, and the two Booleans.
fn identifier(rest: &[u8]) -> Option<(Kind, usize)> {
    if !rest[0].is_ascii_alphabetic() {
        return None;
    }
    let length = count_while(rest, is_identifier);
    let kind = match &rest[..length] {
        b"True" => Kind::Boolean(true),
        b"False" => Kind::Boolean(false),
        b"matches" => Kind::Matches,
        b"existence" => Kind::Existence,
        _ if rest[0].is_ascii_uppercase() => Kind::Type,
        _ => Kind::Name,
    };
    Some((kind, length))
}

/// "the bytes E2 88 88, ∈"
fn matches_sign(rest: &[u8]) -> Option<(Kind, usize)> {
    if rest.starts_with(&[0xE2, 0x88, 0x88]) {
        Some((Kind::Matches, 3))
    } else {
        None
    }
}

/// "code: `at`, digits, then any number of dot and digits; one token with its `[ ]`, no blank inside"
fn code(rest: &[u8]) -> Option<(Kind, usize)> {
    if !rest.starts_with(b"[at") {
        return None;
    }
    let mut length = 3 + digits_at(rest, 3)?;
    while rest.get(length) == Some(&b'.') {
        length += 1 + digits_at(rest, length + 1)?;
    }
    if rest.get(length) == Some(&b']') {
        Some((Kind::Code, length + 1))
    } else {
        None
    }
}

/// How many digits stand at a place; nothing if none do.
fn digits_at(rest: &[u8], place: usize) -> Option<usize> {
    let count = count_while(rest.get(place..)?, |byte| byte.is_ascii_digit());
    if count > 0 {
        Some(count)
    } else {
        None
    }
}

/// "integer: optional `-` and digits"
fn integer(rest: &[u8]) -> Option<(Kind, usize)> {
    let sign = usize::from(rest[0] == b'-');
    digits_at(rest, sign).map(|digits| (Kind::Integer, sign + digits))
}

/// "date: four digits, `-`, two, `-`, two"
fn date(rest: &[u8]) -> Option<(Kind, usize)> {
    let shape = b"dddd-dd-dd";
    let front = rest.get(..shape.len())?;
    let fits = front.iter().zip(shape).all(|(byte, sort)| match sort {
        b'd' => byte.is_ascii_digit(),
        _ => byte == sort,
    });
    if fits {
        Some((Kind::Date, shape.len()))
    } else {
        None
    }
}

fn string(rest: &[u8]) -> Option<(Kind, usize)> {
    string_length(rest).map(|length| (Kind::String, length))
}

fn date_pattern(rest: &[u8]) -> Option<(Kind, usize)> {
    let flag = patterns::flag_at_front(&patterns::DATE, rest)?;
    Some((Kind::DatePattern(flag), patterns::DATE[0].len()))
}

fn time_pattern(rest: &[u8]) -> Option<(Kind, usize)> {
    let flag = patterns::flag_at_front(&patterns::TIME, rest)?;
    Some((Kind::TimePattern(flag), patterns::TIME[0].len()))
}
