//! A text as a row of tokens, and how they are put together with blanks and comments.

use super::random::Random;

/// A row of tokens, all bytes in one piece.
#[derive(Clone, Debug, Default)]
pub struct Tokens {
    bytes: Vec<u8>,
    ends: Vec<usize>,
}

/// How the tokens are set apart.
#[derive(Clone, Copy, Debug, PartialEq, Eq)]
pub enum Style {
    /// A blank only where two tokens would run together.
    Tight,
    /// One space between any two tokens.
    Spaced,
    /// Blanks of every sort and comments, now and then.
    Loose,
}

impl Tokens {
    pub fn new() -> Tokens {
        Tokens::default()
    }

    pub fn push(&mut self, token: &[u8]) {
        self.bytes.extend_from_slice(token);
        self.ends.push(self.bytes.len());
    }

    pub fn len(&self) -> usize {
        self.ends.len()
    }

    pub fn is_empty(&self) -> bool {
        self.ends.is_empty()
    }

    pub fn get(&self, index: usize) -> &[u8] {
        let start = if index == 0 { 0 } else { self.ends[index - 1] };
        &self.bytes[start..self.ends[index]]
    }

    /// The same tokens in another order, each as often as its number stands in `order`.
    fn ordered(&self, order: &[usize]) -> Tokens {
        let mut out = Tokens::new();
        for &index in order {
            out.push(self.get(index));
        }
        out
    }

    /// One edit: two tokens swapped, one dropped, one doubled, one copied to another place, or one
    /// of `strangers` put in or put in the place of another.
    pub fn edit(&mut self, random: &mut Random, strangers: &[&[u8]]) {
        if self.is_empty() {
            return;
        }
        let mut order: Vec<usize> = (0..self.len()).collect();
        let (at, other) = (random.below(order.len()), random.below(order.len()));
        match random.below(7) {
            0 => order.swap(at, other),
            1 => order.swap(at, (at + 1).min(self.len() - 1)),
            2 => drop(order.remove(at)),
            3 => order.insert(at, at),
            4 => order.insert(at, other),
            5 => return self.put(random, at, strangers, false),
            _ => return self.put(random, at, strangers, true),
        }
        *self = self.ordered(&order);
    }

    /// Puts a stranger at a place, before the token there or instead of it.
    fn put(&mut self, random: &mut Random, at: usize, strangers: &[&[u8]], instead: bool) {
        let mut out = Tokens::new();
        for index in 0..self.len() {
            if index == at {
                out.push(random.one_of(strangers));
            }
            if index != at || !instead {
                out.push(self.get(index));
            }
        }
        *self = out;
    }

    /// The text. In a data text (`data`) more bytes belong to words.
    pub fn text(&self, random: &mut Random, style: Style, data: bool) -> Vec<u8> {
        let mut out = Vec::with_capacity(self.bytes.len() + 2 * self.len());
        if style == Style::Loose {
            separator(random, &mut out, data);
        }
        for index in 0..self.len() {
            let token = self.get(index);
            if style == Style::Spaced && index > 0 {
                out.push(b' ');
            } else if runs_together(&out, token, data) {
                out.push(random.one_of(b" \t\r\n"));
            }
            out.extend_from_slice(token);
            if style == Style::Loose {
                separator(random, &mut out, data);
            }
        }
        if style == Style::Loose && random.one_in(8) {
            out.extend_from_slice(b" --");
            comment(random, &mut out);
        }
        out
    }
}

/// Whether a byte belongs to runs that a blank has to end.
fn in_run(byte: u8, data: bool) -> bool {
    byte.is_ascii_alphanumeric() || byte == b'_' || (data && matches!(byte, b'+' | b'-' | b'.' | b':'))
}

fn runs_together(out: &[u8], token: &[u8], data: bool) -> bool {
    match (out.last(), token.first()) {
        (Some(&left), Some(&right)) => in_run(left, data) && in_run(right, data),
        _ => false,
    }
}

/// Nothing, blanks, or a comment with its line end.
fn separator(random: &mut Random, out: &mut Vec<u8>, data: bool) {
    match random.below(16) {
        0..=8 => {}
        9..=13 => {
            for _ in 0..=random.below(3) {
                out.push(random.one_of(b"  \t\r\n"));
            }
        }
        _ => {
            if data && out.last().is_some_and(|&byte| in_run(byte, true)) {
                out.push(b' ');
            }
            out.extend_from_slice(b"--");
            comment(random, out);
            out.push(random.one_of(b"\r\n"));
        }
    }
}

/// The inside of a comment: any bytes but line ends.
fn comment(random: &mut Random, out: &mut Vec<u8>) {
    for _ in 0..random.below(8) {
        let byte = if random.coin() { random.byte() } else { random.one_of(b"-\"{}|<>* a1") };
        if byte != b'\r' && byte != b'\n' {
            out.push(byte);
        }
    }
}

/// Any style, the plain ones more often.
pub fn any_style(random: &mut Random) -> Style {
    random.one_of(&[Style::Tight, Style::Tight, Style::Spaced, Style::Loose])
}
