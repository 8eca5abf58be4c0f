//! Damage to texts: bytes changed, texts cut, spliced, padded.

use super::random::Random;

/// Bytes that mean something somewhere.
const TELLING: &[u8] = b"{},*|.<>=+/-\"\\[]()_:?XTZPatAzwdm019; \t\r\n\x00\x1f\x7f\x80\xE2\x88\xff";

/// The longest text that is read.
pub const LONGEST_TEXT: usize = 16_384;

/// One to three bytes changed, put in or taken out.
pub fn edit_bytes(random: &mut Random, text: &mut Vec<u8>) {
    for _ in 0..=random.below(3) {
        let byte = if random.one_in(4) { random.byte() } else { random.one_of(TELLING) };
        let at = random.below(text.len() + 1);
        match random.below(4) {
            0 => text.insert(at, byte),
            1 if at < text.len() => drop(text.remove(at)),
            2 if at < text.len() => text[at] ^= 1 << random.below(8),
            _ if at < text.len() => text[at] = byte,
            _ => text.push(byte),
        }
    }
}

/// The text cut at a random place, its end or its beginning lost.
pub fn cut(random: &mut Random, text: &mut Vec<u8>) {
    let at = random.below(text.len() + 1);
    if random.one_in(4) {
        text.drain(..at);
    } else {
        text.truncate(at);
    }
}

/// The beginning of one text and the end of another.
pub fn splice(random: &mut Random, text: &mut Vec<u8>, other: &[u8]) {
    text.truncate(random.below(text.len() + 1));
    text.extend_from_slice(&other[random.below(other.len() + 1)..]);
}

/// Any bytes, or any bytes that mean something.
pub fn any_bytes(random: &mut Random, most: usize) -> Vec<u8> {
    let telling = random.coin();
    let length = random.below(most + 1);
    (0..length).map(|_| if telling { random.one_of(TELLING) } else { random.byte() }).collect()
}

/// Lengthens a text with blanks or a comment to just at or just above the longest length.
pub fn pad(random: &mut Random, text: &mut Vec<u8>) {
    let length = LONGEST_TEXT + random.below(4) - 1;
    if text.len() >= length {
        return;
    }
    let filler = random.one_of(b" \n\t-");
    if filler == b'-' {
        text.push(b' ');
    }
    if random.one_in(4) {
        let mut padded = vec![filler; length - text.len()];
        if let (b'-', Some(last)) = (filler, padded.last_mut()) {
            *last = b'\n';
        }
        padded.append(text);
        *text = padded;
    } else {
        text.resize(length, filler);
    }
}
