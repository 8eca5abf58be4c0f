//! JSON: one object, written as one line of ASCII.

use std::fmt::Write;

/// An object that is being written.
#[derive(Default)]
pub struct Object {
    members: String,
}

impl Object {
    /// An object without members.
    pub fn new() -> Object {
        Object::default()
    }

    /// Adds a text. What isn't ASCII is escaped in UTF-16.
    pub fn text(mut self, key: &str, value: &str) -> Object {
        self.key(key);
        quote(&mut self.members, value.encode_utf16());
        self
    }

    /// Adds bytes as a text: each byte is the character of its number.
    pub fn bytes(mut self, key: &str, value: &[u8]) -> Object {
        self.key(key);
        quote(&mut self.members, value.iter().map(|byte| u16::from(*byte)));
        self
    }

    /// Adds a number.
    pub fn number(mut self, key: &str, value: impl Into<i64>) -> Object {
        self.key(key);
        self.members.push_str(&value.into().to_string());
        self
    }

    /// Adds a list of objects.
    pub fn objects(mut self, key: &str, values: Vec<Object>) -> Object {
        self.key(key);
        let written: Vec<String> = values.into_iter().map(Object::closed).collect();
        let _ = write!(self.members, "[{}]", written.join(","));
        self
    }

    /// The object as a line.
    pub fn line(self) -> String {
        self.closed() + "\n"
    }

    /// The object between its braces.
    fn closed(self) -> String {
        format!("{{{}}}", self.members)
    }

    /// Adds a key and its colon.
    fn key(&mut self, key: &str) {
        if !self.members.is_empty() {
            self.members.push(',');
        }
        quote(&mut self.members, key.encode_utf16());
        self.members.push(':');
    }
}

/// Adds a string in its quotes.
fn quote(out: &mut String, units: impl Iterator<Item = u16>) {
    out.push('"');
    for unit in units {
        match u8::try_from(unit) {
            Ok(byte @ (b'"' | b'\\')) => {
                out.push('\\');
                out.push(char::from(byte));
            }
            Ok(byte @ b' '..=b'~') => out.push(char::from(byte)),
            _ => {
                let _ = write!(out, "\\u{unit:04X}");
            }
        }
    }
    out.push('"');
}

#[cfg(test)]
mod tests {
    use super::*;

    #[test]
    fn members_stand_in_order_between_commas() {
        assert_eq!(Object::new().line(), "{}\n");
        let object = Object::new().text("a", "x").number("b", -5).number("c", 7u32);
        assert_eq!(object.line(), "{\"a\":\"x\",\"b\":-5,\"c\":7}\n");
    }

    #[test]
    fn a_list_holds_objects() {
        let list = vec![Object::new().number("n", 1), Object::new()];
        assert_eq!(Object::new().objects("l", list).line(), "{\"l\":[{\"n\":1},{}]}\n");
        assert_eq!(Object::new().objects("l", vec![]).line(), "{\"l\":[]}\n");
    }

    #[test]
    fn quotes_and_controls_are_escaped() {
        let object = Object::new().text("k\"", "a\"b\\c/d\n\t\u{7f}");
        assert_eq!(object.line(), "{\"k\\\"\":\"a\\\"b\\\\c/d\\u000A\\u0009\\u007F\"}\n");
    }

    #[test]
    fn a_byte_is_the_character_of_its_number() {
        let object = Object::new().bytes("name", &[0x41, 0x00, 0x80, 0xC3, 0xFF]);
        assert_eq!(object.line(), "{\"name\":\"A\\u0000\\u0080\\u00C3\\u00FF\"}\n");
    }

    #[test]
    fn a_text_is_escaped_in_utf_16() {
        let object = Object::new().text("file", "é∈😀");
        assert_eq!(object.line(), "{\"file\":\"\\u00E9\\u2208\\uD83D\\uDE00\"}\n");
    }
}
