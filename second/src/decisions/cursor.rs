//! The pieces of a line of the page, and a cursor over them.

/// A piece of a line; blanks stand between pieces.
#[derive(Clone, Debug, PartialEq, Eq)]
pub enum Piece {
    /// What stands between two backquotes, with LF for each `␊`.
    Quoted(String),
    /// A run of letters and digits, with the commas that stand between two digits.
    Word(String),
    /// Any other character.
    Sign(char),
}

/// A line taken apart, and how much of it was read.
pub struct Cursor<'a> {
    line: &'a str,
    /// Each piece with the place where it starts.
    pieces: Vec<(usize, Piece)>,
    next: usize,
}

impl<'a> Cursor<'a> {
    /// A cursor at a line's start. A line is taken apart whatever it holds, if its backquotes pair.
    pub fn new(line: &'a str) -> Result<Cursor<'a>, String> {
        let mut pieces = Vec::new();
        let mut start = 0;
        while let Some(first) = line[start..].chars().next() {
            let (piece, length) = piece_at(&line[start..], first)?;
            if piece != Piece::Sign(' ') {
                pieces.push((start, piece));
            }
            start += length;
        }
        Ok(Cursor { line, pieces, next: 0 })
    }

    /// The next piece.
    pub fn peek(&self) -> Option<&Piece> {
        self.ahead(0)
    }

    /// The piece that stands `count` behind the next one.
    pub fn ahead(&self, count: usize) -> Option<&Piece> {
        self.pieces.get(self.next + count).map(|(_, piece)| piece)
    }

    /// Says that something else was expected here.
    pub fn expected<T>(&self, what: &str) -> Result<T, String> {
        match self.pieces.get(self.next) {
            Some((start, _)) => Err(format!("{what} is expected here: {}", &self.line[*start..])),
            None => Err(format!("{what} is expected at the end")),
        }
    }

    /// Takes the word if it is next.
    pub fn takes_word(&mut self, word: &str) -> bool {
        let found = matches!(self.peek(), Some(Piece::Word(next)) if next == word);
        self.next += usize::from(found);
        found
    }

    /// Takes the sign if it is next.
    pub fn takes_sign(&mut self, sign: char) -> bool {
        let found = self.peek() == Some(&Piece::Sign(sign));
        self.next += usize::from(found);
        found
    }

    /// Takes a comma if it is next and the word stands behind it.
    pub fn takes_comma_before(&mut self, word: &str) -> bool {
        let found = self.ahead(1) == Some(&Piece::Word(String::from(word)));
        found && self.takes_sign(',')
    }

    /// Takes words and commas that must be next, such as `, output of`.
    pub fn phrase(&mut self, phrase: &str) -> Result<(), String> {
        let start = self.next;
        let found =
            phrase.split(' ').all(|part| if part == "," { self.takes_sign(',') } else { self.takes_word(part) });
        if found {
            return Ok(());
        }
        self.next = start;
        self.expected(&format!("`{phrase}`"))
    }

    /// Takes any word.
    pub fn word(&mut self, what: &str) -> Result<String, String> {
        match self.peek() {
            Some(Piece::Word(word)) => {
                let word = word.clone();
                self.next += 1;
                Ok(word)
            }
            _ => self.expected(what),
        }
    }

    /// Takes what stands between two backquotes.
    pub fn quoted(&mut self, what: &str) -> Result<String, String> {
        match self.peek() {
            Some(Piece::Quoted(text)) => {
                let text = text.clone();
                self.next += 1;
                Ok(text)
            }
            _ => self.expected(what),
        }
    }

    /// Takes a number of any width that holds it.
    pub fn number<N: TryFrom<u64>>(&mut self) -> Result<N, String> {
        let number = match self.peek() {
            Some(Piece::Word(word)) => number_of(word),
            _ => None,
        };
        match number {
            Some(number) => {
                self.next += 1;
                Ok(number)
            }
            None => self.expected("a number"),
        }
    }

    /// Takes bytes in hex, as many words as there are; each has two digits to a byte.
    pub fn hex(&mut self) -> Result<Vec<u8>, String> {
        let mut bytes = Vec::new();
        while let Some(more) = self.peek().and_then(bytes_of) {
            bytes.extend(more);
            self.next += 1;
        }
        if bytes.is_empty() {
            return self.expected("a byte in hex");
        }
        Ok(bytes)
    }

    /// Takes the line's end, or a remark in parentheses that stands there.
    pub fn end(&mut self) -> Result<(), String> {
        match self.peek() {
            None => Ok(()),
            Some(Piece::Sign('(')) if self.remark_ends_line() => Ok(()),
            _ => self.expected("the end, or a remark in parentheses that ends the line,"),
        }
    }

    /// Whether the parenthesis that is next is closed by the line's last piece.
    fn remark_ends_line(&self) -> bool {
        let mut depth = 0;
        let closed = self.pieces[self.next..].iter().position(|(_, piece)| {
            match piece {
                Piece::Sign('(') => depth += 1,
                Piece::Sign(')') => depth -= 1,
                _ => {}
            }
            depth == 0
        });
        closed.is_some_and(|last| self.next + last + 1 == self.pieces.len())
    }
}

/// The piece that a rest of a line starts with, and how many bytes of the line it takes.
fn piece_at(rest: &str, first: char) -> Result<(Piece, usize), String> {
    if first == '`' {
        return match rest[1..].find('`') {
            Some(0) => Err(format!("nothing stands between two backquotes: {rest}")),
            Some(length) => Ok((Piece::Quoted(rest[1..=length].replace('␊', "\n")), length + 2)),
            None => Err(format!("a backquote is not closed: {rest}")),
        };
    }
    match word_length(rest) {
        0 => Ok((Piece::Sign(first), first.len_utf8())),
        length => Ok((Piece::Word(String::from(&rest[..length])), length)),
    }
}

fn word_length(rest: &str) -> usize {
    let bytes = rest.as_bytes();
    let is_digit = |at: usize| bytes.get(at).is_some_and(u8::is_ascii_digit);
    let in_word = |at: usize| match bytes[at] {
        b',' => at > 0 && is_digit(at - 1) && is_digit(at + 1),
        byte => byte.is_ascii_alphanumeric(),
    };
    (0..bytes.len()).find(|&at| !in_word(at)).unwrap_or(bytes.len())
}

/// A number as it is spelled, with a comma before each three digits or with none.
pub fn number_of<N: TryFrom<u64>>(word: &str) -> Option<N> {
    let number: u64 = word.replace(',', "").parse().ok()?;
    let is_spelled_well = word == number.to_string() || word == with_commas(number);
    is_spelled_well.then(|| N::try_from(number).ok()).flatten()
}

/// A number with a comma before each three digits.
fn with_commas(number: u64) -> String {
    match number {
        0..=999 => number.to_string(),
        _ => format!("{},{:03}", with_commas(number / 1_000), number % 1_000),
    }
}

/// The bytes of a word in hex.
fn bytes_of(piece: &Piece) -> Option<Vec<u8>> {
    let Piece::Word(word) = piece else {
        return None;
    };
    let digits: Vec<u32> = word.chars().map(|digit| digit.to_digit(16)).collect::<Option<_>>()?;
    let pairs = digits.chunks_exact(2);
    pairs.remainder().is_empty().then(|| pairs.map(|pair| (16 * pair[0] + pair[1]) as u8).collect())
}
