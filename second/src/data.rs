//! Reading a data text into a parse tree, with every fault met on the way.
//!
//! Only a syntax fault ends the reading. Blocks lie in one list and point to each other by index,
//! so that a text of any depth is read without recursion.

use crate::bytes::{count_while, is_name, is_run, is_type, skip_separators, string_length};
use crate::faults::{length_fault, Ended, Fault, Faults, Read};
use crate::limits;
use crate::words;

/// The parse tree of a text without fault. Block 0 is the outermost.
pub struct Tree<'t> {
    pub blocks: Vec<Block<'t>>,
    /// How many data the text has: blocks and leaves, numbered from 0 in text order.
    pub data: usize,
}

pub struct Block<'t> {
    pub number: usize,
    /// The place of its `<`.
    pub place: usize,
    pub type_name: Option<&'t [u8]>,
    pub members: Vec<Member<'t>>,
}

pub struct Member<'t> {
    pub name: &'t [u8],
    pub value: Datum<'t>,
}

pub enum Datum<'t> {
    /// The block's index in the tree's list.
    Block(usize),
    Leaf(Leaf<'t>),
}

pub struct Leaf<'t> {
    pub number: usize,
    /// The place of its `<`.
    pub place: usize,
    pub value: LeafValue<'t>,
}

#[derive(Clone, Copy)]
pub enum LeafValue<'t> {
    Text(&'t [u8]),
    Word(&'t [u8]),
}

impl<'t> Block<'t> {
    /// The member with exactly this name.
    pub fn member(&self, name: &[u8]) -> Option<&Member<'t>> {
        self.members.iter().find(|member| member.name == name)
    }
}

impl Datum<'_> {
    /// The place of the datum's `<`.
    pub fn place(&self, tree: &Tree) -> usize {
        match self {
            Datum::Block(index) => tree.blocks[*index].place,
            Datum::Leaf(leaf) => leaf.place,
        }
    }
}

/// The tree, or the fault that is the answer.
pub fn read(text: &[u8]) -> Result<Tree<'_>, Fault> {
    if let Some(fault) = length_fault(text) {
        return Err(fault);
    }
    let reader = read_all(text);
    match reader.faults.least() {
        Some(fault) => Err(fault),
        None => Ok(Tree { blocks: reader.blocks, data: reader.data }),
    }
}

/// Every fault that the reading met, the answer first.
pub fn faults(text: &[u8]) -> Vec<Fault> {
    match length_fault(text) {
        Some(fault) => vec![fault],
        None => read_all(text).faults.into_sorted(),
    }
}

fn read_all(text: &[u8]) -> Reader<'_> {
    let mut reader = Reader { text, token: token_at(text, 0), faults: Faults::default(), blocks: Vec::new(), data: 0 };
    // A syntax fault has been collected with the others; there is nothing more to do for it.
    let _ = reader.text();
    reader
}

/// The kinds of token. What a run is depends on where it stands, yet one that opens with a small
/// letter is a NAME or unreadable.
#[derive(Clone, Copy, PartialEq, Eq)]
enum Kind {
    Less,
    Greater,
    OpenParenthesis,
    CloseParenthesis,
    Equal,
    String,
    Name,
    /// A run that doesn't open with a small letter: a word, or behind `(` perhaps a TYPE.
    Word,
    End,
    Unreadable,
}

#[derive(Clone, Copy)]
struct Token {
    kind: Kind,
    start: usize,
    end: usize,
}

/// The first token at or behind `place`. Separators are looked for only here, where a token may start.
fn token_at(text: &[u8], place: usize) -> Token {
    let start = skip_separators(text, place);
    let rest = &text[start..];
    let (kind, length) = match rest.first() {
        None => (Kind::End, 0),
        Some(b'<') => (Kind::Less, 1),
        Some(b'>') => (Kind::Greater, 1),
        Some(b'(') => (Kind::OpenParenthesis, 1),
        Some(b')') => (Kind::CloseParenthesis, 1),
        Some(b'=') => (Kind::Equal, 1),
        Some(b'"') => string_length(rest).map_or((Kind::Unreadable, 1), |length| (Kind::String, length)),
        Some(_) => run(rest),
    };
    Token { kind, start, end: start + length }
}

/// "the longest run of letters, digits, `_ + - . :`. A run that opens with a small letter is a NAME
/// or unreadable (2), never a word"
fn run(rest: &[u8]) -> (Kind, usize) {
    let length = count_while(rest, is_run);
    if length == 0 {
        (Kind::Unreadable, 1)
    } else if !rest[0].is_ascii_lowercase() {
        (Kind::Word, length)
    } else if is_name(&rest[..length]) {
        (Kind::Name, length)
    } else {
        (Kind::Unreadable, length)
    }
}

struct Reader<'t> {
    text: &'t [u8],
    /// The next token, not yet taken.
    token: Token,
    faults: Faults,
    blocks: Vec<Block<'t>>,
    data: usize,
}

impl<'t> Reader<'t> {
    fn take(&mut self) -> Token {
        let taken = self.token;
        self.token = token_at(self.text, taken.end);
        taken
    }

    fn spelling(&self, token: Token) -> &'t [u8] {
        &self.text[token.start..token.end]
    }

    /// "syntax: first token that can't follow, or unreadable"
    fn refuse<T>(&mut self) -> Read<T> {
        self.faults.add(2, self.token.start);
        Err(Ended)
    }

    fn expect(&mut self, kind: Kind) -> Read<Token> {
        if self.token.kind == kind {
            Ok(self.take())
        } else {
            self.refuse()
        }
    }

    /// "4: type, name, code or string too long | token"
    fn limit_length(&mut self, token: Token, length: usize, most: usize) {
        if length > most {
            self.faults.add(4, token.start);
        }
    }

    fn next_number(&mut self) -> usize {
        self.data += 1;
        self.data - 1
    }

    /// One datum, which is a block, and the text end. The open blocks are kept in a list, outermost first.
    fn text(&mut self) -> Read<()> {
        let type_name = self.type_name()?;
        let less = self.expect(Kind::Less)?;
        let mut open = vec![self.block(less, type_name, 1)];
        while let Some(&block) = open.last() {
            match self.token.kind {
                Kind::Name => {
                    let inner = self.member(block, open.len() + 1)?;
                    open.extend(inner);
                }
                Kind::Greater => {
                    self.take();
                    open.pop();
                }
                _ => return self.refuse(),
            }
        }
        self.expect(Kind::End)?;
        Ok(())
    }

    /// "optional `(`TYPE`)`"; "after `(` a run is a TYPE or unreadable".
    fn type_name(&mut self) -> Read<Option<&'t [u8]>> {
        if self.token.kind != Kind::OpenParenthesis {
            return Ok(None);
        }
        self.take();
        let token = self.token;
        let type_name = self.spelling(token);
        if token.kind != Kind::Word || !is_type(type_name) {
            return self.refuse();
        }
        self.take();
        self.limit_length(token, type_name.len(), limits::NAME);
        self.expect(Kind::CloseParenthesis)?;
        Ok(Some(type_name))
    }

    /// A block opens; "3: 17th level of object or block | TYPE; `<`".
    fn block(&mut self, less: Token, type_name: Option<&'t [u8]>, level: usize) -> usize {
        if level == limits::LEVELS + 1 {
            self.faults.add(3, less.start);
        }
        let number = self.next_number();
        self.blocks.push(Block { number, place: less.start, type_name, members: Vec::new() });
        self.blocks.len() - 1
    }

    /// "Member: NAME `=` then a datum, or `<` leaf `>` with no type."
    /// If a block follows, only its `<` is read here and its index answered.
    fn member(&mut self, block: usize, level: usize) -> Read<Option<usize>> {
        let token = self.expect(Kind::Name)?;
        let name = self.spelling(token);
        self.limit_length(token, name.len(), limits::NAME);
        if self.blocks[block].member(name).is_some() {
            self.faults.add(9, token.start);
        }
        self.expect(Kind::Equal)?;
        let type_name = self.type_name()?;
        let less = self.expect(Kind::Less)?;
        // "A `<` is a leaf's when it has no type, isn't the outermost, and a string or word follows"
        let leaf = type_name.is_none() && matches!(self.token.kind, Kind::String | Kind::Word);
        let (value, inner) = if leaf {
            (Datum::Leaf(self.leaf(less)), None)
        } else {
            let index = self.block(less, type_name, level);
            (Datum::Block(index), Some(index))
        };
        self.blocks[block].members.push(Member { name, value });
        if leaf {
            self.expect(Kind::Greater)?;
        }
        Ok(inner)
    }

    /// The string or word of a leaf; "5: word unreadable | word".
    fn leaf(&mut self, less: Token) -> Leaf<'t> {
        let token = self.take();
        let spelling = self.spelling(token);
        let value = if token.kind == Kind::String {
            let string = &spelling[1..spelling.len() - 1];
            self.limit_length(token, string.len(), limits::STRING);
            LeafValue::Text(string)
        } else {
            if !words::is_good(spelling) {
                self.faults.add(5, token.start);
            }
            LeafValue::Word(spelling)
        };
        Leaf { number: self.next_number(), place: less.start, value }
    }
}
