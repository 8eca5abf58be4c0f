//! Reading a constraint text into a parse tree, with every fault met on the way.
//!
//! Only a syntax fault ends the reading. Objects lie in one list and point to each other by index,
//! so that a text of any depth is read without recursion.

use crate::calendar::Date;
use crate::faults::{length_fault, Ended, Fault, Faults, Read};
use crate::intervals::{closed_pair, overlap, End};
use crate::limits;
use crate::numbers;
use crate::tokens::{token_at, value_token_at, Kind, Token};

/// The parse tree of a text without fault. Object 0 is the outermost.
pub struct Tree<'t> {
    pub objects: Vec<Object<'t>>,
}

/// An object with its record number; no attributes stand for `*`.
pub struct Object<'t> {
    pub number: u32,
    pub type_name: &'t [u8],
    pub code: &'t [u8],
    pub attributes: Vec<Attribute<'t>>,
}

pub struct Attribute<'t> {
    pub number: u32,
    pub name: &'t [u8],
    pub existence: Existence,
    pub value: Value<'t>,
}

/// 0..0, 0..1 and 1..1.
#[derive(Clone, Copy, Debug, PartialEq, Eq)]
pub enum Existence {
    Forbidden,
    Optional,
    Required,
}

/// What stands in an attribute's braces.
pub enum Value<'t> {
    Any,
    /// The object's index in the tree's list.
    Object(usize),
    Leaf(Leaf<'t>),
}

/// A leaf with the record number of its first item; items count on from there.
pub struct Leaf<'t> {
    pub number: u32,
    pub body: LeafBody<'t>,
}

pub enum LeafBody<'t> {
    Boolean { admits_true: bool, admits_false: bool },
    Items(Vec<Item<'t>>),
    DatePattern(u8),
    TimePattern(u8),
    DurationPattern(u8),
}

/// One item; intervals are closed pairs.
#[derive(Clone, Copy)]
pub enum Item<'t> {
    Integer((i32, i32)),
    Text(&'t [u8]),
    Date((Date, Date)),
}

impl Item<'_> {
    /// "overlapping or equal item"
    fn overlaps(&self, other: &Item) -> bool {
        match (self, other) {
            (Item::Integer(first), Item::Integer(second)) => overlap(first, second),
            (Item::Date(first), Item::Date(second)) => overlap(first, second),
            (Item::Text(first), Item::Text(second)) => first == second,
            _ => false,
        }
    }
}

/// The tree, or the fault that is the answer.
pub fn read(text: &[u8]) -> Result<Tree<'_>, Fault> {
    if let Some(fault) = length_fault(text) {
        return Err(fault);
    }
    let reader = read_all(text);
    match reader.faults.least() {
        Some(fault) => Err(fault),
        None => Ok(Tree { objects: reader.objects }),
    }
}

/// Every fault that the reading met, the answer first.
pub fn faults(text: &[u8]) -> Vec<Fault> {
    match length_fault(text) {
        Some(fault) => vec![fault],
        None => read_all(text).faults.into_sorted(),
    }
}

fn read_all(text: &[u8]) -> Reader<'_> {
    let mut reader =
        Reader { text, token: token_at(text, 0), faults: Faults::default(), records: 0, objects: Vec::new() };
    // A syntax fault has been collected with the others; there is nothing more to do for it.
    let _ = reader.text();
    reader
}

/// What the items of one list are; settled by its first literal.
#[derive(Clone, Copy, PartialEq, Eq)]
enum ListKind {
    Unsettled,
    Integer,
    Text,
    Date,
}

/// A good literal of an interval.
#[derive(Clone, Copy)]
enum Literal {
    Integer(i32),
    Date(Date),
}

impl Literal {
    fn integer(self) -> Option<i32> {
        match self {
            Literal::Integer(value) => Some(value),
            Literal::Date(_) => None,
        }
    }

    fn date(self) -> Option<Date> {
        match self {
            Literal::Date(value) => Some(value),
            Literal::Integer(_) => None,
        }
    }
}

struct Reader<'t> {
    text: &'t [u8],
    /// The next token, not yet taken.
    token: Token,
    faults: Faults,
    /// Records started so far, the header not counted.
    records: usize,
    objects: Vec<Object<'t>>,
}

impl<'t> Reader<'t> {
    fn take(&mut self) -> Token {
        let taken = self.token;
        self.token = token_at(self.text, taken.end);
        taken
    }

    /// "syntax: first token that can't follow, or unreadable"
    fn refuse<T>(&mut self) -> Read<T> {
        self.faults.add(2, self.token.start);
        Err(Ended)
    }

    fn expect(&mut self, kind: Kind) -> Read<Token> {
        if self.token.kind == kind {
            Ok(self.take())
        } else {
            self.refuse()
        }
    }

    fn matches_brace(&mut self) -> Read<()> {
        self.expect(Kind::Matches)?;
        self.expect(Kind::OpenBrace)?;
        Ok(())
    }

    /// "4: type, name, code or string too long | token"
    fn limit_length(&mut self, token: Token, length: usize, most: usize) -> bool {
        if length > most {
            self.faults.add(4, token.start);
        }
        length <= most
    }

    /// "8: record 2,048 needed | token that starts it". The header is record 0.
    fn start_record(&mut self, place: usize) -> u32 {
        self.records += 1;
        if self.records == limits::RECORDS {
            self.faults.add(8, place);
        }
        self.records as u32
    }

    /// "The text is one object." The open objects are kept in a list, outermost first.
    fn text(&mut self) -> Read<()> {
        let mut open = vec![self.object_head(1)?];
        while let Some(&object) = open.last() {
            let empty = self.objects[object].attributes.is_empty();
            match self.token.kind {
                Kind::Name => {
                    let inner = self.attribute(object, open.len() + 1)?;
                    open.extend(inner);
                }
                Kind::Star if empty => {
                    self.take();
                    self.close_object(&mut open)?;
                }
                Kind::CloseBrace if !empty => self.close_object(&mut open)?,
                _ => return self.refuse(),
            }
        }
        self.expect(Kind::End)?;
        Ok(())
    }

    /// The object's closing brace, and that of the attribute around it.
    fn close_object(&mut self, open: &mut Vec<usize>) -> Read<()> {
        self.expect(Kind::CloseBrace)?;
        open.pop();
        if !open.is_empty() {
            self.expect(Kind::CloseBrace)?;
        }
        Ok(())
    }

    /// "object: TYPE, optional [code], `matches {`"
    fn object_head(&mut self, level: usize) -> Read<usize> {
        let head = self.expect(Kind::Type)?;
        if level == limits::LEVELS + 1 {
            self.faults.add(3, head.start);
        }
        let type_name = head.spelling(self.text);
        self.limit_length(head, type_name.len(), limits::NAME);
        let number = self.start_record(head.start);
        let mut code: &[u8] = &[];
        if self.token.kind == Kind::Code {
            let token = self.take();
            code = token.inner(self.text);
            self.limit_length(token, code.len(), limits::CODE);
        }
        self.matches_brace()?;
        self.objects.push(Object { number, type_name, code, attributes: Vec::new() });
        Ok(self.objects.len() - 1)
    }

    /// "attribute: NAME, optional existence, `matches {`, then `*`, one object or one leaf, `}`".
    /// If an object follows, only its head is read here and its index answered.
    fn attribute(&mut self, object: usize, level: usize) -> Read<Option<usize>> {
        let token = self.expect(Kind::Name)?;
        let name = token.spelling(self.text);
        self.limit_length(token, name.len(), limits::NAME);
        let number = self.start_record(token.start);
        if self.objects[object].attributes.iter().any(|earlier| earlier.name == name) {
            self.faults.add(9, token.start);
        }
        let existence = self.existence()?;
        self.matches_brace()?;
        self.token = value_token_at(self.text, self.token.start);
        let value = match self.token.kind {
            Kind::Star => {
                self.take();
                Value::Any
            }
            Kind::Type => Value::Object(self.object_head(level)?),
            _ => Value::Leaf(self.leaf()?),
        };
        let inner = match value {
            Value::Object(index) => Some(index),
            _ => None,
        };
        self.objects[object].attributes.push(Attribute { number, name, existence, value });
        if inner.is_none() {
            self.expect(Kind::CloseBrace)?;
        }
        Ok(inner)
    }

    /// "optional `existence matches {` `0`, `1`, `0..0`, `0..1` or `1..1` `}`; no existence means 1..1"
    fn existence(&mut self) -> Read<Existence> {
        if self.token.kind != Kind::Existence {
            return Ok(Existence::Required);
        }
        self.take();
        self.matches_brace()?;
        let low = self.bound(&[b"0", b"1"])?;
        let mut high = low;
        if self.token.kind == Kind::Ellipsis {
            self.take();
            high = self.bound(if low == b"0" { &[b"0", b"1"] } else { &[b"1"] })?;
        }
        self.expect(Kind::CloseBrace)?;
        Ok(match (low, high) {
            (b"0", b"0") => Existence::Forbidden,
            (b"0", _) => Existence::Optional,
            _ => Existence::Required,
        })
    }

    /// An integer token of one of the spellings; any other token can't follow.
    fn bound(&mut self, spellings: &[&[u8]]) -> Read<&'t [u8]> {
        let spelling = self.token.spelling(self.text);
        if self.token.kind == Kind::Integer && spellings.contains(&spelling) {
            self.take();
            Ok(spelling)
        } else {
            self.refuse()
        }
    }

    /// "leaf: Booleans by comma (one or two); or items by comma; or one pattern"
    fn leaf(&mut self) -> Read<Leaf<'t>> {
        match self.token.kind {
            Kind::Boolean(value) => self.booleans(value),
            Kind::DatePattern(flag) => Ok(self.pattern(LeafBody::DatePattern(flag))),
            Kind::TimePattern(flag) => Ok(self.pattern(LeafBody::TimePattern(flag))),
            Kind::DurationPattern(flag) => Ok(self.pattern(LeafBody::DurationPattern(flag))),
            _ => self.items(),
        }
    }

    fn pattern(&mut self, body: LeafBody<'t>) -> Leaf<'t> {
        let token = self.take();
        Leaf { number: self.start_record(token.start), body }
    }

    /// One or two Booleans; the second one equal to the first is an equal item.
    fn booleans(&mut self, first: bool) -> Read<Leaf<'t>> {
        let token = self.take();
        let number = self.start_record(token.start);
        let mut second = first;
        if self.token.kind == Kind::Comma {
            self.take();
            let Kind::Boolean(value) = self.token.kind else {
                return self.refuse();
            };
            let later = self.take();
            if value == first {
                self.faults.add(9, later.start);
            }
            second = value;
        }
        let body = LeafBody::Boolean { admits_true: first || second, admits_false: !first || !second };
        Ok(Leaf { number, body })
    }

    /// "items by comma, all integer, all string or all date interval"
    fn items(&mut self) -> Read<Leaf<'t>> {
        let number = self.records as u32 + 1;
        let mut kind = ListKind::Unsettled;
        let mut good: Vec<Item> = Vec::new();
        let mut count = 0;
        loop {
            count += 1;
            let place = self.token.start;
            if let Some(item) = self.item(count, &mut kind)? {
                // Behind the 17th item a list has its fault, and isn't searched any further.
                if count <= limits::ITEMS + 1 && good.iter().any(|earlier| earlier.overlaps(&item)) {
                    self.faults.add(9, place);
                }
                good.push(item);
            }
            if self.token.kind != Kind::Comma {
                return Ok(Leaf { number, body: LeafBody::Items(good) });
            }
            self.take();
        }
    }

    /// One item, counted from its first token; nothing if it has a fault of its own.
    fn item(&mut self, count: usize, kind: &mut ListKind) -> Read<Option<Item<'t>>> {
        let first = self.token;
        let fits = match first.kind {
            Kind::Integer => matches!(kind, ListKind::Unsettled | ListKind::Integer),
            Kind::String => matches!(kind, ListKind::Unsettled | ListKind::Text),
            Kind::Bar => *kind != ListKind::Text,
            _ => false,
        };
        if !fits {
            return self.refuse();
        }
        if count == limits::ITEMS + 1 {
            self.faults.add(7, first.start);
        }
        self.start_record(first.start);
        match first.kind {
            Kind::Bar => self.interval(kind),
            Kind::String => {
                *kind = ListKind::Text;
                Ok(self.text_item())
            }
            _ => {
                *kind = ListKind::Integer;
                Ok(self.integer().map(|value| Item::Integer((value, value))))
            }
        }
    }

    fn text_item(&mut self) -> Option<Item<'t>> {
        let token = self.take();
        let string = token.inner(self.text);
        if self.limit_length(token, string.len(), limits::STRING) {
            Some(Item::Text(string))
        } else {
            None
        }
    }

    /// The integer token that stands next; "5: number or date impossible | literal".
    fn integer(&mut self) -> Option<i32> {
        let token = self.take();
        let value = numbers::integer(token.spelling(self.text));
        if value.is_none() {
            self.faults.add(5, token.start);
        }
        value
    }

    /// The date token that stands next.
    fn date(&mut self) -> Option<Date> {
        let token = self.take();
        let value = Date::read(token.spelling(self.text));
        if value.is_none() {
            self.faults.add(5, token.start);
        }
        value
    }

    /// A literal of an interval in a list of the kind; the first one settles the kind.
    fn literal(&mut self, kind: &mut ListKind) -> Read<Option<Literal>> {
        match (self.token.kind, *kind) {
            (Kind::Integer, ListKind::Unsettled | ListKind::Integer) => {
                *kind = ListKind::Integer;
                Ok(self.integer().map(Literal::Integer))
            }
            (Kind::Date, ListKind::Unsettled | ListKind::Date) => {
                *kind = ListKind::Date;
                Ok(self.date().map(Literal::Date))
            }
            _ => self.refuse(),
        }
    }

    /// One of the ten forms between bars.
    fn interval(&mut self, kind: &mut ListKind) -> Read<Option<Item<'t>>> {
        self.expect(Kind::Bar)?;
        let opening = self.token.kind;
        if matches!(opening, Kind::Less | Kind::LessEqual | Kind::Greater | Kind::GreaterEqual) {
            self.take();
        }
        let value = self.literal(kind)?;
        match (opening, self.token.kind) {
            (Kind::Less, _) => self.close_interval(*kind, End::Missing, End::Open(value)),
            (Kind::LessEqual, _) => self.close_interval(*kind, End::Missing, End::Closed(value)),
            (Kind::GreaterEqual, _) => self.close_interval(*kind, End::Closed(value), End::Missing),
            (Kind::Greater, Kind::Ellipsis) => self.second_end(kind, End::Open(value)),
            (Kind::Greater, _) => self.close_interval(*kind, End::Open(value), End::Missing),
            (_, Kind::Ellipsis) => self.second_end(kind, End::Closed(value)),
            (_, Kind::PlusMinus) if *kind == ListKind::Integer => self.plus_minus(value),
            _ => self.close_interval(*kind, End::Closed(value), End::Closed(value)),
        }
    }

    /// `..b|` or `..<b|`
    fn second_end(&mut self, kind: &mut ListKind, low: End<Option<Literal>>) -> Read<Option<Item<'t>>> {
        self.expect(Kind::Ellipsis)?;
        let open = self.token.kind == Kind::Less;
        if open {
            self.take();
        }
        let value = self.literal(kind)?;
        let high = if open { End::Open(value) } else { End::Closed(value) };
        self.close_interval(*kind, low, high)
    }

    /// The closing bar; "6: empty interval | closing bar".
    fn close_interval(
        &mut self,
        kind: ListKind,
        low: End<Option<Literal>>,
        high: End<Option<Literal>>,
    ) -> Read<Option<Item<'t>>> {
        let bar = self.expect(Kind::Bar)?;
        let (Some(low), Some(high)) = (low.convert(|value| value), high.convert(|value| value)) else {
            return Ok(None);
        };
        let item = if kind == ListKind::Date {
            pair(low, high, Literal::date).map(Item::Date)
        } else {
            pair(low, high, Literal::integer).map(Item::Integer)
        };
        if item.is_none() {
            self.faults.add(6, bar.start);
        }
        Ok(item)
    }

    /// `+/-d|`; "`+/-` result outside | literal (d for `+/-`)".
    fn plus_minus(&mut self, value: Option<Literal>) -> Read<Option<Item<'t>>> {
        self.expect(Kind::PlusMinus)?;
        if self.token.kind != Kind::Integer {
            return self.refuse();
        }
        let place = self.token.start;
        let distance = self.integer();
        let mut ends = None;
        if let (Some(Literal::Integer(middle)), Some(distance)) = (value, distance) {
            ends = middle.checked_sub(distance).zip(middle.checked_add(distance));
            if ends.is_none() {
                self.faults.add(5, place);
            }
        }
        let literals = ends.map(|(low, high)| (Literal::Integer(low), Literal::Integer(high)));
        let (low, high) = literals.unzip();
        self.close_interval(ListKind::Integer, End::Closed(low), End::Closed(high))
    }
}

/// The closed pair of two ends whose literals are all of one kind.
fn pair<T: crate::intervals::Ordered>(
    low: End<Literal>,
    high: End<Literal>,
    value: fn(Literal) -> Option<T>,
) -> Option<(T, T)> {
    closed_pair(low.convert(value)?, high.convert(value)?)
}
