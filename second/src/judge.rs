//! Judging a data text by a table at a named root.

use crate::api::JudgeAnswer;
use crate::data::{self, Block, Datum, LeafValue, Tree};
use crate::durations;
use crate::faults::Fault;
use crate::numbers;
use crate::patterns;
use crate::table::{Record, RecordNumber, Table};
use crate::words::{self, PartialDate};

/// "Judge: table, 14, then the whole data text (1 to 5, 9), then 20 to 24."
pub fn judge(table: &[u8], root: u32, data: &[u8]) -> JudgeAnswer {
    let table = match Table::read(table) {
        Ok(table) => table,
        Err(fault) => return refused(fault),
    };
    let root = RecordNumber(root);
    if !matches!(table.record(root), Some(Record::Object { .. })) {
        return refused(Fault { number: 14, place: u64::from(root.0) });
    }
    let data = match data::read(data) {
        Ok(data) => data,
        Err(fault) => return refused(fault),
    };
    let mut judge = Judge { seen: Seen::new(table.records.len(), data.data), table: &table, data: &data };
    match judge.block(root, &data.blocks[0]) {
        Ok(()) => JudgeAnswer::Valid,
        Err(failure) => {
            JudgeAnswer::Verdict { reason: failure.reason, record: failure.record.0, place: failure.place as u64 }
        }
    }
}

fn refused(fault: Fault) -> JudgeAnswer {
    JudgeAnswer::Refused { number: fault.number, place: fault.place }
}

/// The first failure of the walk.
struct Failure {
    reason: u32,
    record: RecordNumber,
    place: usize,
}

fn fail(reason: u32, record: RecordNumber, place: usize) -> Result<(), Failure> {
    Err(Failure { reason, record, place })
}

/// The pairs of record and datum that the walk has come by. Since the first failure ends the walk, a
/// pair met again has been admitted, and with it all that follows the record in its chain: records may
/// be shared, and each pair is walked once.
struct Seen {
    bits: Vec<u64>,
    data: usize,
}

impl Seen {
    fn new(records: usize, data: usize) -> Seen {
        Seen { bits: vec![0; (records * data).div_ceil(64)], data }
    }

    /// Whether the pair is met for the first time.
    fn first_time(&mut self, record: RecordNumber, datum: usize) -> bool {
        let index = record.0 as usize * self.data + datum;
        let (word, bit) = (index / 64, 1 << (index % 64));
        let first = self.bits[word] & bit == 0;
        self.bits[word] |= bit;
        first
    }
}

struct Judge<'a> {
    table: &'a Table<'a>,
    data: &'a Tree<'a>,
    seen: Seen,
}

impl<'a> Judge<'a> {
    /// "Judging walks type first, then attributes in table order, each finished before the next".
    /// The data text has no more than 16 levels, and each call goes one level down in it.
    fn block(&mut self, object: RecordNumber, block: &'a Block<'a>) -> Result<(), Failure> {
        let Some(Record::Object { type_name, first, .. }) = self.table.record(object) else {
            return Ok(());
        };
        if block.type_name.is_some_and(|written| written != self.table.part(type_name)) {
            return fail(21, object, block.place);
        }
        let mut next = first;
        while next.0 != 0 && self.seen.first_time(next, block.number) {
            next = self.attribute(next, block)?;
        }
        Ok(())
    }

    /// One attribute of a block; answers the number of the next.
    fn attribute(&mut self, number: RecordNumber, block: &'a Block<'a>) -> Result<RecordNumber, Failure> {
        let Some(Record::Attribute { existence, name, value, next }) = self.table.record(number) else {
            return Ok(RecordNumber(0));
        };
        match block.member(self.table.part(name)) {
            None if existence == 2 => fail(22, number, block.place)?,
            None => {}
            Some(member) if existence == 0 => fail(23, number, member.value.place(self.data))?,
            Some(_) if value.0 == 0 => {}
            Some(member) => self.datum(value, &member.value)?,
        }
        Ok(next)
    }

    /// "20: block for leaf or leaf for block | record that c names, its datum's `<`"
    fn datum(&mut self, value: RecordNumber, datum: &'a Datum<'a>) -> Result<(), Failure> {
        let is_object = matches!(self.table.record(value), Some(Record::Object { .. }));
        match datum {
            Datum::Block(index) if is_object => self.block(value, &self.data.blocks[*index]),
            Datum::Leaf(leaf) if !is_object => match self.leaf(value, leaf.number, leaf.value) {
                None => fail(20, value, leaf.place),
                Some(false) => fail(24, value, leaf.place),
                Some(true) => Ok(()),
            },
            _ => fail(20, value, datum.place(self.data)),
        }
    }

    /// Whether a leaf is admitted; nothing if it is unreadable as the kind asked.
    fn leaf(&mut self, first: RecordNumber, datum: usize, value: LeafValue) -> Option<bool> {
        match (self.table.record(first)?, value) {
            (Record::Text { .. }, LeafValue::Text(string)) => Some(self.some_string(first, datum, string)),
            (Record::Boolean { flag }, LeafValue::Word(word)) => {
                words::boolean(word).map(|value| flag & if value { 1 } else { 2 } != 0)
            }
            (Record::Integer { .. }, LeafValue::Word(word)) => {
                numbers::integer(word).map(|value| self.some_integer(first, datum, value))
            }
            (Record::DatePattern { flag }, LeafValue::Word(word)) => {
                words::date(word).map(|date| patterns::admits_date(flag, date))
            }
            (Record::DateInterval { .. }, LeafValue::Word(word)) => {
                words::date(word).map(|date| self.some_date(first, datum, date))
            }
            (Record::TimePattern { flag }, LeafValue::Word(word)) => {
                words::time(word).map(|time| patterns::admits_time(flag, time))
            }
            (Record::DurationPattern { flag }, LeafValue::Word(word)) => {
                durations::word(word).map(|filled| durations::admits(flag, filled))
            }
            _ => None,
        }
    }

    /// "Lists admit a value in some item". The loops end at a pair met before, which was admitted.
    fn some_string(&mut self, first: RecordNumber, datum: usize, string: &[u8]) -> bool {
        let mut number = first;
        while let Some(Record::Text { part, next }) = self.table.record(number) {
            if !self.seen.first_time(number, datum) || self.table.part(part) == string {
                return true;
            }
            number = next;
        }
        false
    }

    fn some_integer(&mut self, first: RecordNumber, datum: usize, value: i32) -> bool {
        let mut number = first;
        while let Some(Record::Integer { low, high, next }) = self.table.record(number) {
            if !self.seen.first_time(number, datum) || (low..=high).contains(&value) {
                return true;
            }
            number = next;
        }
        false
    }

    /// "a date interval admits full dates only"
    fn some_date(&mut self, first: RecordNumber, datum: usize, date: PartialDate) -> bool {
        let PartialDate::Full(date) = date else {
            return false;
        };
        let mut number = first;
        while let Some(Record::DateInterval { low, high, next }) = self.table.record(number) {
            if !self.seen.first_time(number, datum) || (low..=high).contains(&date) {
                return true;
            }
            number = next;
        }
        false
    }
}
