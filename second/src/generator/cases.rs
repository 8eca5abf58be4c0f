//! The cases: one struct for each kind, and the maker that makes case `number` of a seed.

use super::broken::broken;
use super::damage::{any_bytes, cut, edit_bytes, pad, splice};
use super::data::{any_word, data, DataPlan, STRANGERS as DATA_STRANGERS};
use super::handmade::{large_table, small_table, table as handmade};
use super::random::Random;
use super::rules::merged_length;
use super::shape::{
    clean_leaf, crowded_object, duration_flag, object, records_of, wide_object, Attribute, Object, Plan, Value,
};
use super::spelling::{duration_pattern, spell, Spelling, NEAR_DURATIONS, STRANGERS as TEXT_STRANGERS};
use super::tables::{any_order, mixed, shape_of, table_of, Table, MOST_POOL, MOST_RECORDS, RECORD};
use super::tokens::{any_style, Style, Tokens};

/// The longest table that passes the check.
pub const LONGEST_TABLE: usize = RECORD * MOST_RECORDS + MOST_POOL;

/// Compile a text into an output of `room` bytes, filled as `filling` says.
#[derive(Clone, Debug, PartialEq, Eq)]
pub struct CompileCase {
    pub text: Vec<u8>,
    pub little: bool,
    pub room: usize,
    pub fill: u8,
}

/// Check a table.
#[derive(Clone, Debug, PartialEq, Eq)]
pub struct CheckCase {
    pub table: Vec<u8>,
}

/// Merge two tables into an output of `room` bytes, filled as `filling` says.
#[derive(Clone, Debug, PartialEq, Eq)]
pub struct MergeCase {
    pub first: Vec<u8>,
    pub second: Vec<u8>,
    pub little: bool,
    pub room: usize,
    pub fill: u8,
}

/// Judge a data text by a table at a root.
#[derive(Clone, Debug, PartialEq, Eq)]
pub struct JudgeCase {
    pub table: Vec<u8>,
    pub root: u32,
    pub data: Vec<u8>,
}

/// Ask for the name of a record.
#[derive(Clone, Debug, PartialEq, Eq)]
pub struct NameCase {
    pub table: Vec<u8>,
    pub record: u32,
}

/// The other table of a merge in a list.
#[derive(Clone, Debug, PartialEq, Eq)]
pub enum Other {
    Bytes(Vec<u8>),
    /// The carried table's own bytes.
    Carried,
}

/// Room for output, against the length that is needed.
#[derive(Clone, Copy, Debug, PartialEq, Eq)]
pub enum Room {
    Exact,
    Over(usize),
    Under(usize),
    Fixed(usize),
}

impl Room {
    pub fn bytes(self, needed: usize) -> usize {
        match self {
            Room::Exact => needed,
            Room::Over(more) => needed + more,
            Room::Under(less) => needed.saturating_sub(less),
            Room::Fixed(bytes) => bytes,
        }
    }
}

/// One merge of a list.
#[derive(Clone, Debug, PartialEq, Eq)]
pub struct Step {
    pub other: Other,
    pub carried_first: bool,
    pub little: bool,
    pub room: Room,
    pub fill: u8,
}

/// A text with a list of merges, data texts, and numbers to ask for as roots and records.
#[derive(Clone, Debug, PartialEq, Eq)]
pub struct ListCase {
    pub text: Vec<u8>,
    pub little: bool,
    pub room: Room,
    pub fill: u8,
    pub steps: Vec<Step>,
    pub data: Vec<Vec<u8>>,
    pub asked: Vec<u32>,
}

/// A constraint text that was made, the shape it began from, and whether it says just that shape.
#[derive(Clone, Debug)]
pub struct MadeText {
    pub text: Vec<u8>,
    pub shape: Object,
    pub clean: bool,
}

/// What an output buffer holds before a job: byte `i` is (fill + 151 × i) mod 256.
pub fn filling(fill: u8, room: usize) -> Vec<u8> {
    (0..room).map(|i| fill.wrapping_add((i as u8).wrapping_mul(151))).collect()
}

/// Makes cases of a seed. Case `number` depends on the seed, the kind and the number alone.
pub struct Maker {
    seed: u64,
    /// Sound tables close to the limits, made once.
    large: Vec<Vec<u8>>,
}

const COMPILE: u64 = 1;
const CHECK: u64 = 2;
const MERGE: u64 = 3;
const JUDGE: u64 = 4;
const NAME: u64 = 5;
const LIST: u64 = 6;
const TEXT: u64 = 7;
const LARGE: u64 = 8;

impl Maker {
    pub fn new(seed: u64) -> Maker {
        let large = (0..24).map(|number| large_table(&mut Random::new(seed, LARGE, number)).bytes()).collect();
        Maker { seed, large }
    }

    /// A constraint text alone.
    pub fn text(&self, number: u64) -> MadeText {
        made_text(&mut Random::new(self.seed, TEXT, number))
    }

    pub fn compile(&self, number: u64) -> CompileCase {
        let random = &mut Random::new(self.seed, COMPILE, number);
        let made = made_text(random);
        let needed = if made.clean { table_length(&made.shape) } else { LONGEST_TABLE };
        let room = if made.clean { any_room(random) } else { Room::Exact };
        CompileCase { text: made.text, little: random.coin(), room: room.bytes(needed), fill: random.byte() }
    }

    pub fn check(&self, number: u64) -> CheckCase {
        let random = &mut Random::new(self.seed, CHECK, number);
        let made = made_text(random);
        CheckCase { table: self.any_table(random, &made.shape) }
    }

    pub fn merge(&self, number: u64) -> MergeCase {
        let random = &mut Random::new(self.seed, MERGE, number);
        let shape = clean_shape(random);
        let mut first = self.any_table(random, &shape);
        let mut second = if random.one_in(12) { first.clone() } else { self.any_table(random, &shape) };
        if random.coin() {
            std::mem::swap(&mut first, &mut second);
        }
        let fair = first.len() >= RECORD && second.len() >= RECORD;
        let needed = if fair { merged_length(&first, &second) } else { first.len() + second.len() };
        let room = any_room(random).bytes(needed.min(2 * LONGEST_TABLE));
        MergeCase { first, second, little: random.coin(), room, fill: random.byte() }
    }

    pub fn judge(&self, number: u64) -> JudgeCase {
        let random = &mut Random::new(self.seed, JUDGE, number);
        match random.below(100) {
            0..=54 => return judge_shape(random),
            55..=64 => return judge_leaf(random),
            _ => {}
        }
        let shape = clean_shape(random);
        let bytes = self.any_table(random, &shape);
        let table = Table::read(&bytes);
        let objects: Vec<usize> = (0..table.records.len()).filter(|&n| table.records[n].kind == 1).collect();
        let root = if objects.is_empty() || random.one_in(8) {
            any_number(random, table.records.len())
        } else {
            random.one_of(&objects) as u32
        };
        let data = data_text(random, &shape_of(&table, root as usize));
        JudgeCase { table: bytes, root, data }
    }

    pub fn name(&self, number: u64) -> NameCase {
        let random = &mut Random::new(self.seed, NAME, number);
        let shape = clean_shape(random);
        let table = self.any_table(random, &shape);
        let count = Table::read(&table).records.len();
        let record = if random.percent(70) { random.below(count.max(1)) as u32 } else { any_number(random, count) };
        NameCase { table, record }
    }

    pub fn list(&self, number: u64) -> ListCase {
        let random = &mut Random::new(self.seed, LIST, number);
        let made = made_text(random);
        let shape = &made.shape;
        let data = (0..=random.below(5)).map(|_| data_text(random, shape)).collect();
        let count = random.one_of(&[0, 1, 1, 1, 2, 2, 2, 3, 3, 4, 5, 6]);
        let steps = (0..count).map(|index| self.step(random, shape, index)).collect();
        let asked = (0..random.below(3)).map(|_| any_number(random, 12)).collect();
        ListCase {
            text: made.text,
            little: random.coin(),
            room: any_room(random),
            fill: random.byte(),
            steps,
            data,
            asked,
        }
    }

    fn step(&self, random: &mut Random, shape: &Object, index: usize) -> Step {
        let other = match random.below(250) {
            0..=24 => Other::Carried,
            25 if index == 0 => Other::Bytes(fitting_table(random, shape)),
            _ => Other::Bytes(self.any_table(random, shape)),
        };
        let room = if random.percent(70) { Room::Exact } else { any_room(random) };
        Step { other, carried_first: random.coin(), little: random.coin(), room, fill: random.byte() }
    }

    /// Any bytes for a table: compiled, hand-made, large, in mixed order, broken, or no table at all.
    fn any_table(&self, random: &mut Random, shape: &Object) -> Vec<u8> {
        match random.below(200) {
            0..=79 => fresh_table(random),
            80..=99 => compiled_table(random, shape),
            100..=154 => small_table(random).bytes(),
            155..=169 => {
                let whole = small_table(random).bytes();
                broken(random, &whole)
            }
            170..=189 => {
                let whole = fresh_table(random);
                broken(random, &whole)
            }
            190..=194 => random.pick(&self.large).clone(),
            195 => {
                let whole = random.pick(&self.large).clone();
                if random.coin() {
                    broken(random, &whole)
                } else {
                    mixed(random, &whole)
                }
            }
            196 => Vec::new(),
            _ => any_bytes(random, 80),
        }
    }
}

/// A shape without faults.
pub fn clean_shape(random: &mut Random) -> Object {
    let mut plan = Plan::clean(random);
    object(random, &mut plan, 1)
}

/// The table that compiling makes of a shape, in either order or changed to mixed order.
fn compiled_table(random: &mut Random, shape: &Object) -> Vec<u8> {
    let mut table = table_of(shape);
    let order = any_order(random);
    table.set_order(random, order);
    table.bytes()
}

/// The compiled table of a new shape.
fn fresh_table(random: &mut Random) -> Vec<u8> {
    let shape = clean_shape(random);
    compiled_table(random, &shape)
}

/// The length of a shape's table.
pub fn table_length(shape: &Object) -> usize {
    table_of(shape).bytes().len()
}

/// A table that, merged with the shape's own, comes to a limit exactly or goes one above.
fn fitting_table(random: &mut Random, shape: &Object) -> Vec<u8> {
    let own = table_of(shape);
    let beyond = random.below(3);
    if random.coin() {
        let count = (MOST_RECORDS + beyond).saturating_sub(own.records.len()).max(2);
        handmade(random, count.min(MOST_RECORDS), 20).bytes()
    } else {
        let pool = (MOST_POOL - 1 + beyond).saturating_sub(own.pool.len()).max(1);
        handmade(random, 6, pool.min(MOST_POOL)).bytes()
    }
}

fn any_room(random: &mut Random) -> Room {
    match random.below(8) {
        0..=2 => Room::Exact,
        3 | 4 => Room::Over(1 + random.below(40)),
        5 => Room::Under(1),
        6 => Room::Under(2 + random.below(60)),
        _ => Room::Fixed(random.one_of(&[0, 0, 1, 24, 48, 73, 74])),
    }
}

/// Roots and record numbers to ask for.
fn any_number(random: &mut Random, count: usize) -> u32 {
    match random.below(8) {
        0 => 0,
        1 => count as u32,
        2 => count as u32 + 1,
        3 => u32::MAX,
        4 => random.bits() as u32,
        5 => (count as u32).saturating_sub(1),
        _ => random.below(count + 1) as u32,
    }
}

/// A constraint text: without faults in most cases, else with faults in its shape or spelling,
/// damaged, near a limit, or any bytes.
fn made_text(random: &mut Random) -> MadeText {
    match random.below(1000) {
        0..=12 => wide_text(random),
        13..=24 => {
            let mut made = clean_text(random);
            pad(random, &mut made.text);
            made.clean = false;
            made
        }
        25..=734 => clean_text(random),
        735..=759 => duration_text(random),
        760..=789 => crowded_text(random),
        790..=889 => faulty_text(random),
        890..=929 => edited_text(random),
        _ => damaged_text(random),
    }
}

fn clean_text(random: &mut Random) -> MadeText {
    let shape = clean_shape(random);
    let tokens = spell(random, &shape, Spelling { faults: 0, plain: false });
    let style = any_style(random);
    let text = tokens.text(random, style, false);
    MadeText { text, shape, clean: true }
}

/// A text of about as many records as a table holds.
fn wide_text(random: &mut Random) -> MadeText {
    let records = MOST_RECORDS - 2 + random.below(4);
    let shape = wide_object(random, records);
    let tokens = spell(random, &shape, Spelling { faults: 0, plain: true });
    let text = tokens.text(random, Style::Tight, false);
    let clean = records_of(&shape) < MOST_RECORDS;
    MadeText { text, shape, clean }
}

fn faulty_text(random: &mut Random) -> MadeText {
    let mut plan = Plan::faulty(random);
    let shape = object(random, &mut plan, 1);
    let faults = random.one_of(&[0, 0, 30, 120, 300]);
    let tokens = spell(random, &shape, Spelling { faults, plain: false });
    let style = any_style(random);
    let text = tokens.text(random, style, false);
    MadeText { text, shape, clean: false }
}

/// A text with one list of items that overlap or have faults of their own.
fn crowded_text(random: &mut Random) -> MadeText {
    let shape = crowded_object(random);
    let faults = random.one_of(&[0, 60, 200]);
    let mut tokens = spell(random, &shape, Spelling { faults, plain: false });
    if random.one_in(4) {
        tokens.edit(random, &TEXT_STRANGERS);
    }
    let style = any_style(random);
    let text = tokens.text(random, style, false);
    MadeText { text, shape, clean: false }
}

/// A Duration pattern or a token close to one, with what may stand behind it, where a value may stand or where a
/// TYPE may, at any level and around the 17th.
fn duration_text(random: &mut Random) -> MadeText {
    let flag = duration_flag(random);
    let levels = if random.coin() { 1 + random.below(3) } else { 15 + random.below(3) };
    let own = duration_pattern(flag);
    let token: &[u8] = if random.one_in(3) { random.one_of(&NEAR_DURATIONS) } else { &own };
    let behind: &[&[u8]] = match random.below(12) {
        0 => &[b"matches", b"{", b"*", b"}"],
        1 => &[b"[at1]", b"matches", b"{", b"*", b"}"],
        2 => &[b"[at1]"],
        3 => &[b";"],
        4 => &[b",", b"Pd"],
        5 => &[b"Pd"],
        6 => &[b"x"],
        _ => &[],
    };
    let mut tokens = Tokens::new();
    for level in 0..levels {
        let is_type = level == 0 && random.one_in(12);
        tokens.push(if is_type { &own } else { b"A" });
        for part in [&b"matches"[..], b"{", b"a", b"matches", b"{"] {
            tokens.push(part);
        }
    }
    tokens.push(token);
    for part in behind {
        tokens.push(part);
    }
    let ends = if random.one_in(4) { random.below(2 * levels + 2) } else { 2 * levels };
    for _ in 0..ends {
        tokens.push(b"}");
    }
    let style = any_style(random);
    let text = tokens.text(random, style, false);
    let mut shape = Value::DurationPattern(flag);
    for _ in 0..levels {
        let attribute = Attribute { name: b"a".to_vec(), existence: 2, value: shape };
        shape = Value::Object(Object { type_name: b"A".to_vec(), code: None, attributes: vec![attribute] });
    }
    let Value::Object(shape) = shape else {
        return crowded_text(random);
    };
    MadeText { text, shape, clean: false }
}

/// A text with one or two tokens moved, lost, doubled or put in.
fn edited_text(random: &mut Random) -> MadeText {
    let mut plan = if random.coin() { Plan::clean(random) } else { Plan::faulty(random) };
    let shape = object(random, &mut plan, 1);
    let mut tokens = spell(random, &shape, Spelling { faults: 0, plain: false });
    for _ in 0..=random.below(2) {
        tokens.edit(random, &TEXT_STRANGERS);
    }
    let style = any_style(random);
    let text = tokens.text(random, style, false);
    MadeText { text, shape, clean: false }
}

fn damaged_text(random: &mut Random) -> MadeText {
    let mut made = if random.coin() { clean_text(random) } else { faulty_text(random) };
    match random.below(8) {
        0..=3 => edit_bytes(random, &mut made.text),
        4 | 5 => cut(random, &mut made.text),
        6 => {
            let other = clean_text(random);
            splice(random, &mut made.text, &other.text);
        }
        _ => made.text = any_bytes(random, 60),
    }
    made.clean = false;
    made
}

/// A data text that fits a constraint.
pub fn clean_data(random: &mut Random, shape: &Object) -> Vec<u8> {
    let mut plan = DataPlan { wrong: 0, left: 0, faults: 0, deep: 0 };
    let tokens = data(random, shape, &mut plan);
    let style = any_style(random);
    tokens.text(random, style, true)
}

/// A data text shaped after a constraint, damaged at times.
pub fn data_text(random: &mut Random, shape: &Object) -> Vec<u8> {
    let mut plan = DataPlan::any(random);
    let mut tokens = data(random, shape, &mut plan);
    if random.one_in(16) {
        tokens.edit(random, &DATA_STRANGERS);
    }
    let style = any_style(random);
    let mut text = tokens.text(random, style, true);
    match random.below(400) {
        0..=9 => edit_bytes(random, &mut text),
        10..=15 => cut(random, &mut text),
        16..=18 => {
            let mut plan = DataPlan::any(random);
            let other = data(random, shape, &mut plan).text(random, Style::Tight, true);
            splice(random, &mut text, &other);
        }
        19 | 20 => text = any_bytes(random, 60),
        21..=23 => pad(random, &mut text),
        _ => {}
    }
    text
}

/// The table of one leaf, judged with a word that it admits or doesn't.
fn judge_leaf(random: &mut Random) -> JudgeCase {
    let value = if random.one_in(3) { Value::DurationPattern(duration_flag(random)) } else { clean_leaf(random) };
    let word = any_word(random, &value);
    let attribute = Attribute { name: b"a".to_vec(), existence: 2, value };
    let shape = Object { type_name: b"A".to_vec(), code: None, attributes: vec![attribute] };
    let table = compiled_table(random, &shape);
    JudgeCase { table, root: 1, data: [b"<a=<", &word[..], b">>"].concat() }
}

/// A shape's table judged at its root, or at another number at times.
fn judge_shape(random: &mut Random) -> JudgeCase {
    let shape = clean_shape(random);
    let table = compiled_table(random, &shape);
    let data = data_text(random, &shape);
    let count = records_of(&shape) + 1;
    let root = if random.one_in(12) { any_number(random, count) } else { 1 };
    JudgeCase { table, root, data }
}
