//! The shape of a constraint: what a constraint text says, apart from its spelling.

use super::calendar::LAST_DAY;
use super::random::Random;

/// Lowest and highest integer.
pub const LOWEST: i64 = -2_147_483_648;
pub const HIGHEST: i64 = 2_147_483_647;

/// An object; no attributes means `*`.
#[derive(Clone, Debug, PartialEq, Eq)]
pub struct Object {
    pub type_name: Vec<u8>,
    pub code: Option<Vec<u8>>,
    pub attributes: Vec<Attribute>,
}

/// An attribute; existence 0 is 0..0, 1 is 0..1, 2 is 1..1.
#[derive(Clone, Debug, PartialEq, Eq)]
pub struct Attribute {
    pub name: Vec<u8>,
    pub existence: u8,
    pub value: Value,
}

/// What stands in an attribute. Integers and dates (day numbers) are closed pairs.
#[derive(Clone, Debug, PartialEq, Eq)]
pub enum Value {
    Any,
    Object(Object),
    Booleans(Vec<bool>),
    Integers(Vec<(i64, i64)>),
    Strings(Vec<Vec<u8>>),
    DatePattern(u8),
    Dates(Vec<(i64, i64)>),
    TimePattern(u8),
    /// The flag of its slots.
    DurationPattern(u8),
}

/// What a random shape may hold.
#[derive(Clone, Debug)]
pub struct Plan {
    /// How often (in 1,000) a place gets a fault; 0 makes a shape without faults.
    pub faults: usize,
    /// Objects nest to this level at most.
    pub depth: usize,
    /// Whether some branch must reach that level.
    pub chain: bool,
    /// How many attributes and items are left to give.
    pub budget: usize,
}

pub const NAMES: [&[u8]; 18] = [
    b"a", b"b", b"c", b"aa", b"ab", b"abc", b"value", b"a1", b"a_", b"matchesx", b"matche", b"existence1", b"existenc",
    b"yyyy", b"mm", b"at0001", b"true", b"x9Z_",
];

pub const TYPES: [&[u8]; 26] = [
    b"A", b"B", b"C", b"AB", b"ABC", b"A1", b"A_b", b"ELEMENT", b"True1", b"Tru", b"Falsey", b"TRUE", b"FALSE", b"T",
    b"Thh", b"XX", b"X", b"Z", b"Pd", b"Pwd", b"PTm", b"PymwdThms", b"P", b"PT", b"PD", b"PdX",
];

const CODES: [&[u8]; 7] = [b"at0000", b"at0001", b"at1", b"at0001.1", b"at0.0.1", b"at0000.0.0.12", b"at00000000"];

const STRINGS: [&[u8]; 12] =
    [b"", b"a", b"b", b"ab", b"abc", b"A", b" ", b"--", b"a b", b"{|},*", b"~!#'()[]<>", b"0123456789"];

impl Plan {
    /// A plan without faults and of common size.
    pub fn clean(random: &mut Random) -> Plan {
        let chain = random.one_in(24);
        Plan {
            faults: 0,
            depth: if chain { 14 + random.below(3) } else { 1 + random.below(4) },
            chain,
            budget: 2 + random.below(14),
        }
    }

    /// A plan that lets faults in.
    pub fn faulty(random: &mut Random) -> Plan {
        let mut plan = Plan::clean(random);
        plan.faults = random.one_of(&[8, 30, 100, 300]);
        plan.chain = random.one_in(8);
        if plan.chain {
            plan.depth = 15 + random.below(5);
        }
        plan
    }

    fn fault(&self, random: &mut Random) -> bool {
        self.faults > 0 && random.below(1000) < self.faults
    }

    /// Faults that would drown the others are rarer.
    fn rare_fault(&self, random: &mut Random) -> bool {
        self.fault(random) && random.one_in(4)
    }

    fn spend(&mut self, count: usize) {
        self.budget = self.budget.saturating_sub(count);
    }
}

/// A random object at a level (the outermost has level 1).
pub fn object(random: &mut Random, plan: &mut Plan, level: usize) -> Object {
    let type_name = type_name(random, plan);
    let code = random.one_in(4).then(|| code(random, plan));
    let forced = plan.chain && level < plan.depth;
    let count = attribute_count(random, plan, level, forced);
    let deep = random.below(count.max(1));
    let mut attributes: Vec<Attribute> = Vec::with_capacity(count);
    for index in 0..count {
        let name = attribute_name(random, plan, &attributes);
        plan.spend(1);
        let value = if forced && index == deep {
            Value::Object(object(random, plan, level + 1))
        } else {
            value(random, plan, level)
        };
        attributes.push(Attribute { name, existence: random.one_of(&[0, 1, 1, 2, 2, 2]), value });
    }
    Object { type_name, code, attributes }
}

fn attribute_count(random: &mut Random, plan: &Plan, level: usize, forced: bool) -> usize {
    let wanted = if random.one_in(if level == 1 { 20 } else { 4 }) {
        0
    } else if plan.chain {
        1 + random.below(2)
    } else {
        1 + random.below(4)
    };
    wanted.min(plan.budget).max(usize::from(forced))
}

fn value(random: &mut Random, plan: &mut Plan, level: usize) -> Value {
    if level < plan.depth && random.percent(if plan.chain { 5 } else { 35 }) {
        return Value::Object(object(random, plan, level + 1));
    }
    if random.one_in(16) {
        return Value::Any;
    }
    leaf(random, plan)
}

fn leaf(random: &mut Random, plan: &mut Plan) -> Value {
    match random.below(18) {
        0 | 1 => Value::Booleans(booleans(random, plan)),
        2..=5 => Value::Integers(integers(random, plan)),
        6..=8 => Value::Strings(strings(random, plan)),
        9 | 10 => Value::DatePattern(1 + random.below(5) as u8),
        11 | 12 => Value::Dates(dates(random, plan)),
        13 | 14 => Value::TimePattern(1 + random.below(4) as u8),
        _ => Value::DurationPattern(duration_flag(random)),
    }
}

/// The flag of a Duration pattern, of one or two slots in most cases.
pub fn duration_flag(random: &mut Random) -> u8 {
    let slot = |random: &mut Random| 1 << random.below(7);
    match random.below(5) {
        0 | 1 => slot(random),
        2 | 3 => slot(random) | slot(random),
        _ => 1 + random.below(127) as u8,
    }
}

/// A leaf without faults.
pub fn clean_leaf(random: &mut Random) -> Value {
    let mut plan = Plan::clean(random);
    leaf(random, &mut plan)
}

fn booleans(random: &mut Random, plan: &Plan) -> Vec<bool> {
    let first = random.coin();
    if plan.fault(random) {
        return vec![first; 2 + random.below(2)];
    }
    if random.coin() {
        vec![first]
    } else {
        vec![first, !first]
    }
}

/// How many items a list gets: few in most cases, 15 or 16 at times, 17 and more only as a fault.
fn item_count(random: &mut Random, plan: &mut Plan) -> usize {
    let count = if plan.fault(random) || (plan.faults > 0 && random.one_in(6)) {
        16 + random.below(4)
    } else if random.one_in(60) {
        15 + random.below(2)
    } else {
        1 + random.below(3).min(random.below(4))
    };
    plan.spend(count);
    count
}

/// Random integer pairs.
fn integers(random: &mut Random, plan: &mut Plan) -> Vec<(i64, i64)> {
    let count = item_count(random, plan);
    let starts = [-3, 0, 5, 95, 999, LOWEST, LOWEST + 1, HIGHEST - 3, HIGHEST - 40];
    let start = if random.one_in(3) { random.between(LOWEST, HIGHEST) } else { random.one_of(&starts) };
    pairs(random, plan, count, start, LOWEST, HIGHEST)
}

/// Random date pairs, as day numbers.
fn dates(random: &mut Random, plan: &mut Plan) -> Vec<(i64, i64)> {
    let count = item_count(random, plan);
    let starts = [0, 1, 58, 59, 730_119, 730_178, 730_179, 731_580, LAST_DAY - 400, LAST_DAY - 1, LAST_DAY];
    let start = if random.one_in(3) { random.between(0, LAST_DAY) } else { random.one_of(&starts) };
    pairs(random, plan, count, start, 0, LAST_DAY)
}

/// Pairs one above the other, touching at times, in any order; with faults they overlap or are empty.
fn pairs(random: &mut Random, plan: &Plan, count: usize, start: i64, low: i64, high: i64) -> Vec<(i64, i64)> {
    let mut list = Vec::with_capacity(count);
    let mut next = start;
    for _ in 0..count {
        let width = if random.coin() { 0 } else { random.one_of(&[1, 2, 3, 9, 30, 365, 100_000]) };
        if next > high {
            break;
        }
        let end = (next + width).min(high);
        list.push((next, end));
        next = end + 1 + random.one_of(&[0, 0, 1, 1, 2, 5, 31, 1_000]);
    }
    if random.one_in(6) {
        list[0].0 = low;
    }
    if random.one_in(6) {
        let last = list.len() - 1;
        list[last].1 = high;
    }
    if plan.faults > 0 {
        spoil_pairs(random, plan, &mut list);
    }
    if random.coin() {
        random.shuffle(&mut list);
    }
    list
}

fn spoil_pairs(random: &mut Random, plan: &Plan, list: &mut Vec<(i64, i64)>) {
    if plan.fault(random) {
        let copy = random.one_of(list);
        list.push(copy);
    }
    if plan.fault(random) {
        let copy = random.one_of(list);
        list.push((copy.1, copy.1 + 2));
    }
    if plan.fault(random) {
        let at = random.below(list.len());
        list[at].0 = list[at].1 + 1;
    }
    if plan.fault(random) {
        let at = random.below(list.len());
        list[at].0 -= random.between(0, 40);
    }
    if plan.fault(random) {
        let at = random.below(list.len());
        list[at].1 = random.one_of(&[HIGHEST + 1, LAST_DAY + 1, 9_999_999_999]);
    }
}

fn strings(random: &mut Random, plan: &mut Plan) -> Vec<Vec<u8>> {
    let count = item_count(random, plan);
    let mut list: Vec<Vec<u8>> = Vec::with_capacity(count);
    for index in 0..count {
        let mut item = string(random, plan);
        if list.contains(&item) && !plan.fault(random) {
            item.truncate(240);
            item.extend_from_slice(format!("{index}").as_bytes());
        }
        if !list.contains(&item) || plan.faults > 0 {
            list.push(item);
        }
    }
    list
}

fn string(random: &mut Random, plan: &Plan) -> Vec<u8> {
    if plan.rare_fault(random) {
        return vec![b'q'; 255 + random.below(3)];
    }
    if random.one_in(150) {
        return vec![b'q'; 253 + random.below(3)];
    }
    random.pick(&STRINGS).to_vec()
}

/// A TYPE.
pub fn type_name(random: &mut Random, plan: &Plan) -> Vec<u8> {
    if let Some(name) = long_name(random, plan, b'T') {
        return name;
    }
    random.pick(&TYPES).to_vec()
}

/// A long run of letters: 62 or 63 at times, 64 and more as a fault.
fn long_name(random: &mut Random, plan: &Plan, first: u8) -> Option<Vec<u8>> {
    let length = if plan.rare_fault(random) {
        63 + random.below(3)
    } else if random.one_in(150) {
        62 + random.below(2)
    } else {
        return None;
    };
    let mut name = vec![random.one_of(b"ab_Z9"); length];
    name[0] = first;
    Some(name)
}

fn code(random: &mut Random, plan: &Plan) -> Vec<u8> {
    let length = if plan.rare_fault(random) {
        31 + random.below(3)
    } else if random.one_in(40) {
        30 + random.below(2)
    } else {
        return random.pick(&CODES).to_vec();
    };
    let mut code = b"at0001.".to_vec();
    while code.len() + 2 < length {
        code.extend_from_slice(if random.coin() { b"1." } else { b"10" });
    }
    code.resize(length, b'7');
    code
}

fn attribute_name(random: &mut Random, plan: &Plan, others: &[Attribute]) -> Vec<u8> {
    let mut name = match long_name(random, plan, b'n') {
        Some(name) => name,
        None => random.pick(&NAMES).to_vec(),
    };
    if others.iter().any(|other| other.name == name) && !plan.fault(random) {
        name = format!("n{}", others.len()).into_bytes();
    }
    name
}

/// An object with one long list of items that overlap, touch or are empty as it comes.
pub fn crowded_object(random: &mut Random) -> Object {
    let most = if random.one_in(4) { 19 } else { 6 };
    let count = 1 + random.below(most);
    let span = random.one_of(&[4, 12, 60]);
    let base = random.one_of(&[0, 3, 730_170, LAST_DAY - 6]);
    let mut pair = |_| {
        let low = base + random.between(0, span);
        (low, low + random.one_of(&[-1, 0, 0, 0, 1, 1, 2, 5]))
    };
    let pairs: Vec<(i64, i64)> = (0..count).map(&mut pair).collect();
    let value = match random.below(3) {
        0 => Value::Dates(pairs),
        1 => Value::Integers(pairs),
        _ => {
            let shift = random.one_of(&[LOWEST - base - 1, -base, HIGHEST - base - span]);
            Value::Integers(pairs.iter().map(|pair| (pair.0 + shift, pair.1 + shift)).collect())
        }
    };
    let attribute = Attribute { name: b"a".to_vec(), existence: 2, value };
    Object { type_name: b"A".to_vec(), code: None, attributes: vec![attribute] }
}

/// A short name that differs for each number.
pub fn numbered_name(mut number: usize) -> Vec<u8> {
    let mut name = vec![b'a' + (number % 26) as u8];
    number /= 26;
    while number > 0 {
        name.push(b'a' + (number % 26) as u8);
        number /= 26;
    }
    name
}

/// An object that makes exactly this many records (1 and more), in few bytes of text when its
/// integers are spelled as plain values.
pub fn wide_object(random: &mut Random, records: usize) -> Object {
    let mut attributes = Vec::new();
    let mut left = records - 1;
    while left > 0 {
        let name = numbered_name(attributes.len());
        let value = wide_value(random, left);
        left -= 1 + records_of_value(&value);
        attributes.push(Attribute { name, existence: 2, value });
    }
    Object { type_name: b"A".to_vec(), code: None, attributes }
}

fn wide_value(random: &mut Random, left: usize) -> Value {
    let most = (left - 1).min(16);
    if most == 0 {
        return Value::Any;
    }
    if most == 1 && random.coin() {
        return Value::DurationPattern(duration_flag(random));
    }
    match random.below(24) {
        0 => Value::Booleans(vec![true]),
        1 => Value::Object(Object { type_name: b"B".to_vec(), code: None, attributes: Vec::new() }),
        2 => Value::DurationPattern(duration_flag(random)),
        3 | 4 => Value::Strings((0..most).map(|i| vec![b'a' + i as u8]).collect()),
        _ => Value::Integers((0..most as i64).map(|i| (i, i)).collect()),
    }
}

/// How many records an object takes.
pub fn records_of(object: &Object) -> usize {
    1 + object.attributes.iter().map(|a| 1 + records_of_value(&a.value)).sum::<usize>()
}

fn records_of_value(value: &Value) -> usize {
    match value {
        Value::Any => 0,
        Value::Object(object) => records_of(object),
        Value::Booleans(_) | Value::DatePattern(_) | Value::TimePattern(_) | Value::DurationPattern(_) => 1,
        Value::Integers(list) | Value::Dates(list) => list.len(),
        Value::Strings(list) => list.len(),
    }
}
