//! Makes a failing case small: tries smaller cases as long as one still fails.

use super::cases::{CheckCase, CompileCase, JudgeCase, ListCase, MergeCase, NameCase, Other, Room, Step};
use super::tables::{Table, RECORD};

/// Cases that have smaller ones. Each candidate must be smaller in some sense, so that the search ends.
pub trait Smaller: Clone {
    fn smaller<'a>(&'a self) -> Candidates<'a, Self>;
}

/// Candidates one after the other, made when they are asked for.
pub type Candidates<'a, T> = Box<dyn Iterator<Item = T> + 'a>;

/// The smallest case found that still fails, after at most `most` trials.
pub fn shrink<C: Smaller>(case: &C, most: usize, mut fails: impl FnMut(&C) -> bool) -> C {
    let mut best = case.clone();
    let mut start = 0;
    let mut trials = 0;
    loop {
        let found = best.smaller().enumerate().skip(start).take(most - trials).find(|(_, candidate)| {
            trials += 1;
            fails(candidate)
        });
        match found {
            Some((index, candidate)) => {
                best = candidate;
                start = index;
            }
            None if start == 0 || trials >= most => return best,
            None => start = 0,
        }
        if trials >= most {
            return best;
        }
    }
}

/// Bytes with one piece taken out: large pieces first, at last every piece of 24 bytes and less.
pub fn smaller_bytes(bytes: &[u8]) -> Candidates<'_, Vec<u8>> {
    let length = bytes.len();
    let halves = std::iter::successors(Some(length), |size| Some(size / 2)).take_while(|size| *size > 24);
    let large = halves.flat_map(move |size| (0..length).step_by(size.div_ceil(2)).map(move |at| (at, size)));
    let small = (1..=length.min(24)).rev().flat_map(move |size| (0..=length - size).map(move |at| (at, size)));
    Box::new(large.chain(small).map(move |(at, size)| without(bytes, at, size)))
}

fn without(bytes: &[u8], at: usize, size: usize) -> Vec<u8> {
    let end = (at + size).min(bytes.len());
    [&bytes[..at], &bytes[end..]].concat()
}

/// Tables with a record less, a shorter pool, plainer records, or any bytes taken out.
pub fn smaller_table(bytes: &[u8]) -> Candidates<'_, Vec<u8>> {
    let table = Table::read(bytes);
    let count = table.records.len();
    let fair = count > 1 && bytes.len() == RECORD * count + table.pool.len();
    if !fair {
        return smaller_bytes(bytes);
    }
    let (tails, dropped, plain) = (table.clone(), table.clone(), table);
    let pool = tails.pool.len();
    let tails = std::iter::successors(Some(pool), |size| Some(size / 2))
        .take_while(|size| *size > 0)
        .map(move |size| with_pool(&tails, pool - size));
    let dropped = (1..count).rev().map(move |number| without_record(&dropped, number));
    let plain = (0..count).flat_map(move |number| plainer(&plain, number));
    let nothing = std::iter::once(Vec::new());
    Box::new(nothing.chain(tails).chain(dropped).chain(plain).chain(smaller_bytes(bytes)))
}

fn with_pool(table: &Table, length: usize) -> Vec<u8> {
    let mut table = table.clone();
    table.pool.truncate(length);
    table.records[0].numbers[1] = length as u32;
    table.bytes()
}

/// The table with one record taken out and the links of the others moved.
fn without_record(table: &Table, number: usize) -> Vec<u8> {
    let mut table = table.clone();
    table.records.remove(number);
    for record in &mut table.records[1..] {
        let links: &[usize] = match record.kind {
            1 | 4 | 5 | 7 => &[4],
            2 => &[2, 3],
            _ => &[],
        };
        for &field in links {
            record.numbers[field] = after_removal(record.numbers[field], number);
        }
    }
    let header = &mut table.records[0];
    header.numbers[0] = header.numbers[0].wrapping_sub(1);
    header.numbers[2] = after_removal(header.numbers[2], number);
    table.bytes()
}

fn after_removal(link: u32, number: usize) -> u32 {
    match (link as usize).cmp(&number) {
        std::cmp::Ordering::Less => link,
        std::cmp::Ordering::Equal => 0,
        std::cmp::Ordering::Greater => link - 1,
    }
}

/// One record written big-endian, or with one of its numbers set to 0.
fn plainer(table: &Table, number: usize) -> Vec<Vec<u8>> {
    let mut list = Vec::new();
    let record = table.records[number];
    if record.is_little() {
        let mut changed = table.clone();
        changed.records[number].set_order(false);
        list.push(changed.bytes());
    }
    for field in 0..5 {
        if record.numbers[field] != 0 {
            let mut changed = table.clone();
            changed.records[number].numbers[field] = 0;
            list.push(changed.bytes());
        }
    }
    list
}

/// Smaller numbers, large steps first.
fn smaller_number(number: usize) -> Candidates<'static, usize> {
    let halves = std::iter::successors(Some(number), |step| Some(step / 2)).take_while(|step| *step > 0);
    Box::new(halves.map(move |step| number - step))
}

/// A list with one thing less, or with one thing made smaller.
pub fn smaller_list<'a, T: Clone + 'a>(
    list: &'a [T],
    smaller: impl Fn(&'a T) -> Candidates<'a, T> + 'a,
) -> Candidates<'a, Vec<T>> {
    let fewer = (0..list.len()).map(|at| {
        let mut list = list.to_vec();
        list.remove(at);
        list
    });
    let changed = list.iter().enumerate().flat_map(move |(at, thing)| {
        smaller(thing).map(move |candidate| {
            let mut list = list.to_vec();
            list[at] = candidate;
            list
        })
    });
    Box::new(fewer.chain(changed))
}

/// `true` becomes `false`.
fn smaller_flag(flag: bool) -> Candidates<'static, bool> {
    Box::new(flag.then_some(false).into_iter())
}

impl Smaller for CompileCase {
    fn smaller<'a>(&'a self) -> Candidates<'a, Self> {
        let text = smaller_bytes(&self.text).map(|text| CompileCase { text, ..self.clone() });
        let little = smaller_flag(self.little).map(|little| CompileCase { little, ..self.clone() });
        let room = smaller_number(self.room).map(|room| CompileCase { room, ..self.clone() });
        let fill = smaller_number(self.fill.into()).map(|fill| CompileCase { fill: fill as u8, ..self.clone() });
        Box::new(text.chain(little).chain(room).chain(fill))
    }
}

impl Smaller for CheckCase {
    fn smaller<'a>(&'a self) -> Candidates<'a, Self> {
        Box::new(smaller_table(&self.table).map(|table| CheckCase { table }))
    }
}

impl Smaller for MergeCase {
    fn smaller<'a>(&'a self) -> Candidates<'a, Self> {
        let first = smaller_table(&self.first).map(|first| MergeCase { first, ..self.clone() });
        let second = smaller_table(&self.second).map(|second| MergeCase { second, ..self.clone() });
        let little = smaller_flag(self.little).map(|little| MergeCase { little, ..self.clone() });
        let room = smaller_number(self.room).map(|room| MergeCase { room, ..self.clone() });
        let fill = smaller_number(self.fill.into()).map(|fill| MergeCase { fill: fill as u8, ..self.clone() });
        Box::new(first.chain(second).chain(little).chain(room).chain(fill))
    }
}

impl Smaller for JudgeCase {
    fn smaller<'a>(&'a self) -> Candidates<'a, Self> {
        let data = smaller_bytes(&self.data).map(|data| JudgeCase { data, ..self.clone() });
        let table = smaller_table(&self.table).map(|table| JudgeCase { table, ..self.clone() });
        let root = smaller_number(self.root as usize).map(|root| JudgeCase { root: root as u32, ..self.clone() });
        Box::new(data.chain(table).chain(root))
    }
}

impl Smaller for NameCase {
    fn smaller<'a>(&'a self) -> Candidates<'a, Self> {
        let table = smaller_table(&self.table).map(|table| NameCase { table, ..self.clone() });
        let record =
            smaller_number(self.record as usize).map(|record| NameCase { record: record as u32, ..self.clone() });
        Box::new(table.chain(record))
    }
}

impl Smaller for Step {
    fn smaller<'a>(&'a self) -> Candidates<'a, Self> {
        let tables = match &self.other {
            Other::Bytes(bytes) => smaller_table(bytes),
            Other::Carried => Box::new(std::iter::empty()),
        };
        let tables = tables.map(|bytes| Step { other: Other::Bytes(bytes), ..self.clone() });
        let little = smaller_flag(self.little).map(|little| Step { little, ..self.clone() });
        let fill = smaller_number(self.fill.into()).map(|fill| Step { fill: fill as u8, ..self.clone() });
        let room = smaller_room(self.room).map(|room| Step { room, ..self.clone() });
        Box::new(room.chain(little).chain(fill).chain(tables))
    }
}

fn smaller_room(room: Room) -> Candidates<'static, Room> {
    let exact = (room != Room::Exact).then_some(Room::Exact).into_iter();
    match room {
        Room::Exact => Box::new(exact),
        Room::Over(more) => Box::new(exact.chain(smaller_number(more).map(Room::Over))),
        Room::Under(less) => Box::new(exact.chain(smaller_number(less).map(Room::Under))),
        Room::Fixed(bytes) => Box::new(exact.chain(smaller_number(bytes).map(Room::Fixed))),
    }
}

impl Smaller for ListCase {
    fn smaller<'a>(&'a self) -> Candidates<'a, Self> {
        let asked =
            smaller_list(&self.asked, |asked| Box::new(smaller_number(*asked as usize).map(|number| number as u32)))
                .map(|asked| ListCase { asked, ..self.clone() });
        let none = (!self.steps.is_empty()).then(|| ListCase { steps: Vec::new(), ..self.clone() }).into_iter();
        let steps = smaller_list(&self.steps, Step::smaller).map(|steps| ListCase { steps, ..self.clone() });
        let data = smaller_list(&self.data, |data| smaller_bytes(data)).map(|data| ListCase { data, ..self.clone() });
        let text = smaller_bytes(&self.text).map(|text| ListCase { text, ..self.clone() });
        let little = smaller_flag(self.little).map(|little| ListCase { little, ..self.clone() });
        let room = smaller_room(self.room).map(|room| ListCase { room, ..self.clone() });
        let fill = smaller_number(self.fill.into()).map(|fill| ListCase { fill: fill as u8, ..self.clone() });
        let small = little.chain(room).chain(fill).chain(asked);
        Box::new(none.chain(small).chain(steps).chain(data).chain(text))
    }
}
