//! The rules of tables once more, worked out from the paper alone: what checking, merging and
//! naming have to answer. The library's answers are compared with these.

use super::calendar::unpacked;
use super::tables::{Record, Table, MOST_POOL, MOST_RECORDS, RECORD};
use crate::api::{CheckAnswer, JudgeAnswer, MergeAnswer, NameAnswer};

/// What checking has to answer.
pub fn check(bytes: &[u8]) -> CheckAnswer {
    if !is_table(bytes) {
        return CheckAnswer::Refused { number: 12, place: 0 };
    }
    let (count, pool) = sizes(bytes);
    for number in 1..count {
        if !is_sound(bytes, number, count, pool) {
            return CheckAnswer::Refused { number: 13, place: number as u64 };
        }
    }
    CheckAnswer::Passed
}

/// Count and pool bytes as the header says. The table must have a header.
pub fn sizes(bytes: &[u8]) -> (usize, usize) {
    let header = record(bytes, 0);
    (header.numbers[0] as usize, header.numbers[1] as usize)
}

fn record(bytes: &[u8], number: usize) -> Record {
    Record::read(&bytes[RECORD * number..RECORD * (number + 1)])
}

/// The kind byte of a record.
pub fn kind(bytes: &[u8], number: usize) -> u8 {
    bytes[RECORD * number + 2]
}

/// Length, header and root.
fn is_table(bytes: &[u8]) -> bool {
    if bytes.len() < RECORD {
        return false;
    }
    let header = record(bytes, 0);
    let [count, pool, root, d, e] = header.numbers.map(|number| number as usize);
    header.has_mark()
        && header.kind == 0
        && header.flag == 0
        && (2..=MOST_RECORDS).contains(&count)
        && pool <= MOST_POOL
        && bytes.len() == RECORD * count + pool
        && d == 0
        && e == 0
        && root < count
        && kind(bytes, root) == 1
}

fn is_sound(bytes: &[u8], number: usize, count: usize, pool: usize) -> bool {
    let record = record(bytes, number);
    let [a, b, c, d, e] = record.numbers;
    let link = |target: u32, kinds: &[u8]| {
        let target = target as usize;
        target == 0 || (target > number && target < count && kinds.contains(&kind(bytes, target)))
    };
    let pair = |place: u32, length: u32, least: u32, most: u32| {
        length >= least && length <= most && (length > 0 || place == 0) && place as usize + length as usize <= pool
    };
    let flag = record.flag;
    record.has_mark()
        && match record.kind {
            1 => flag == 0 && pair(a, b, 1, 63) && pair(c, d, 0, 31) && link(e, &[2]),
            2 => flag <= 2 && pair(a, b, 1, 63) && link(c, &[1, 3, 4, 5, 6, 7, 8, 9]) && link(d, &[2]) && e == 0,
            3 => (1..=3).contains(&flag) && record.numbers == [0; 5],
            4 => flag == 0 && c == 0 && d == 0 && a as i32 <= b as i32 && link(e, &[4]),
            5 => flag == 0 && c == 0 && d == 0 && pair(a, b, 0, 255) && link(e, &[5]),
            6 => (1..=5).contains(&flag) && record.numbers == [0; 5],
            7 => {
                let real = unpacked(a).is_some() && unpacked(b).is_some();
                flag == 0 && c == 0 && d == 0 && real && a <= b && link(e, &[7])
            }
            8 => (1..=4).contains(&flag) && record.numbers == [0; 5],
            9 => (1..=127).contains(&flag) && record.numbers == [0; 5],
            _ => false,
        }
}

/// The length that merging two sound tables needs, whatever the limits.
pub fn merged_length(first: &[u8], second: &[u8]) -> usize {
    let (one, two) = (sizes(first), sizes(second));
    RECORD * (one.0 + two.0 - 1) + one.1 + two.1
}

/// What merging has to answer, given what checking answers for the two tables.
pub fn merge(first: (&[u8], CheckAnswer), second: (&[u8], CheckAnswer), room: usize) -> MergeAnswer {
    for (table, answer) in [(1, first.1), (2, second.1)] {
        if let CheckAnswer::Refused { number, place } = answer {
            return MergeAnswer::Refused { number, place, table };
        }
    }
    let (one, two) = (sizes(first.0), sizes(second.0));
    let length = merged_length(first.0, second.0);
    if one.0 + two.0 - 1 > MOST_RECORDS {
        return MergeAnswer::Refused { number: 8, place: 0, table: 0 };
    }
    if one.1 + two.1 > MOST_POOL {
        return MergeAnswer::Refused { number: 10, place: 0, table: 0 };
    }
    if room < length {
        return MergeAnswer::Refused { number: 11, place: length as u64, table: 0 };
    }
    MergeAnswer::Done { length: length as u64, record_shift: one.0 as u32 - 1, pool_shift: one.1 as u32 }
}

/// The bytes that merging two sound tables has to write.
pub fn merged(first: &[u8], second: &[u8], little: bool) -> Vec<u8> {
    let mut table = Table::read(first);
    let other = Table::read(second);
    let root = table.records[0].numbers[2];
    let shift = table.records.len() as u32 - 1;
    let pool_shift = table.pool.len() as u32;
    for record in &other.records[1..] {
        table.records.push(moved(*record, shift, pool_shift));
    }
    table.pool.extend_from_slice(&other.pool);
    table.set_header(root);
    for record in &mut table.records {
        record.set_order(little);
    }
    table.bytes()
}

/// A record of the second table with its links and places moved.
fn moved(mut record: Record, shift: u32, pool_shift: u32) -> Record {
    let (links, pairs): (&[usize], &[usize]) = match record.kind {
        1 => (&[4], &[0, 2]),
        2 => (&[2, 3], &[0]),
        5 => (&[4], &[0]),
        4 | 7 => (&[4], &[]),
        _ => (&[], &[]),
    };
    for &field in links {
        if record.numbers[field] != 0 {
            record.numbers[field] += shift;
        }
    }
    for &field in pairs {
        if record.numbers[field + 1] != 0 {
            record.numbers[field] += pool_shift;
        }
    }
    record
}

/// What asking for a name has to answer, given what checking answers.
pub fn name(bytes: &[u8], answer: CheckAnswer, number: u32) -> NameAnswer {
    if let CheckAnswer::Refused { number, place } = answer {
        return NameAnswer::Refused { number, place };
    }
    let (count, _) = sizes(bytes);
    let asked = number as usize;
    if asked >= count || !matches!(kind(bytes, asked), 1 | 2 | 5) {
        return NameAnswer::Refused { number: 14, place: u64::from(number) };
    }
    let record = record(bytes, asked);
    let start = RECORD * count + record.numbers[0] as usize;
    NameAnswer::Name { start: start as u64, length: u64::from(record.numbers[1]) }
}

/// What judging has to refuse before it reads the data, given what checking answers.
pub fn judge_before_data(bytes: &[u8], answer: CheckAnswer, root: u32) -> Option<JudgeAnswer> {
    if let CheckAnswer::Refused { number, place } = answer {
        return Some(JudgeAnswer::Refused { number, place });
    }
    let asked = root as usize;
    let object = asked < sizes(bytes).0 && kind(bytes, asked) == 1;
    (!object).then_some(JudgeAnswer::Refused { number: 14, place: root.into() })
}

/// Whether an answer of judging, the table and root being good, names places and records that can be meant.
pub fn can_be_meant(table: &[u8], data: &[u8], answer: JudgeAnswer) -> bool {
    match answer {
        JudgeAnswer::Valid => data.len() <= 16_384,
        JudgeAnswer::Refused { number: 1, place } => data.len() > 16_384 && place == 16_384,
        JudgeAnswer::Refused { number, place } => matches!(number, 2..=5 | 9) && place <= data.len() as u64,
        JudgeAnswer::Verdict { reason, record, place } => {
            let known = (record as usize) < sizes(table).0;
            let kind = if known { kind(table, record as usize) } else { 0 };
            let kinds: &[u8] = match reason {
                20 => &[1, 3, 4, 5, 6, 7, 8, 9],
                21 => &[1],
                22 | 23 => &[2],
                24 => &[3, 4, 5, 6, 7, 8, 9],
                _ => &[],
            };
            kinds.contains(&kind) && data.get(place as usize) == Some(&b'<')
        }
    }
}

#[cfg(test)]
mod tests {
    use super::super::shape::Object;
    use super::super::tables::table_of;
    use super::*;

    #[test]
    fn the_papers_example() {
        let object = Object { type_name: b"A".to_vec(), code: None, attributes: Vec::new() };
        let table = table_of(&object).bytes();
        let mut expected = vec![0xC0, 0xAD, 0, 0, 0, 0, 0, 2, 0, 0, 0, 1, 0, 0, 0, 1];
        expected.extend([0; 8]);
        expected.extend([0xC0, 0xAD, 1, 0, 0, 0, 0, 0, 0, 0, 0, 1]);
        expected.extend([0; 12]);
        expected.push(0x41);
        assert_eq!(table, expected);
        assert_eq!(check(&table), CheckAnswer::Passed);
        let twice = merged(&table, &table, false);
        assert_eq!(twice.len(), 74);
        assert_eq!(sizes(&twice), (3, 2));
        assert_eq!(record(&twice, 2).numbers[0], 1);
        let answer = merge((&table, CheckAnswer::Passed), (&table, CheckAnswer::Passed), 74);
        assert_eq!(answer, MergeAnswer::Done { length: 74, record_shift: 1, pool_shift: 1 });
    }
}
