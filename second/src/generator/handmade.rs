//! Tables that no text made, yet sound: shared records, repeated names, unreachable records,
//! links into the middle of item lists, empty strings, any byte orders.

use super::calendar::{packed, LAST_DAY};
use super::random::Random;
use super::shape::duration_flag;
use super::tables::{any_order, Record, Table, MOST_POOL, MOST_RECORDS};

/// Record numbers of the records made so far, by kind.
type Made = [Vec<u32>; 10];

/// A sound table with so many records (header counted, 2 and more) and pool bytes (1 and more).
pub fn table(random: &mut Random, count: usize, pool: usize) -> Table {
    let pool = pool_bytes(random, pool);
    let mut made: Made = Default::default();
    let mut records = vec![Record::new(0, 0, [0; 5]); count];
    for number in (1..count).rev() {
        let last_chance = number == 1 && made[1].is_empty();
        let kind =
            if last_chance { 1 } else { random.one_of(&[1, 1, 1, 2, 2, 2, 2, 2, 3, 4, 4, 5, 5, 6, 7, 7, 8, 9, 9]) };
        records[number] = record(random, kind, &pool, &made);
        made[usize::from(kind)].push(number as u32);
    }
    let root = if random.one_in(4) { random.one_of(&made[1]) } else { made[1][made[1].len() - 1] };
    let mut table = Table { records, pool };
    table.set_header(root);
    let order = any_order(random);
    table.set_order(random, order);
    table
}

/// A small sound table.
pub fn small_table(random: &mut Random) -> Table {
    let most = 4 + random.below(12);
    let count = 2 + random.below(most);
    let pool = 1 + random.below(24);
    table(random, count, pool)
}

/// A sound table close to one of the limits.
pub fn large_table(random: &mut Random) -> Table {
    let counts = [MOST_RECORDS, MOST_RECORDS - 1, MOST_RECORDS - 4, MOST_RECORDS / 2 + 1, MOST_RECORDS / 2];
    let pools = [MOST_POOL, MOST_POOL - 1, MOST_POOL - 6, MOST_POOL / 2 + 1, MOST_POOL / 2];
    let count = random.one_of(&counts);
    let pool = random.one_of(&pools);
    match random.below(5) {
        0 | 1 => {
            let small = 1 + random.below(30);
            table(random, count, small)
        }
        2 | 3 => {
            let small = 2 + random.below(8);
            table(random, small, pool)
        }
        _ => table(random, count, pool),
    }
}

/// Letters in most cases, so that data can name them; any bytes at times.
fn pool_bytes(random: &mut Random, length: usize) -> Vec<u8> {
    let any = random.one_in(10);
    (0..length).map(|_| if any { random.byte() } else { random.one_of(b"aabcABC1_") }).collect()
}

fn record(random: &mut Random, kind: u8, pool: &[u8], made: &Made) -> Record {
    let same = &made[usize::from(kind)];
    match kind {
        1 => {
            let (a, b) = pair(random, pool, 1, 63, u8::is_ascii_uppercase);
            let (c, d) = if random.coin() { (0, 0) } else { pair(random, pool, 0, 31, |_| true) };
            Record::new(1, 0, [a, b, c, d, link(random, &made[2])])
        }
        2 => {
            let (a, b) = pair(random, pool, 1, 63, u8::is_ascii_lowercase);
            let kinds = [1, 1, 1, 3, 4, 5, 6, 7, 8, 9];
            let below = random.one_of(&kinds);
            let below = link(random, &made[below]);
            Record::new(2, random.one_of(&[0, 1, 1, 2, 2]), [a, b, below, link(random, same), 0])
        }
        3 => Record::new(3, 1 + random.below(3) as u8, [0; 5]),
        4 => {
            let (a, b) = numbers(random);
            Record::new(4, 0, [a, b, 0, 0, link(random, same)])
        }
        5 => {
            let (a, b) = pair(random, pool, 0, 255, |_| true);
            Record::new(5, 0, [a, b, 0, 0, link(random, same)])
        }
        6 => Record::new(6, 1 + random.below(5) as u8, [0; 5]),
        7 => {
            let low = random.between(0, LAST_DAY);
            let high = (low + random.one_of(&[0, 1, 31, 366])).min(LAST_DAY);
            Record::new(7, 0, [packed(low), packed(high), 0, 0, link(random, same)])
        }
        8 => Record::new(8, 1 + random.below(4) as u8, [0; 5]),
        _ => Record::new(9, duration_flag(random), [0; 5]),
    }
}

/// 0, the nearest record of the list, or any of it.
fn link(random: &mut Random, list: &[u32]) -> u32 {
    match random.below(5) {
        0 => 0,
        1 | 2 => list.last().copied().unwrap_or(0),
        _ => list.get(random.below(list.len())).copied().unwrap_or(0),
    }
}

/// A place and length in the pool; a short part that begins as wished, if one turns up soon.
fn pair(random: &mut Random, pool: &[u8], least: usize, most: usize, begins: fn(&u8) -> bool) -> (u32, u32) {
    let room = most.min(pool.len());
    let mut found = (0, 0);
    for _ in 0..8 {
        let length = if random.one_in(20) {
            random.between(least as i64, room as i64) as usize
        } else {
            (least + random.below(3)).min(room)
        };
        if length == 0 {
            return (0, 0);
        }
        let place = random.below(pool.len() - length + 1);
        found = (place as u32, length as u32);
        if begins(&pool[place]) {
            break;
        }
    }
    found
}

fn numbers(random: &mut Random) -> (u32, u32) {
    let lows = [i32::MIN, -1, 0, 1, 5, i32::MAX];
    let low = if random.coin() { random.one_of(&lows) } else { random.bits() as i32 };
    let high = low.saturating_add(random.one_of(&[0, 0, 1, 9, i32::MAX]));
    (low as u32, high as u32)
}
