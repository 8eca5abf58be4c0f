//! Cases of judging by tables whose records are reached in many ways: a walk that took each way anew would not end.

use super::forms::{add, member_name, nested};
use super::stream::Stream;
use crate::examples::handmade::{ordered, record, table};
use crate::generator::Table;
use crate::limits;

pub fn cases(stream: &mut Stream) {
    ladders(stream);
    tails(stream);
    fans(stream);
    lists(stream);
}

/// So many objects, each with so many attributes of one name that all lead to the next object; those of the last are
/// required and lead to the integer 5.
fn ladder(objects: u32, width: u32) -> Table {
    let mut records = Vec::new();
    for level in 0..objects {
        let own = 1 + level * (width + 1);
        records.push(record(1, 0, [0, 1, 0, 0, own + 1]));
        for at in 1..=width {
            let next = if at == width { 0 } else { own + at + 1 };
            let existence = if level + 1 == objects { 2 } else { 1 };
            records.push(record(2, existence, [1, 1, own + width + 1, next, 0]));
        }
    }
    records.push(record(4, 0, [5, 5, 0, 0, 0]));
    table(1, &records, b"Aa")
}

fn ladders(stream: &mut Stream) {
    let wide = ladder(17, 119).bytes();
    for (root, inside) in [(1, ""), (121, "a=<5>"), (121, "a=<6>")] {
        add(
            stream,
            &format!("16 levels and {inside} at {root}, 119 ways a level"),
            &wide,
            root,
            nested(limits::LEVELS, inside).as_bytes(),
        );
    }
    let narrow = ordered(&ladder(17, 9), "lbb").bytes();
    for root in [1, 11] {
        for inside in ["", "a=<5>", "a=<6>", "a=(B)<>", "a=<\"5\">", "b=<5>"] {
            let data = nested(limits::LEVELS, inside);
            add(stream, &format!("16 levels and {inside} at {root}, 9 ways a level"), &narrow, root, data.as_bytes());
            let data = nested(limits::LEVELS - 1, inside);
            add(stream, &format!("15 levels and {inside} at {root}, 9 ways a level"), &narrow, root, data.as_bytes());
        }
    }
}

/// The blocks `a` and `b` by three objects in turn, whose chains of attributes share a tail: `p`, then `t` and `u`;
/// `q`, then the same; and the tail alone.
fn tailed() -> Table {
    table(
        1,
        &[
            record(1, 0, [0, 1, 0, 0, 2]),
            record(2, 1, [1, 1, 10, 3, 0]),
            record(2, 1, [1, 1, 11, 4, 0]),
            record(2, 1, [2, 1, 11, 5, 0]),
            record(2, 1, [1, 1, 10, 6, 0]),
            record(2, 1, [2, 1, 10, 7, 0]),
            record(2, 1, [1, 1, 12, 8, 0]),
            record(2, 1, [2, 1, 12, 9, 0]),
            record(2, 1, [2, 1, 11, 0, 0]),
            record(1, 0, [0, 1, 0, 0, 13]),
            record(1, 0, [0, 1, 0, 0, 14]),
            record(1, 0, [0, 1, 0, 0, 15]),
            record(2, 1, [3, 1, 17, 15, 0]),
            record(2, 1, [4, 1, 17, 15, 0]),
            record(2, 2, [5, 1, 18, 16, 0]),
            record(2, 1, [6, 1, 17, 0, 0]),
            record(4, 0, [1, 5, 0, 0, 0]),
            record(4, 0, [1, 9, 0, 0, 0]),
        ],
        b"Aabpqtu",
    )
}

fn tails(stream: &mut Stream) {
    let blocks = ["p=<1> q=<2> t=<9> u=<5>", "t=<9>", "p=<6> t=<9>", "q=<6> t=<9>", "t=<10>", "t=<9> u=<6>", "u=<5>"];
    for a in blocks {
        for b in blocks {
            let data = format!("<a=<{a}> b=<{b}>>");
            add(stream, &format!("{data} under shared tails"), &ordered(&tailed(), "bl").bytes(), 1, data.as_bytes());
        }
    }
}

/// One block by so many objects in turn, whose attributes are all one chain of so many that nothing names; the last object
/// asks for a member besides.
fn fan(objects: u32, chain: u32) -> Table {
    let (first, shared) = (objects + 2, 2 * objects + 2);
    let last = shared + chain;
    let mut records = vec![record(1, 0, [0, 1, 0, 0, 2])];
    for at in 0..objects {
        let next = if at + 1 == objects { 0 } else { at + 3 };
        records.push(record(2, 1, [1, 1, first + at, next, 0]));
    }
    for at in 0..objects {
        let own = if at + 1 == objects { last } else { shared + at % chain };
        records.push(record(1, 0, [0, 1, 0, 0, own]));
    }
    for at in 0..chain {
        let next = if at + 1 == chain { 0 } else { shared + at + 1 };
        records.push(record(2, 0, [2, 1, 0, next, 0]));
    }
    records.push(record(2, 2, [3, 4, 0, 0, 0]));
    table(1, &records, b"AaZmini")
}

/// A data text with so many members in one block, and more behind them.
fn wide(members: usize, more: &str) -> String {
    let all: Vec<String> = (0..members).map(|number| format!("{}=<>", member_name(number))).collect();
    format!("<a=<{}{more}>>", all.concat())
}

fn fans(stream: &mut Stream) {
    for (objects, chain, members) in [(30, 50, 100), (100, 150, 700), (500, 1_000, 2_800)] {
        let table = fan(objects, chain).bytes();
        for more in ["", " minis=<>", " mini=<5>"] {
            let data = wide(members, more);
            let title = format!("{members} members and{more} by {objects} objects and {chain} attributes");
            add(stream, &title, &table, 1, data.as_bytes());
        }
    }
}

/// Objects of so many levels, each leading on by `p` and by `q`; the last has so many attributes `v`, each of which leads into one
/// list of as many items at another item, the last item first. The last item alone is of the value 5.
fn listed(levels: u32, width: u32, kind: u8) -> Table {
    let (last, items) = (1 + 3 * levels, 2 + 3 * levels + width);
    let mut records = Vec::new();
    for level in 0..levels {
        let own = 1 + 3 * level;
        records.push(record(1, 0, [0, 1, 0, 0, own + 1]));
        records.push(record(2, 1, [1, 1, own + 3, own + 2, 0]));
        records.push(record(2, 1, [2, 1, own + 3, 0, 0]));
    }
    records.push(record(1, 0, [0, 1, 0, 0, last + 1]));
    for at in 0..width {
        let next = if at + 1 == width { 0 } else { last + at + 2 };
        records.push(record(2, 1, [3, 1, items + width - 1 - at, next, 0]));
    }
    for at in 0..width {
        let next = if at + 1 == width { 0 } else { items + at + 1 };
        let (low, high) = match (kind, at + 1 == width) {
            (5, true) => (4, 1),
            (5, false) => (0, 1),
            (_, true) => (5, 5),
            (_, false) => (6, 9),
        };
        records.push(record(kind, 0, [low, high, 0, 0, next]));
    }
    table(1, &records, b"Apqv5")
}

/// A data text of so many levels of `p` and `q` around members, the last of which may differ.
fn forked(levels: u32, inside: &str, last: &str) -> String {
    if levels == 0 {
        return format!("<{last}>");
    }
    format!("<p={} q={}>", forked(levels - 1, inside, inside), forked(levels - 1, inside, last))
}

fn lists(stream: &mut Stream) {
    for (levels, width, kind, good) in
        [(3, 20, 4, "v=<5>"), (3, 20, 5, "v=<\"5\">"), (8, 1_000, 4, "v=<5>"), (8, 1_000, 5, "v=<\"5\">")]
    {
        let table = ordered(&listed(levels, width, kind), "lb").bytes();
        for last in [good, "v=<4>", "v=<\"A\">", "v=<>", "w=<4>"] {
            let title = format!(
                "{levels} levels of two blocks, {last} in the last, by {width} attributes into a list of kind {kind}"
            );
            add(stream, &title, &table, 1, forked(levels, good, last).as_bytes());
        }
    }
}
