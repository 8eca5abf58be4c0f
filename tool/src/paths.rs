//! The way from a root to a record, by names.

use crate::limits;
use crate::records::{Existence, Record, Table};

/// The names on the way from a root to a record: the root's type, then the names of attributes.
///
/// The way is sought as the judge walks, attributes in table order, each finished before the next. Where
/// several ways lead to the record it is the first.
pub fn path<'b>(table: &Table<'b>, root: u32, record: u32) -> Option<Vec<&'b [u8]>> {
    let Some(Record::Object { type_name, .. }) = table.record(root) else { return None };
    let mut walk = Walk {
        table: *table,
        sought: record,
        least: vec![u8::MAX; usize::try_from(table.count).ok()?],
        names: vec![type_name],
    };
    walk.object(root, 1).then_some(walk.names)
}

/// The names of a path with a slash between them.
pub fn joined(names: &[&[u8]]) -> Vec<u8> {
    names.join(&b'/')
}

/// A walk through a table in search of a record.
struct Walk<'b> {
    table: Table<'b>,
    sought: u32,
    /// The least level on which each object was walked in vain: on that level or a deeper one it need not be again.
    least: Vec<u8>,
    names: Vec<&'b [u8]>,
}

impl Walk<'_> {
    /// Whether the record is this object or in it.
    fn object(&mut self, number: u32, level: u8) -> bool {
        if number == self.sought {
            return true;
        }
        let Some(Record::Object { first, .. }) = self.table.record(number) else { return false };
        match usize::try_from(number).ok().and_then(|index| self.least.get_mut(index)) {
            Some(least) if *least > level => *least = level,
            _ => return false,
        }
        self.attributes(first, level)
    }

    /// Whether the record is one of these attributes or in one.
    fn attributes(&mut self, first: u32, level: u8) -> bool {
        let mut number = first;
        while let Some(Record::Attribute { existence, name, value, next }) = self.table.record(number) {
            self.names.push(name);
            if number == self.sought || (existence != Existence::Never && self.value(value, level)) {
                return true;
            }
            self.names.pop();
            if next <= number {
                return false;
            }
            number = next;
        }
        false
    }

    /// Whether the record is what an attribute leads to, or in it.
    fn value(&mut self, number: u32, level: u8) -> bool {
        number != 0 && (number == self.sought || (level < limits::LEVELS && self.object(number, level + 1)))
    }
}

#[cfg(test)]
mod tests {
    use super::*;
    use crate::records::tests::{big, table};

    fn found(bytes: &[u8], root: u32, record: u32) -> Option<String> {
        let table = Table::new(bytes).unwrap();
        path(&table, root, record).map(|names| String::from_utf8(joined(&names)).unwrap())
    }

    /// `A matches {p matches {B matches {r matches {1, 2}}} q matches {*}}`
    fn small() -> Vec<u8> {
        let records = [
            big(1, 0, [0, 1, 0, 0, 2]),
            big(2, 2, [1, 1, 3, 7, 0]),
            big(1, 0, [2, 1, 0, 0, 4]),
            big(2, 2, [3, 1, 5, 0, 0]),
            big(4, 0, [1, 1, 0, 0, 6]),
            big(4, 0, [2, 2, 0, 0, 0]),
            big(2, 2, [4, 1, 0, 0, 0]),
        ];
        table(&records, b"ApBrq")
    }

    #[test]
    fn the_way_has_the_roots_type_and_the_attributes_names() {
        let bytes = small();
        assert_eq!(found(&bytes, 1, 1).as_deref(), Some("A"));
        assert_eq!(found(&bytes, 1, 2).as_deref(), Some("A/p"));
        assert_eq!(found(&bytes, 1, 3).as_deref(), Some("A/p"));
        assert_eq!(found(&bytes, 1, 5).as_deref(), Some("A/p/r"));
        assert_eq!(found(&bytes, 1, 7).as_deref(), Some("A/q"));
        assert_eq!(found(&bytes, 3, 5).as_deref(), Some("B/r"));
    }

    #[test]
    fn what_no_way_leads_to_has_none() {
        let bytes = small();
        assert_eq!(found(&bytes, 3, 7), None);
        assert_eq!(found(&bytes, 1, 0), None);
        assert_eq!(found(&bytes, 1, 6), None);
        assert_eq!(found(&bytes, 2, 3), None);
        assert_eq!(found(&bytes, 99, 3), None);
    }

    /// A chain of 127 objects with 15 attributes each, all of them leading to the next object.
    fn wide() -> Vec<u8> {
        let mut records = Vec::new();
        for object in 0..127u32 {
            let number = 1 + object * 16;
            records.push(big(1, 0, [0, 1, 0, 0, number + 1]));
            for attribute in 1..=15 {
                let value = if object < 126 { number + 16 } else { 0 };
                let next = if attribute < 15 { number + attribute + 1 } else { 0 };
                records.push(big(2, 2, [1, 1, value, next, 0]));
            }
        }
        table(&records, b"Aa")
    }

    #[test]
    fn many_ways_are_walked_once_and_to_the_sixteenth_level() {
        let bytes = wide();
        assert_eq!(found(&bytes, 1, 1 + 15 * 16).as_deref(), Some(format!("A{}", "/a".repeat(15)).as_str()));
        assert_eq!(found(&bytes, 1, 1 + 16 * 16).as_deref(), Some(format!("A{}", "/a".repeat(16)).as_str()));
        assert_eq!(found(&bytes, 1, 1 + 17 * 16), None);
        assert_eq!(found(&bytes, 1, 1 + 126 * 16), None);
    }

    #[test]
    fn the_first_of_several_ways_is_told_and_none_leads_through_an_absent_member() {
        let shared = |flag| {
            let records = [
                big(1, 0, [0, 1, 0, 0, 2]),
                big(2, flag, [1, 1, 4, 3, 0]),
                big(2, 2, [2, 1, 4, 0, 0]),
                big(4, 0, [1, 2, 0, 0, 0]),
            ];
            table(&records, b"Apq")
        };
        assert_eq!(found(&shared(2), 1, 4).as_deref(), Some("A/p"));
        assert_eq!(found(&shared(0), 1, 4).as_deref(), Some("A/q"));
    }
}
