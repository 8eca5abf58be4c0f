//! Compiling: the parse tree of a constraint text becomes a table.

use crate::api::CompileAnswer;
use crate::constraint::{self, Attribute, Existence, Item, Leaf, LeafBody, Object, Tree, Value};
use crate::table::{table_length, write, Part, PoolPlace, Record, RecordNumber};

pub fn compile(text: &[u8], little: bool, out: &mut [u8]) -> CompileAnswer {
    let tree = match constraint::read(text) {
        Ok(tree) => tree,
        Err(fault) => return CompileAnswer::Refused { number: fault.number, place: fault.place },
    };
    let image = Image::of(&tree);
    let length = table_length(image.records.len(), image.pool_length as usize);
    if length > out.len() {
        return CompileAnswer::Refused { number: 11, place: text.len() as u64 };
    }
    write(&image.records, &image.pool, little, out);
    CompileAnswer::Done { length: length as u64 }
}

/// The records and the pool's parts in text order. "nothing is shared; root 1"
struct Image<'t> {
    records: Vec<Record>,
    pool: Vec<&'t [u8]>,
    pool_length: u32,
}

impl<'t> Image<'t> {
    fn of(tree: &Tree<'t>) -> Image<'t> {
        let root = RecordNumber(1);
        let header = Record::Header { count: 0, pool: 0, root };
        let mut image = Image { records: vec![header], pool: Vec::new(), pool_length: 0 };
        image.object(tree, &tree.objects[0]);
        let count = image.records.len() as u32;
        image.records[0] = Record::Header { count, pool: image.pool_length, root };
        image
    }

    /// Appends bytes to the pool; an empty part has place 0.
    fn part(&mut self, bytes: &'t [u8]) -> Part {
        let length = bytes.len() as u32;
        let place = if length == 0 { 0 } else { self.pool_length };
        self.pool.push(bytes);
        self.pool_length += length;
        Part { place: PoolPlace(place), length }
    }

    /// "in text order (type, then code; no quotes or brackets)"
    fn object(&mut self, tree: &Tree<'t>, object: &Object<'t>) {
        let type_name = self.part(object.type_name);
        let code = self.part(object.code);
        let first = number_or_0(object.attributes.first());
        self.records.push(Record::Object { type_name, code, first });
        for (index, attribute) in object.attributes.iter().enumerate() {
            self.attribute(tree, attribute, number_or_0(object.attributes.get(index + 1)));
        }
    }

    fn attribute(&mut self, tree: &Tree<'t>, attribute: &Attribute<'t>, next: RecordNumber) {
        let existence = match attribute.existence {
            Existence::Forbidden => 0,
            Existence::Optional => 1,
            Existence::Required => 2,
        };
        let name = self.part(attribute.name);
        let value = RecordNumber(match &attribute.value {
            Value::Any => 0,
            Value::Object(index) => tree.objects[*index].number,
            Value::Leaf(leaf) => leaf.number,
        });
        self.records.push(Record::Attribute { existence, name, value, next });
        match &attribute.value {
            Value::Any => {}
            Value::Object(index) => self.object(tree, &tree.objects[*index]),
            Value::Leaf(leaf) => self.leaf(leaf),
        }
    }

    fn leaf(&mut self, leaf: &Leaf<'t>) {
        match &leaf.body {
            LeafBody::Boolean { admits_true, admits_false } => {
                let flag = u8::from(*admits_true) + 2 * u8::from(*admits_false);
                self.records.push(Record::Boolean { flag });
            }
            LeafBody::DatePattern(flag) => self.records.push(Record::DatePattern { flag: *flag }),
            LeafBody::TimePattern(flag) => self.records.push(Record::TimePattern { flag: *flag }),
            LeafBody::DurationPattern(flag) => self.records.push(Record::DurationPattern { flag: *flag }),
            LeafBody::Items(items) => self.items(leaf.number, items),
        }
    }

    /// One record to each item, linked in text order.
    fn items(&mut self, first: u32, items: &[Item<'t>]) {
        for (index, item) in items.iter().enumerate() {
            let last = index + 1 == items.len();
            let next = RecordNumber(if last { 0 } else { first + index as u32 + 1 });
            let record = match *item {
                Item::Integer((low, high)) => Record::Integer { low, high, next },
                Item::Text(string) => Record::Text { part: self.part(string), next },
                Item::Date((low, high)) => Record::DateInterval { low, high, next },
            };
            self.records.push(record);
        }
    }
}

/// The number of an attribute's record, 0 if there is none.
fn number_or_0(attribute: Option<&Attribute>) -> RecordNumber {
    RecordNumber(attribute.map_or(0, |attribute| attribute.number))
}
