//! Document 01's numbers, explained: what each means, where its place points, and what to do.

/// A number of refusal or verdict.
pub struct Number {
    pub number: u32,
    /// A few words on it.
    pub title: &'static str,
    /// When it is told.
    pub meaning: &'static str,
    /// Where its place points.
    pub place: &'static str,
    /// What to do about it.
    pub advice: &'static str,
}

/// The number's explanation, if document 01 has the number.
pub fn number(number: u32) -> Option<&'static Number> {
    NUMBERS.iter().find(|entry| entry.number == number)
}

/// All numbers, in order.
pub const NUMBERS: [Number; 19] = [
    Number {
        number: 1,
        title: "text too long",
        meaning: "The constraint text or data text has more than 16,384 bytes. It is told before all else, whatever the text holds.",
        place: "16,384: the first byte that is too many.",
        advice: "Take out comments and blanks. A constraint text can be split into several whose tables are merged.",
    },
    Number {
        number: 2,
        title: "syntax",
        meaning: "A token can't be read, or can't follow what stands before it, or the text ends too early.",
        place: "The token's first byte; the text's length where it ends too early.",
        advice: "Look at the byte over the caret, then at the token before it: a brace, a bar, a quote, a > or an = is often missing there. \
                 What the rules leave out is told as 2 too, such as reals, term codes, containers and assumed values.",
    },
    Number {
        number: 3,
        title: "17th level",
        meaning: "Objects of a constraint text, or blocks of a data text, lie more than 16 levels deep. The outermost is the first level.",
        place: "The 17th object's type; the 17th block's <.",
        advice: "Use fewer levels.",
    },
    Number {
        number: 4,
        title: "too long",
        meaning: "A type or name has more than 63 bytes, a code more than 31 without its brackets, or a string more than 255 without its quotes.",
        place: "The first byte of the type, name, code or string.",
        advice: "Shorten it.",
    },
    Number {
        number: 5,
        title: "number, date or word impossible",
        meaning: "In a constraint text: an integer with needless zeros, -0, one outside -2,147,483,648..2,147,483,647, a date that no calendar has, \
                  or a +/- that leads outside the range. In a data text: a word that reads as no Boolean, integer, date, time \
                  or duration.",
        place: "The number or date, for +/- the number behind it; the word.",
        advice: "Correct the spelling. In data, text must stand in quotes; Booleans are True and False; times are hh, hh:mm or hh:mm:ss with an optional zone \
                 such as Z or +05:30; 24:00 is none. Durations are as P12w3d or PT5m: P, then slots of one to four digits and y, m, w or d, \
                 then, behind T, h, m or s.",
    },
    Number {
        number: 6,
        title: "empty interval",
        meaning: "No value lies in the interval, as in |5..4| or |>0..<1|.",
        place: "The interval's closing bar.",
        advice: "Look at both ends. An end with > or < leaves its own value out; +/- needs a number of 0 or more.",
    },
    Number {
        number: 7,
        title: "17th item",
        meaning: "A list has more than 16 items.",
        place: "The first token of the 17th item.",
        advice: "Join neighbouring values into intervals.",
    },
    Number {
        number: 8,
        title: "too many records",
        meaning: "Compiling needs a record with number 2,048, or the merged tables have more than 2,048 records with their header.",
        place: "The token that starts the record; 0 for a merge.",
        advice: "Split the constraint text, or merge fewer tables into one image.",
    },
    Number {
        number: 9,
        title: "repeated",
        meaning: "An item equals or overlaps an earlier item of its list, an attribute is named twice in one object, or a member twice in one block.",
        place: "The first token of the later item; the later name.",
        advice: "Take one of the two out, or move the interval's ends apart.",
    },
    Number {
        number: 10,
        title: "too many bytes of names",
        meaning: "Two tables to be merged have together more than 16,384 bytes of types, codes, names and strings. Merging alone tells it.",
        place: "0.",
        advice: "Merge fewer tables into one image.",
    },
    Number {
        number: 11,
        title: "output too short",
        meaning: "The bytes lent for the table are too few. It is told after all else.",
        place: "For compiling the text's end; for a merge the length needed.",
        advice: "Lend 65,536 bytes: no table is longer. This tool always does, so it never tells 11.",
    },
    Number {
        number: 12,
        title: "not a table",
        meaning: "The length isn't the one that the header asks for, the header breaks a rule, or the root is no object.",
        place: "0.",
        advice: "See that the file is a table, and whole. Tables are written by compile and merge.",
    },
    Number {
        number: 13,
        title: "record breaks a rule",
        meaning: "A record has a wrong mark, kind, flag, link, place, length, pair of values or field that must be 0.",
        place: "The number of the lowest such record.",
        advice: "The table was damaged or written by another program. Compile it anew.",
    },
    Number {
        number: 14,
        title: "no object, or no name",
        meaning: "The root asked for isn't an object of the table, or the record asked for a name holds none: only objects, attributes and string items do.",
        place: "The number asked for.",
        advice: "Use the root that merge told. To see all records: dubrakosh show TABLE.",
    },
    Number {
        number: 20,
        title: "block for leaf, leaf for block, or unreadable as the kind",
        meaning: "The data have a block where the constraint wants a leaf, a leaf where it wants a block, or a leaf that can't be read as the kind wanted.",
        place: "The datum's <. The record is the object or first item that the attribute leads to.",
        advice: "Send a value of the kind wanted. Strings stand in quotes, all other values don't; 08 is a time and no integer.",
    },
    Number {
        number: 21,
        title: "type differs",
        meaning: "The block's type, written before it in brackets, isn't the object's.",
        place: "The block's <. The record is the object.",
        advice: "Write the type that the constraint has, or none.",
    },
    Number {
        number: 22,
        title: "member missing",
        meaning: "An attribute with existence 1..1 has no member in the block.",
        place: "The < of the block that should hold it. The record is the attribute.",
        advice: "Add the member, or let the constraint say: existence matches {0..1}.",
    },
    Number {
        number: 23,
        title: "member present under 0..0",
        meaning: "The block has a member whose attribute has existence 0..0.",
        place: "The member's <. The record is the attribute.",
        advice: "Take the member out.",
    },
    Number {
        number: 24,
        title: "value not admitted",
        meaning: "The value is of the kind wanted, but none of the items admits it, or it doesn't fit the pattern. A date interval admits full dates only.",
        place: "The value's <. The record is the first item.",
        advice: "Check the value. If it is right, the form was judged at the wrong root, or the constraint is too narrow.",
    },
];

#[cfg(test)]
mod tests {
    use super::*;

    #[test]
    fn the_numbers_are_those_of_document_01() {
        let numbers: Vec<u32> = NUMBERS.iter().map(|entry| entry.number).collect();
        assert_eq!(numbers, (1..=14).chain(20..=24).collect::<Vec<u32>>());
        assert_eq!(number(9).map(|entry| entry.title), Some("repeated"));
        assert!(number(0).is_none() && number(15).is_none() && number(25).is_none());
    }
}
