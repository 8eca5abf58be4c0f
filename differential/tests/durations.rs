//! All 127 Duration patterns, compiled and judged by the product and by the second implementation, each against words of all 127 filled sets of slots.

use binding::{Judged, Placed};
use second::api::{CompileAnswer, JudgeAnswer};

/// The letters with their bits, and whether they stand behind `T`.
const LETTERS: [(char, bool); 7] =
    [('y', false), ('m', false), ('w', false), ('d', false), ('h', true), ('m', true), ('s', true)];

/// `P` and what each slot of a flag is spelled as, with `T` before the first behind it.
fn spelled(flag: u32, slot: impl Fn(char) -> String) -> String {
    let mut out = String::from("P");
    let mut behind = false;
    for (bit, (letter, time)) in LETTERS.into_iter().enumerate() {
        if flag >> bit & 1 == 1 {
            if time && !behind {
                out.push('T');
                behind = true;
            }
            out.push_str(&slot(letter));
        }
    }
    out
}

fn compiled(text: &str) -> Vec<u8> {
    let mut product = vec![0; 65_536];
    let mut second = product.clone();
    let told = binding::compile(text.as_bytes(), false, &mut product);
    let Placed { number: 0, place } = told else { panic!("{text}: {told:?}") };
    assert_eq!(second::compile(text.as_bytes(), false, &mut second), CompileAnswer::Done { length: place }, "{text}");
    assert_eq!(product, second, "{text}");
    product.truncate(place as usize);
    product
}

#[test]
fn every_pattern_judges_every_set_of_slots() {
    let words: Vec<String> = (1..128)
        .map(|filled| {
            let digits = ["7", "07", "123", "9999"][filled as usize % 4];
            let word = spelled(filled, |letter| format!("{digits}{letter}"));
            let sign = if filled % 5 == 0 { "-" } else { "" };
            let word = if filled % 3 == 0 { word.to_uppercase() } else { word };
            format!("<a = <{sign}{word}>>")
        })
        .collect();
    for pattern in 1..128 {
        let table = compiled(&format!("A matches {{a matches {{{}}}}}", spelled(pattern, |letter| letter.to_string())));
        assert_eq!(&table[72..76], [0xC0, 0xAD, 9, pattern as u8]);
        for (word, filled) in words.iter().zip(1u32..) {
            let product = binding::judge(&table, 1, word.as_bytes());
            let second = second::judge(&table, 1, word.as_bytes());
            let admitted = filled & pattern == filled;
            let expected =
                if admitted { JudgeAnswer::Valid } else { JudgeAnswer::Verdict { reason: 24, record: 3, place: 5 } };
            assert_eq!(second, expected, "flag {pattern}, {word}");
            let number = if admitted { (0, 0, 0) } else { (24, 3, 5) };
            assert_eq!(
                product,
                Judged { number: number.0, record: number.1, place: number.2 },
                "flag {pattern}, {word}"
            );
        }
    }
}
