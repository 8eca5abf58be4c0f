//! Short texts from the generator, with a fixed seed.

use super::table::{made_inputs, Inputs};
use crate::faults::Fault;
use crate::generator::Maker;

const SEED: u64 = 1;

/// How many texts are taken of each sort, and how long they may be.
const TEXTS: usize = 150;
const LONGEST: usize = 119;

/// How many texts the generator is asked for at most.
const DRAWS: u64 = 100_000;

/// How many of them may be accepted, may have a syntax fault, and may have any other number of refusal.
const MOST_ACCEPTED: usize = 60;
const MOST_SYNTAX: usize = 40;
const MOST_OTHER: usize = 25;

/// The first short texts that the maker gives, no two the same, and not too many with the same answer.
fn first(make: impl Fn(u64) -> Vec<u8>, fault: impl Fn(&[u8]) -> Option<Fault>) -> Vec<Inputs> {
    let mut all: Vec<Vec<u8>> = Vec::new();
    let mut answered = [0; 32];
    for number in 0..DRAWS {
        let text = make(number);
        if all.len() == TEXTS {
            break;
        }
        if text.is_empty() || text.len() > LONGEST || all.contains(&text) {
            continue;
        }
        let answer = fault(&text).map_or(0, |fault| fault.number as usize);
        let most = match answer {
            0 => MOST_ACCEPTED,
            2 => MOST_SYNTAX,
            _ => MOST_OTHER,
        };
        if answered[answer] < most {
            answered[answer] += 1;
            all.push(text);
        }
    }
    vec![made_inputs("texts as the generator gives them, not too many with the same answer", all)]
}

pub fn constraint_texts() -> Vec<Inputs> {
    let maker = Maker::new(SEED);
    first(|number| maker.text(number).text, |text| crate::constraint::read(text).err())
}

pub fn data_texts() -> Vec<Inputs> {
    let maker = Maker::new(SEED);
    first(|number| maker.judge(number).data, |text| crate::data::read(text).err())
}
