//! The product's jobs, over its C interface, in the second implementation's answers.

use crate::told;
use binding::{Judged, Merged, Named, Placed};
use second::api::{CheckAnswer, CompileAnswer, JudgeAnswer, MergeAnswer, NameAnswer};
use second::generator::law::Jobs;
use std::fmt::Debug;

/// The five jobs of the product. It has no job for the meaning, which stays the second implementation's.
pub fn jobs() -> Jobs {
    Jobs { compile, check, merge, judge, name, ..Jobs::library() }
}

/// The answer, if it says all that the C interface told: an argument that the outcome does not name must be 0.
fn whole<T: PartialEq + Debug, A: Copy + Debug>(told: T, answer: A, telling: fn(A) -> T) -> A {
    assert_eq!(told, telling(answer), "the C interface told more than {answer:?}");
    answer
}

fn compile(text: &[u8], little: bool, out: &mut [u8]) -> CompileAnswer {
    let told = binding::compile(text, little, out);
    let answer = match told {
        Placed { number: 0, place } => CompileAnswer::Done { length: place },
        Placed { number, place } => CompileAnswer::Refused { number, place },
    };
    whole(told, answer, told::compiled)
}

fn check(table: &[u8]) -> CheckAnswer {
    let told = binding::check(table);
    let answer = match told {
        Placed { number: 0, .. } => CheckAnswer::Passed,
        Placed { number, place } => CheckAnswer::Refused { number, place },
    };
    whole(told, answer, told::checked)
}

fn merge(first: &[u8], second: &[u8], little: bool, out: &mut [u8]) -> MergeAnswer {
    let told = binding::merge(first, second, little, out);
    let answer = match told {
        Merged { number: 0, place, record_shift, pool_shift, .. } => {
            MergeAnswer::Done { length: place, record_shift, pool_shift }
        }
        Merged { number, place, which, .. } => MergeAnswer::Refused { number, place, table: which },
    };
    whole(told, answer, told::merged)
}

fn judge(table: &[u8], root: u32, data: &[u8]) -> JudgeAnswer {
    let told = binding::judge(table, root, data);
    let answer = match told {
        Judged { number: 0, .. } => JudgeAnswer::Valid,
        Judged { number: reason @ 20..=24, record, place } => JudgeAnswer::Verdict { reason, record, place },
        Judged { number, place, .. } => JudgeAnswer::Refused { number, place },
    };
    whole(told, answer, told::judged)
}

fn name(table: &[u8], record: u32) -> NameAnswer {
    let told = binding::name(table, record);
    let answer = match told {
        Named { number: 0, start, length } => NameAnswer::Name { start, length },
        Named { number, start, .. } => NameAnswer::Refused { number, place: start },
    };
    whole(told, answer, told::named)
}
