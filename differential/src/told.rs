//! What the C interface should tell for an answer of the second implementation: document 01's number, and 0 for each argument that the outcome does not name.

use binding::{Judged, Merged, Named, Placed};
use second::api::{CheckAnswer, CompileAnswer, JudgeAnswer, MergeAnswer, NameAnswer};

pub fn compiled(answer: CompileAnswer) -> Placed {
    match answer {
        CompileAnswer::Done { length } => Placed { number: 0, place: length },
        CompileAnswer::Refused { number, place } => Placed { number, place },
    }
}

pub fn checked(answer: CheckAnswer) -> Placed {
    match answer {
        CheckAnswer::Passed => Placed { number: 0, place: 0 },
        CheckAnswer::Refused { number, place } => Placed { number, place },
    }
}

pub fn merged(answer: MergeAnswer) -> Merged {
    match answer {
        MergeAnswer::Done { length, record_shift, pool_shift } => {
            Merged { number: 0, place: length, record_shift, pool_shift, which: 0 }
        }
        MergeAnswer::Refused { number, place, table } => {
            Merged { number, place, record_shift: 0, pool_shift: 0, which: table }
        }
    }
}

pub fn judged(answer: JudgeAnswer) -> Judged {
    match answer {
        JudgeAnswer::Valid => Judged { number: 0, record: 0, place: 0 },
        JudgeAnswer::Refused { number, place } => Judged { number, record: 0, place },
        JudgeAnswer::Verdict { reason, record, place } => Judged { number: reason, record, place },
    }
}

pub fn named(answer: NameAnswer) -> Named {
    match answer {
        NameAnswer::Name { start, length } => Named { number: 0, start, length },
        NameAnswer::Refused { number, place } => Named { number, start: place, length: 0 },
    }
}
