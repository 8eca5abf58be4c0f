//! The answers of the five jobs, and of the meaning read from two texts.

/// Answer of compiling. The output buffer is changed only by `Done`, and then only its first `length` bytes.
#[derive(Clone, Copy, Debug, PartialEq, Eq)]
pub enum CompileAnswer {
    Done { length: u64 },
    Refused { number: u32, place: u64 },
}

/// Answer of checking a table.
#[derive(Clone, Copy, Debug, PartialEq, Eq)]
pub enum CheckAnswer {
    Passed,
    Refused { number: u32, place: u64 },
}

/// Answer of merging. `table` is 1 or 2 where the number is 12 or 13, else 0.
#[derive(Clone, Copy, Debug, PartialEq, Eq)]
pub enum MergeAnswer {
    Done { length: u64, record_shift: u32, pool_shift: u32 },
    Refused { number: u32, place: u64, table: u32 },
}

/// Answer of judging. `reason` is 20 to 24.
#[derive(Clone, Copy, Debug, PartialEq, Eq)]
pub enum JudgeAnswer {
    Valid,
    Refused { number: u32, place: u64 },
    Verdict { reason: u32, record: u32, place: u64 },
}

/// Answer of asking for a name: where the part of the pool stands in the table's own bytes.
#[derive(Clone, Copy, Debug, PartialEq, Eq)]
pub enum NameAnswer {
    Name { start: u64, length: u64 },
    Refused { number: u32, place: u64 },
}

/// The meaning's answer for a constraint text and a data text.
#[derive(Clone, Copy, Debug, PartialEq, Eq)]
pub enum MeaningAnswer {
    ConstraintRefused { number: u32, place: u64 },
    Answer(JudgeAnswer),
}
