//! Faults of a text, collected while reading goes on, and the order in which they count.

use crate::limits;

/// A refusal's number and its place.
#[derive(Clone, Copy, Debug, PartialEq, Eq)]
pub struct Fault {
    pub number: u32,
    pub place: u64,
}

impl Fault {
    /// "In one text the smallest place wins, then the smallest number; 1 comes before all, 11 after all."
    fn rank(&self) -> (u8, u64, u32) {
        let class = match self.number {
            1 => 0,
            11 => 2,
            _ => 1,
        };
        (class, self.place, self.number)
    }
}

/// All faults met so far, in the order of meeting.
#[derive(Default)]
pub struct Faults {
    list: Vec<Fault>,
}

impl Faults {
    pub fn add(&mut self, number: u32, place: usize) {
        self.list.push(Fault { number, place: place as u64 });
    }

    /// The fault that is the answer.
    pub fn least(&self) -> Option<Fault> {
        self.list.iter().copied().min_by_key(Fault::rank)
    }

    /// All faults, the answer first.
    pub fn into_sorted(mut self) -> Vec<Fault> {
        self.list.sort_by_key(Fault::rank);
        self.list
    }
}

/// "1: text over 16,384 | 16,384". A text that long isn't read any further.
pub fn length_fault(text: &[u8]) -> Option<Fault> {
    if text.len() > limits::TEXT {
        Some(Fault { number: 1, place: limits::TEXT as u64 })
    } else {
        None
    }
}

/// Mark that a syntax fault has been collected and the reading has ended.
#[derive(Debug)]
pub struct Ended;

/// What a part of a reader answers.
pub type Read<T> = Result<T, Ended>;
