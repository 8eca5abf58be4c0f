//! "Intervals become closed pairs; an open end moves by one (one calendar day for dates);
//! a missing end is the range's end".

use crate::calendar::Date;

/// A range whose values follow each other one by one.
pub trait Ordered: Copy + Ord {
    const LEAST: Self;
    const GREATEST: Self;
    fn following(self) -> Option<Self>;
    fn preceding(self) -> Option<Self>;
}

impl Ordered for i32 {
    const LEAST: i32 = i32::MIN;
    const GREATEST: i32 = i32::MAX;
    fn following(self) -> Option<i32> {
        self.checked_add(1)
    }
    fn preceding(self) -> Option<i32> {
        self.checked_sub(1)
    }
}

impl Ordered for Date {
    const LEAST: Date = Date::FIRST;
    const GREATEST: Date = Date::LAST;
    fn following(self) -> Option<Date> {
        self.next_day()
    }
    fn preceding(self) -> Option<Date> {
        self.previous_day()
    }
}

/// One end of an interval as it is written.
#[derive(Clone, Copy)]
pub enum End<T> {
    Missing,
    Closed(T),
    Open(T),
}

impl<T> End<T> {
    /// The same end over another kind of value; nothing where the value has no counterpart.
    pub fn convert<U>(self, value: impl Fn(T) -> Option<U>) -> Option<End<U>> {
        Some(match self {
            End::Missing => End::Missing,
            End::Closed(at) => End::Closed(value(at)?),
            End::Open(at) => End::Open(value(at)?),
        })
    }
}

/// The closed pair, or nothing if the interval is empty.
pub fn closed_pair<T: Ordered>(low: End<T>, high: End<T>) -> Option<(T, T)> {
    let low = match low {
        End::Missing => T::LEAST,
        End::Closed(value) => value,
        End::Open(value) => value.following()?,
    };
    let high = match high {
        End::Missing => T::GREATEST,
        End::Closed(value) => value,
        End::Open(value) => value.preceding()?,
    };
    if low <= high {
        Some((low, high))
    } else {
        None
    }
}

/// Whether two closed pairs share a value.
pub fn overlap<T: Ord>(first: &(T, T), second: &(T, T)) -> bool {
    first.0 <= second.1 && second.0 <= first.1
}
