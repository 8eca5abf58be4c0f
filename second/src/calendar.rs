//! The Gregorian calendar from 0000-01-01 to 9999-12-31.

use crate::numbers::fixed_digits;

/// A full and real date. The order of the fields makes the derived order that of time.
#[derive(Clone, Copy, Debug, PartialEq, Eq, PartialOrd, Ord)]
pub struct Date {
    year: u32,
    month: u32,
    day: u32,
}

/// "leap years by 4, not 100, yet 400"
pub fn is_leap(year: u32) -> bool {
    (year.is_multiple_of(4) && !year.is_multiple_of(100)) || year.is_multiple_of(400)
}

/// Days of a month, 0 for a month that doesn't exist.
pub fn days_in_month(year: u32, month: u32) -> u32 {
    match month {
        1 | 3 | 5 | 7 | 8 | 10 | 12 => 31,
        4 | 6 | 9 | 11 => 30,
        2 if is_leap(year) => 29,
        2 => 28,
        _ => 0,
    }
}

impl Date {
    pub const FIRST: Date = Date { year: 0, month: 1, day: 1 };
    pub const LAST: Date = Date { year: 9999, month: 12, day: 31 };

    pub fn new(year: u32, month: u32, day: u32) -> Option<Date> {
        if year <= 9999 && day >= 1 && day <= days_in_month(year, month) {
            Some(Date { year, month, day })
        } else {
            None
        }
    }

    /// "date: four digits, `-`, two, `-`, two", and real.
    pub fn read(spelling: &[u8]) -> Option<Date> {
        if spelling.len() != 10 || spelling[4] != b'-' || spelling[7] != b'-' {
            return None;
        }
        let year = fixed_digits(&spelling[..4], 4)?;
        let month = fixed_digits(&spelling[5..7], 2)?;
        let day = fixed_digits(&spelling[8..], 2)?;
        Date::new(year, month, day)
    }

    /// "year×10,000+month×100+day"
    pub fn packed(self) -> u32 {
        self.year * 10_000 + self.month * 100 + self.day
    }

    /// The date that a packed number stands for, if it is real and none after 9999-12-31.
    pub fn from_packed(packed: u32) -> Option<Date> {
        Date::new(packed / 10_000, packed / 100 % 100, packed % 100)
    }

    /// One calendar day later, if the range holds it.
    pub fn next_day(self) -> Option<Date> {
        if self == Date::LAST {
            None
        } else if self.day < days_in_month(self.year, self.month) {
            Some(Date { day: self.day + 1, ..self })
        } else if self.month < 12 {
            Some(Date { month: self.month + 1, day: 1, ..self })
        } else {
            Some(Date { year: self.year + 1, month: 1, day: 1 })
        }
    }

    /// One calendar day earlier, if the range holds it.
    pub fn previous_day(self) -> Option<Date> {
        if self == Date::FIRST {
            None
        } else if self.day > 1 {
            Some(Date { day: self.day - 1, ..self })
        } else if self.month > 1 {
            let month = self.month - 1;
            Some(Date { year: self.year, month, day: days_in_month(self.year, month) })
        } else {
            Some(Date { year: self.year - 1, month: 12, day: 31 })
        }
    }
}
