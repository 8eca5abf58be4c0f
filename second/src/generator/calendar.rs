//! Dates as day numbers: day 0 is 0000-01-01, the last day is 9999-12-31.

/// The number of 9999-12-31.
pub const LAST_DAY: i64 = 3_652_424;

/// Leap years by 4, not 100, yet 400.
pub fn is_leap(year: i64) -> bool {
    year % 4 == 0 && (year % 100 != 0 || year % 400 == 0)
}

/// Days in a month 1..12 of a year.
pub fn month_days(year: i64, month: i64) -> i64 {
    match month {
        2 if is_leap(year) => 29,
        2 => 28,
        4 | 6 | 9 | 11 => 30,
        _ => 31,
    }
}

/// Days before the first day of a year 0..10000.
fn days_before(year: i64) -> i64 {
    if year == 0 {
        return 0;
    }
    let last = year - 1;
    365 * year + last / 4 - last / 100 + last / 400 + 1
}

/// Year, month and day of a day number 0..=LAST_DAY.
pub fn date_of(day: i64) -> (i64, i64, i64) {
    let mut year = day / 366;
    while days_before(year + 1) <= day {
        year += 1;
    }
    let mut left = day - days_before(year);
    let mut month = 1;
    while left >= month_days(year, month) {
        left -= month_days(year, month);
        month += 1;
    }
    (year, month, left + 1)
}

/// The day number of a real date.
pub fn day_of(year: i64, month: i64, day: i64) -> i64 {
    let months: i64 = (1..month).map(|m| month_days(year, m)).sum();
    days_before(year) + months + day - 1
}

/// A day number as the table's number: year × 10,000 + month × 100 + day. Days outside the
/// calendar become numbers that are no dates.
pub fn packed(day: i64) -> u32 {
    if !(0..=LAST_DAY).contains(&day) {
        return if day < 0 { 0 } else { 99_991_232 };
    }
    let (year, month, day) = date_of(day);
    (year * 10_000 + month * 100 + day) as u32
}

/// The day number of a table's number, when it is a real date.
pub fn unpacked(number: u32) -> Option<i64> {
    let (year, month, day) = (i64::from(number / 10_000), i64::from(number / 100 % 100), i64::from(number % 100));
    let real = year <= 9999 && (1..=12).contains(&month) && day >= 1 && day <= month_days(year, month);
    real.then(|| day_of(year, month, day))
}

/// A day number as it is spelled in texts.
pub fn spelled(day: i64) -> String {
    let (year, month, day) = date_of(day);
    format!("{year:04}-{month:02}-{day:02}")
}

#[cfg(test)]
mod tests {
    use super::*;

    #[test]
    fn days_and_dates_agree() {
        assert_eq!(date_of(0), (0, 1, 1));
        assert_eq!(date_of(LAST_DAY), (9999, 12, 31));
        let mut expected = (0, 1, 1);
        for day in 0..=LAST_DAY {
            assert_eq!(date_of(day), expected);
            assert_eq!(unpacked(packed(day)), Some(day));
            expected = following(expected);
        }
        assert_eq!(unpacked(19_000_229), None);
        assert_eq!(unpacked(100_000_101), None);
        assert_eq!(unpacked(0), None);
    }

    fn following(date: (i64, i64, i64)) -> (i64, i64, i64) {
        let (year, month, day) = date;
        if day < month_days(year, month) {
            (year, month, day + 1)
        } else if month < 12 {
            (year, month + 1, 1)
        } else {
            (year + 1, 1, 1)
        }
    }
}
