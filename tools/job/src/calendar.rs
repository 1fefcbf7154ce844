//! The Gregorian calendar, run backwards as needed, for dates in the text form.

/// Days in a month of a year.
pub fn month_length(year: i64, month: i64) -> i64 {
    let leap = year % 4 == 0 && (year % 100 != 0 || year % 400 == 0);
    match month {
        2 if leap => 29,
        2 => 28,
        4 | 6 | 9 | 11 => 30,
        _ => 31,
    }
}

/// Days from 0001-01-01 to the start of a year.
fn before_year(year: i64) -> i64 {
    let past = year - 1;
    past * 365 + past.div_euclid(4) - past.div_euclid(100) + past.div_euclid(400)
}

/// Days from 0001-01-01 to 1970-01-01.
const EPOCH: i64 = 719_162;

/// Days since 1970-01-01 of a date that exists.
pub fn days(year: i64, month: i64, day: i64) -> Option<i64> {
    if !(1..=12).contains(&month) || day < 1 || day > month_length(year, month) {
        return None;
    }
    let months: i64 = (1..month).map(|m| month_length(year, m)).sum();
    Some(before_year(year) + months + day - 1 - EPOCH)
}

/// Year, month and day of a count of days since 1970-01-01.
pub fn date(days: i64) -> (i64, i64, i64) {
    let mut left = days + EPOCH;
    let mut year = left.div_euclid(366).min(left.div_euclid(365));
    while before_year(year + 1) <= left {
        year += 1;
    }
    left -= before_year(year);
    let mut month = 1;
    while left >= month_length(year, month) {
        left -= month_length(year, month);
        month += 1;
    }
    (year, month, left + 1)
}

#[cfg(test)]
mod tests {
    use super::*;

    #[test]
    fn days_and_dates_agree() {
        assert_eq!(days(1970, 1, 1), Some(0));
        assert_eq!(days(1, 1, 1), Some(-719_162));
        assert_eq!(days(9999, 12, 31), Some(2_932_896));
        assert_eq!(days(2023, 2, 29), None);
        for at in (-900_000..3_000_000).step_by(97) {
            let (year, month, day) = date(at);
            assert_eq!(days(year, month, day), Some(at));
        }
    }
}
