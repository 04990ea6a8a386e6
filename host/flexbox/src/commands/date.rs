//! Dates as diskettes have them: month, day and the last two digits of the year.

use crate::failure::Failure;
use std::ops::RangeInclusive;

/// Today, where the machine stands.
pub fn today() -> Result<[u8; 3], Failure> {
    let now = posix::local_time().map_err(|error| Failure::File(format!("the date: {}", error)))?;
    Ok([now.month, now.day, now.year.rem_euclid(100) as u8])
}

/// "2026-11-15 22:41", where the machine stands.
pub fn now() -> Result<String, Failure> {
    let now = posix::local_time().map_err(|error| Failure::File(format!("the time: {}", error)))?;
    Ok(format!("{}-{:02}-{:02} {:02}:{:02}", now.year, now.month, now.day, now.hour, now.minute))
}

/// "12-03-81" or "12-3-1981", if the calendar has that day.
pub fn typed(text: &str) -> Option<[u8; 3]> {
    let (month, rest) = text.split_once('-')?;
    let (day, year) = rest.split_once('-')?;
    let (month, day, year) = (number(month, 1..=2)?, number(day, 1..=2)?, full_year(year)?);
    let is_there = (1..=days(month, year)).contains(&day);
    is_there.then_some([month as u8, day as u8, (year % 100) as u8])
}

/// Of two digits the year is in this century: it has the same leap years as the last one, and one more.
fn full_year(text: &str) -> Option<u16> {
    match text.len() {
        2 => Some(2000 + number(text, 2..=2)?),
        _ => number(text, 4..=4).filter(|year| (1900..=2099).contains(year)),
    }
}

/// A number of so many digits.
fn number(text: &str, digits: RangeInclusive<usize>) -> Option<u16> {
    let is_right = digits.contains(&text.len()) && text.bytes().all(|byte| byte.is_ascii_digit());
    text.parse().ok().filter(|_| is_right)
}

/// How many days a month has; none if there is no such month.
fn days(month: u16, year: u16) -> u16 {
    let is_leap = year % 4 == 0 && (year % 100 != 0 || year % 400 == 0);
    match month {
        2 => 28 + is_leap as u16,
        4 | 6 | 9 | 11 => 30,
        1..=12 => 31,
        _ => 0,
    }
}

#[cfg(test)]
mod tests {
    use super::*;

    #[test]
    fn days_of_the_calendar_are_dates_and_others_are_none() {
        assert_eq!(typed("12-03-81"), Some([12, 3, 81]));
        assert_eq!(typed("7-4-1981"), Some([7, 4, 81]));
        for right in ["1-31-00", "4-30-99", "02-29-84", "2-29-00", "2-29-2000", "12-31-2099", "1-1-1900"] {
            assert!(typed(right).is_some(), "{}", right);
        }
        let no_form = ["", "-", "--", "1-1", "1-1-", "1-1-81-", "1/1/81", "001-1-81"];
        let no_number = ["1- 1-81", "+1-1-81", "1-1-+81", "1-1-\u{668}"];
        let no_year = ["1-1-1", "1-1-811", "1-1-1899", "1-1-2100"];
        let no_day = ["0-1-81", "13-1-81", "1-0-81", "1-32-81", "4-31-81", "2-29-81", "2-30-84", "2-29-1900"];
        for wrong in no_form.iter().chain(&no_number).chain(&no_year).chain(&no_day) {
            assert_eq!(typed(wrong), None, "{}", wrong);
        }
    }

    #[test]
    fn a_year_has_its_days() {
        let all = |year| (0..=13).map(|month| days(month, year)).sum::<u16>();
        assert_eq!([1900, 1981, 1984, 2000, 2100].map(all), [365, 365, 366, 366, 365]);
    }
}
