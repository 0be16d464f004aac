//! Times, with the form they had, and the seconds from one through another.

use crate::der::{Element, GENERALIZED_TIME, UTC_TIME};
use crate::structure::Misfit;

const SECONDS_A_DAY: i64 = 86_400;

/// "A time is either UTCTime or GeneralizedTime, kept with the form it had"
#[derive(Clone, Copy, Debug, PartialEq, Eq)]
pub enum Time {
    Utc(Date),
    Generalized(Date),
}

/// "a real Gregorian date, 00:00:00 to 23:59:59"
#[derive(Clone, Copy, Debug, PartialEq, Eq)]
pub struct Date {
    pub year: u16,
    month: u8,
    day: u8,
    hour: u8,
    minute: u8,
    second: u8,
}

impl Time {
    pub fn read(element: Element) -> Result<Time, Misfit> {
        let time = match element.identifier() {
            UTC_TIME => read_utc_time(element.contents()),
            GENERALIZED_TIME => read_generalized_time(element.contents()),
            _ => None,
        };
        time.ok_or(Misfit::at(element))
    }

    pub fn date(&self) -> Date {
        match *self {
            Time::Utc(date) | Time::Generalized(date) => date,
        }
    }
}

/// "YYMMDDHHMMSSZ (50 to 99 is 19YY)"
fn read_utc_time(contents: &[u8]) -> Option<Time> {
    let (year, rest) = contents.split_at_checked(2)?;
    let year = two_digits(year)?;
    let century = if year >= 50 { 1900 } else { 2000 };
    read_date(century + u16::from(year), rest).map(Time::Utc)
}

/// "or YYYYMMDDHHMMSSZ"
fn read_generalized_time(contents: &[u8]) -> Option<Time> {
    let (century, rest) = contents.split_at_checked(2)?;
    let (year, rest) = rest.split_at_checked(2)?;
    let year = 100 * u16::from(two_digits(century)?) + u16::from(two_digits(year)?);
    read_date(year, rest).map(Time::Generalized)
}

/// MMDDHHMMSSZ of a given year.
fn read_date(year: u16, octets: &[u8]) -> Option<Date> {
    let digits = octets.strip_suffix(b"Z")?;
    if digits.len() != 10 {
        return None;
    }
    let mut pairs = digits.chunks_exact(2).map(two_digits);
    let mut next = || pairs.next().flatten();
    let date = Date {
        year,
        month: next()?,
        day: next()?,
        hour: next()?,
        minute: next()?,
        second: next()?,
    };
    date.is_real().then_some(date)
}

/// The number from 0 to 99 that two digits stand for.
fn two_digits(octets: &[u8]) -> Option<u8> {
    match octets {
        [tens @ b'0'..=b'9', ones @ b'0'..=b'9'] => Some(10 * (tens - b'0') + (ones - b'0')),
        _ => None,
    }
}

impl Date {
    fn is_real(&self) -> bool {
        (1..=12).contains(&self.month)
            && (1..=days_in_month(self.year, self.month)).contains(&self.day)
            && self.hour <= 23
            && self.minute <= 59
            && self.second <= 59
    }

    /// The same month, day and time so many years on, or 28 February where that year has no 29 February. The year may
    /// pass 9999: such a date is later than every time that can be written.
    pub fn anniversary(self, years: u16) -> Date {
        let year = self.year + years;
        let day = self.day.min(days_in_month(year, self.month));
        Date { year, day, ..self }
    }

    /// Seconds since the start of the year 0.
    pub fn seconds(&self) -> i64 {
        let days = days_before_year(self.year)
            + days_before_month(self.year, self.month)
            + i64::from(self.day)
            - 1;
        let minutes = 60 * i64::from(self.hour) + i64::from(self.minute);
        days * SECONDS_A_DAY + 60 * minutes + i64::from(self.second)
    }

    /// How many seconds there are from this one "through" another, "inclusive" (RFC 5280, 4.1.2.5): a second through
    /// itself is one. Through the second before it there are none, and through an earlier one fewer than none.
    pub fn seconds_through(self, last: Date) -> i64 {
        last.seconds() - self.seconds() + 1
    }
}

fn is_leap_year(year: u16) -> bool {
    year % 4 == 0 && (year % 100 != 0 || year % 400 == 0)
}

fn days_in_month(year: u16, month: u8) -> u8 {
    match month {
        2 if is_leap_year(year) => 29,
        2 => 28,
        4 | 6 | 9 | 11 => 30,
        _ => 31,
    }
}

fn days_before_month(year: u16, month: u8) -> i64 {
    (1..month)
        .map(|earlier| i64::from(days_in_month(year, earlier)))
        .sum()
}

/// Days from the start of the year 0, itself a leap year, to the start of `year`.
fn days_before_year(year: u16) -> i64 {
    let years = i64::from(year);
    let multiples_of = |divisor: i64| (years + divisor - 1) / divisor;
    365 * years + multiples_of(4) - multiples_of(100) + multiples_of(400)
}

/// So many days "of 86,400 seconds", in seconds.
pub fn days(count: i64) -> i64 {
    count * SECONDS_A_DAY
}

#[cfg(test)]
mod tests {
    use super::*;

    fn utc(text: &str) -> Option<Date> {
        read_utc_time(text.as_bytes()).map(|time| time.date())
    }

    fn generalized(text: &str) -> Option<Date> {
        read_generalized_time(text.as_bytes()).map(|time| time.date())
    }

    #[test]
    fn centuries() {
        assert_eq!(utc("491231235959Z").map(|date| date.year), Some(2049));
        assert_eq!(utc("500101000000Z").map(|date| date.year), Some(1950));
        assert_eq!(
            generalized("00000229000000Z").map(|date| date.year),
            Some(0)
        );
    }

    #[test]
    fn real_dates_only() {
        assert!(utc("240229000000Z").is_some());
        assert!(utc("230229000000Z").is_none());
        assert!(generalized("19000229000000Z").is_none());
        assert!(generalized("20000229000000Z").is_some());
        assert!(utc("240431000000Z").is_none());
        assert!(utc("241301000000Z").is_none());
        assert!(utc("240001000000Z").is_none());
        assert!(utc("240100000000Z").is_none());
        assert!(utc("240101240000Z").is_none());
        assert!(utc("240101006000Z").is_none());
        assert!(utc("240101000060Z").is_none());
        assert!(utc("240101000000").is_none());
        assert!(utc("2401010000Z").is_none());
        assert!(utc("240101000000z").is_none());
        assert!(utc("2401010000000Z").is_none());
        assert!(utc("").is_none());
        assert!(generalized("240101000000Z").is_none());
        assert!(generalized("20240101000000.0Z").is_none());
    }

    #[test]
    fn each_day_follows_the_day_before() {
        let mut seconds = 0;
        for year in 0..=2400 {
            for month in 1..=12 {
                for day in 1..=days_in_month(year, month) {
                    let date = Date {
                        year,
                        month,
                        day,
                        hour: 0,
                        minute: 0,
                        second: 0,
                    };
                    assert_eq!(date.seconds(), seconds);
                    seconds += SECONDS_A_DAY;
                }
            }
        }
    }

    #[test]
    fn tenth_anniversaries() {
        let tenth = |text: &str| generalized(text).map(|date| date.anniversary(10));
        assert_eq!(tenth("20240131235959Z"), generalized("20340131235959Z"));
        assert_eq!(tenth("20240229120000Z"), generalized("20340228120000Z"));
        assert_eq!(tenth("20960229000001Z"), generalized("21060228000001Z"));
        // 2036 has a 29 February, and a start on the 28th still ends on the 28th.
        assert_eq!(tenth("20260228000000Z"), generalized("20360228000000Z"));
    }

    #[test]
    fn an_anniversary_past_9999_is_later_than_every_time() {
        let last = generalized("99991231235959Z").unwrap().seconds();
        for start in ["99900101000000Z", "99960229000000Z", "99991231235959Z"] {
            assert!(generalized(start).unwrap().anniversary(10).seconds() > last);
        }
        let before = generalized("99891231235959Z").unwrap();
        assert_eq!(before.anniversary(10).seconds(), last);
    }

    fn seconds_through(first: &str, last: &str) -> i64 {
        let [first, last] = [first, last].map(|text| generalized(text).unwrap());
        first.seconds_through(last)
    }

    #[test]
    fn both_ends_count() {
        let noon = "20240101120000Z";
        assert_eq!(seconds_through(noon, "20240101120001Z"), 2);
        assert_eq!(seconds_through(noon, noon), 1);
        assert_eq!(seconds_through(noon, "20240101115959Z"), 0);
        assert_eq!(seconds_through(noon, "20240101115958Z"), -1);
        assert_eq!(seconds_through(noon, "20231231120000Z"), 1 - days(1));
    }

    #[test]
    fn days_end_a_second_before_they_are_over() {
        let start = "20240101000000Z";
        assert_eq!(seconds_through(start, "20240101235959Z"), days(1));
        assert_eq!(seconds_through(start, "20240214235959Z"), days(45));
        assert_eq!(seconds_through(start, "20250129235959Z"), days(395));
        assert_eq!(seconds_through(start, "20250130000000Z"), days(395) + 1);
    }

    #[test]
    fn all_seconds_there_are() {
        let (first, last) = ("00000101000000Z", "99991231235959Z");
        let all = days(25 * 146_097);
        assert_eq!(seconds_through(first, last), all);
        assert_eq!(seconds_through(last, first), 2 - all);
    }
}
