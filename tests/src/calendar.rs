//! Moments of the Gregorian calendar, to write times and to know how far apart two of them are.

use crate::element::{tag, Element};

pub const DAY: i64 = 86_400;

/// Seconds since the start of the year 0, by today's leap rule throughout.
#[derive(Clone, Copy, Debug, PartialEq, Eq, PartialOrd, Ord)]
pub struct Moment {
    pub seconds: i64,
}

#[derive(Clone, Copy, Debug, PartialEq, Eq)]
pub struct Fields {
    pub year: i64,
    pub month: i64,
    pub day: i64,
    pub hour: i64,
    pub minute: i64,
    pub second: i64,
}

pub fn is_leap(year: i64) -> bool {
    year % 4 == 0 && (year % 100 != 0 || year % 400 == 0)
}

pub fn days_of_month(year: i64, month: i64) -> i64 {
    match month {
        2 if is_leap(year) => 29,
        2 => 28,
        4 | 6 | 9 | 11 => 30,
        _ => 31,
    }
}

fn days_of_year(year: i64) -> i64 {
    if is_leap(year) {
        366
    } else {
        365
    }
}

impl Moment {
    pub fn at(year: i64, month: i64, day: i64) -> Moment {
        Moment::at_time(Fields { year, month, day, hour: 0, minute: 0, second: 0 })
    }

    pub fn at_time(fields: Fields) -> Moment {
        let years: i64 = (0..fields.year).map(days_of_year).sum();
        let months: i64 = (1..fields.month).map(|month| days_of_month(fields.year, month)).sum();
        let days = years + months + fields.day - 1;
        Moment { seconds: days * DAY + fields.hour * 3600 + fields.minute * 60 + fields.second }
    }

    /// The last second that a time can be written of.
    pub fn last() -> Moment {
        Moment::at(10_000, 1, 1).later(-1)
    }

    /// The same month, day and time so many years on; a 29 February ends on the 28th.
    pub fn anniversary(self, years: i64) -> Moment {
        let mut fields = self.fields();
        fields.year += years;
        if (fields.month, fields.day) == (2, 29) && !is_leap(fields.year) {
            fields.day = 28;
        }
        Moment::at_time(fields)
    }

    pub fn later(self, seconds: i64) -> Moment {
        Moment { seconds: self.seconds + seconds }
    }

    pub fn fields(self) -> Fields {
        let (mut days, rest) = (self.seconds / DAY, self.seconds % DAY);
        let mut year = 0;
        while days >= days_of_year(year) {
            days -= days_of_year(year);
            year += 1;
        }
        let mut month = 1;
        while days >= days_of_month(year, month) {
            days -= days_of_month(year, month);
            month += 1;
        }
        Fields { year, month, day: days + 1, hour: rest / 3600, minute: rest / 60 % 60, second: rest % 60 }
    }

    /// The time as a UTCTime; only years 1950 to 2049 have one.
    pub fn utc(self) -> Element {
        let fields = self.fields();
        assert!((1950..=2049).contains(&fields.year), "no UTCTime for the year {}", fields.year);
        Element::primitive(tag::UTC_TIME, format!("{:02}{}", fields.year % 100, rest_of(fields)).as_bytes())
    }

    pub fn generalized(self) -> Element {
        let fields = self.fields();
        Element::primitive(tag::GENERALIZED_TIME, format!("{:04}{}", fields.year, rest_of(fields)).as_bytes())
    }

    /// The form that the profiles ask for: UTCTime through 2049, GeneralizedTime after.
    pub fn due_form(self) -> Element {
        if self.fields().year < 2050 {
            self.utc()
        } else {
            self.generalized()
        }
    }
}

fn rest_of(fields: Fields) -> String {
    let Fields { month, day, hour, minute, second, .. } = fields;
    format!("{month:02}{day:02}{hour:02}{minute:02}{second:02}Z")
}

#[cfg(test)]
mod tests {
    use super::*;

    #[test]
    fn anniversaries() {
        assert_eq!(Moment::at(2024, 2, 29).later(7).anniversary(10), Moment::at(2034, 2, 28).later(7));
        assert_eq!(Moment::at(2024, 2, 29).anniversary(4), Moment::at(2028, 2, 29));
        assert_eq!(Moment::at(2026, 2, 28).anniversary(10), Moment::at(2036, 2, 28));
        assert_eq!(
            Moment::last().fields(),
            Fields { year: 9999, month: 12, day: 31, hour: 23, minute: 59, second: 59 }
        );
    }
}
