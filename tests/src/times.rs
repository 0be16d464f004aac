//! Times at every edge of their forms, and whether a certificate may have them.

use crate::calendar::{days_of_month, Fields};
use crate::element::{tag, Element};

/// A time element, and whether it is one by the rules, where that is plain.
pub struct Time {
    pub element: Element,
    pub is_real: Option<bool>,
}

fn time(identifier: u8, text: &[u8], is_real: bool) -> Time {
    Time { element: Element::primitive(identifier, text), is_real: Some(is_real) }
}

pub fn times_at_their_edges() -> Vec<Time> {
    let mut times = dates();
    times.extend(leap_days());
    times.extend(times_of_day());
    times.extend(lengths());
    times.extend(every_octet_at_every_position());
    times.extend(every_identifier());
    times
}

/// Years at the edges of the leap rule, of the two forms and of four digits.
const YEARS: [i64; 20] =
    [0, 1, 3, 4, 99, 100, 400, 999, 1000, 1582, 1600, 1700, 1899, 1900, 1949, 1950, 2000, 2049, 2050, 9999];

fn dates() -> Vec<Time> {
    let mut times = Vec::new();
    for month in 0..=13 {
        for day in [0, 1, 28, 29, 30, 31, 32] {
            let fields = |year: i64| Fields { year, month, day, hour: 0, minute: 0, second: 0 };
            times.extend((1950..=2049).map(|year| in_utc(fields(year))));
            times.extend(YEARS.map(|year| in_generalized(fields(year))));
        }
    }
    times
}

/// 29 February of every year there is.
fn leap_days() -> Vec<Time> {
    let day = |year: i64| Fields { year, month: 2, day: 29, hour: 23, minute: 59, second: 59 };
    (0..=9999).map(|year| in_generalized(day(year))).collect()
}

fn times_of_day() -> Vec<Time> {
    let mut times = Vec::new();
    for hour in [0, 1, 9, 10, 19, 20, 23, 24, 25, 29, 30, 60, 99] {
        for minute in [0, 1, 9, 10, 59, 60, 61, 99] {
            for second in [0, 1, 9, 10, 59, 60, 61, 99] {
                let fields = Fields { year: 2024, month: 12, day: 31, hour, minute, second };
                times.extend([in_utc(fields), in_generalized(fields)]);
            }
        }
    }
    times
}

fn in_utc(fields: Fields) -> Time {
    time(tag::UTC_TIME, format!("{:02}{}", fields.year % 100, rest_of(fields)).as_bytes(), is_real(fields))
}

fn in_generalized(fields: Fields) -> Time {
    time(tag::GENERALIZED_TIME, format!("{:04}{}", fields.year, rest_of(fields)).as_bytes(), is_real(fields))
}

/// All after the year, real or not.
fn rest_of(fields: Fields) -> String {
    let Fields { month, day, hour, minute, second, .. } = fields;
    format!("{month:02}{day:02}{hour:02}{minute:02}{second:02}Z")
}

fn is_real(fields: Fields) -> bool {
    let Fields { year, month, day, hour, minute, second } = fields;
    let is_date = (1..=12).contains(&month) && (1..=days_of_month(year, month)).contains(&day);
    is_date && hour < 24 && minute < 60 && second < 60
}

/// Digits of every number up to well past the due one, with and without what must end them.
fn lengths() -> Vec<Time> {
    let mut times = Vec::new();
    let utc = format!("240101{:0<24}", "");
    let generalized = format!("20240101{:0<24}", "");
    for count in 0..=30 {
        for end in ["Z", "z", "", ".0Z", "+0000", "-0000", "Z\0", " Z", "ZZ"] {
            for (identifier, digits, due) in [
                (tag::UTC_TIME, &utc, Some(12)),
                (tag::GENERALIZED_TIME, &generalized, Some(14)),
                // Digits that are no date when read in the other form.
                (tag::UTC_TIME, &generalized, None),
                (tag::GENERALIZED_TIME, &utc, None),
            ] {
                let text = [&digits[..count], end].concat();
                times.push(time(identifier, text.as_bytes(), due == Some(count) && end == "Z"));
            }
        }
    }
    times
}

/// What is no digit is never a time; another digit may be, which is left to the linters.
fn every_octet_at_every_position() -> Vec<Time> {
    let mut times = Vec::new();
    for (identifier, text) in
        [(tag::UTC_TIME, &b"191121122232Z"[..]), (tag::GENERALIZED_TIME, b"20191121122232Z")]
    {
        for position in 0..text.len() {
            for octet in 0..=255u8 {
                let mut changed = text.to_vec();
                changed[position] = octet;
                let mut changed = time(identifier, &changed, octet == text[position]);
                if octet.is_ascii_digit() && position < text.len() - 1 {
                    changed.is_real = None;
                }
                times.push(changed);
            }
        }
    }
    times
}

/// A good text under every identifier octet. Some make no sound element at all.
fn every_identifier() -> Vec<Time> {
    let under = |text: &'static [u8]| {
        (0..=255u8)
            .map(move |identifier| Time { element: Element::primitive(identifier, text), is_real: None })
    };
    under(b"191121122232Z").chain(under(b"20191121122232Z")).collect()
}
