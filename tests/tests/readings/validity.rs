//! The validity, rules 109 to 111. "RFC 5280 counts both ends of a validity" (document 02, the second request), so the
//! last permitted second is the one before 395 days, 45 days or ten years are over.

use comparison::calendar::{is_leap, Fields, DAY};

use super::*;

/// The moment that a text such as 2024-02-29 23:59:59 says.
fn moment(text: &str) -> Moment {
    let numbers: Vec<i64> = text.split(['-', ' ', ':']).map(|digits| digits.parse().expect(text)).collect();
    let [year, month, day, hour, minute, second] = numbers[..] else { panic!("no moment: {text}") };
    Moment::at_time(Fields { year, month, day, hour, minute, second })
}

/// A moment in each form that can say its year. Before 2050 a GeneralizedTime breaks 109, whatever the other time is.
fn forms_of(moment: Moment) -> Vec<Element> {
    match moment.fields().year {
        ..1950 => vec![moment.generalized().breaking(109)],
        1950..2050 => vec![moment.utc(), moment.generalized().breaking(109)],
        _ => vec![moment.generalized()],
    }
}

/// Holds both linters to a validity in all forms of its times, and to the rules that it breaks.
fn hold_validity(linters: &mut Linters, profiles: &[u8], times: (Moment, Moment), broken: &[u16]) {
    for not_before in forms_of(times.0) {
        for not_after in forms_of(times.1) {
            hold_in_every(linters, profiles, "a validity", |pair| {
                pair.certificate.not_before = not_before.clone();
                pair.certificate.not_after = not_after.clone();
                pair.certificate.validity_marks.extend(broken.iter().map(|rule| Mark::Breaks(*rule)));
            });
        }
    }
}

/// Holds both linters to the last permitted second, to the one before it and to the one after it.
fn hold_last_second(linters: &mut Linters, profile: u8, start: Moment, last: Moment) {
    hold_validity(linters, &[profile], (start, last.later(-1)), &[]);
    hold_validity(linters, &[profile], (start, last), &[]);
    hold_validity(linters, &[profile], (start, last.later(1)), &[111]);
}

/// A start, and the last permitted second of 395 days, of 45 days and of ten years, all by another calendar than the
/// generator's.
const EDGES: [[&str; 4]; 64] = [
    // P10, the same at other times of the day, and over the end of a year
    ["2024-01-01 00:00:00", "2025-01-29 23:59:59", "2024-02-14 23:59:59", "2033-12-31 23:59:59"],
    ["2024-01-01 12:34:56", "2025-01-30 12:34:55", "2024-02-15 12:34:55", "2034-01-01 12:34:55"],
    ["2024-01-01 23:59:59", "2025-01-30 23:59:58", "2024-02-15 23:59:58", "2034-01-01 23:59:58"],
    ["2023-12-31 23:59:59", "2025-01-29 23:59:58", "2024-02-14 23:59:58", "2033-12-31 23:59:58"],
    ["2023-01-01 00:00:00", "2024-01-30 23:59:59", "2023-02-14 23:59:59", "2032-12-31 23:59:59"],
    // around the end of February, in a leap year and in others
    ["2024-01-15 23:59:59", "2025-02-13 23:59:58", "2024-02-29 23:59:58", "2034-01-15 23:59:58"],
    ["2024-02-28 00:00:00", "2025-03-28 23:59:59", "2024-04-12 23:59:59", "2034-02-27 23:59:59"],
    ["2024-02-28 23:59:59", "2025-03-29 23:59:58", "2024-04-13 23:59:58", "2034-02-28 23:59:58"],
    ["2024-02-29 00:00:00", "2025-03-29 23:59:59", "2024-04-13 23:59:59", "2034-02-27 23:59:59"],
    ["2024-02-29 12:34:56", "2025-03-30 12:34:55", "2024-04-14 12:34:55", "2034-02-28 12:34:55"],
    ["2024-02-29 23:59:59", "2025-03-30 23:59:58", "2024-04-14 23:59:58", "2034-02-28 23:59:58"],
    ["2024-03-01 00:00:00", "2025-03-30 23:59:59", "2024-04-14 23:59:59", "2034-02-28 23:59:59"],
    ["2025-02-28 23:59:59", "2026-03-30 23:59:58", "2025-04-14 23:59:58", "2035-02-28 23:59:58"],
    ["2025-03-01 00:00:00", "2026-03-30 23:59:59", "2025-04-14 23:59:59", "2035-02-28 23:59:59"],
    // ten years on is a leap year: it has a 29 February before 1 March
    ["2026-02-28 00:00:00", "2027-03-29 23:59:59", "2026-04-13 23:59:59", "2036-02-27 23:59:59"],
    ["2026-02-28 23:59:59", "2027-03-30 23:59:58", "2026-04-14 23:59:58", "2036-02-28 23:59:58"],
    ["2026-03-01 00:00:00", "2027-03-30 23:59:59", "2026-04-14 23:59:59", "2036-02-29 23:59:59"],
    // leap years at the ends of centuries: 2000 and 0000 are, 1900 and 2100 are not
    ["1990-02-28 00:00:00", "1991-03-29 23:59:59", "1990-04-13 23:59:59", "2000-02-27 23:59:59"],
    ["1990-03-01 00:00:00", "1991-03-30 23:59:59", "1990-04-14 23:59:59", "2000-02-29 23:59:59"],
    ["1992-02-29 00:00:00", "1993-03-29 23:59:59", "1992-04-13 23:59:59", "2002-02-27 23:59:59"],
    ["1996-02-29 00:00:00", "1997-03-29 23:59:59", "1996-04-13 23:59:59", "2006-02-27 23:59:59"],
    ["1999-02-01 00:00:00", "2000-03-01 23:59:59", "1999-03-17 23:59:59", "2009-01-31 23:59:59"],
    ["1999-12-31 23:59:59", "2001-01-29 23:59:58", "2000-02-14 23:59:58", "2009-12-31 23:59:58"],
    ["2000-01-15 00:00:00", "2001-02-12 23:59:59", "2000-02-28 23:59:59", "2010-01-14 23:59:59"],
    ["2000-02-28 23:59:59", "2001-03-29 23:59:58", "2000-04-13 23:59:58", "2010-02-28 23:59:58"],
    ["2000-02-29 00:00:00", "2001-03-29 23:59:59", "2000-04-13 23:59:59", "2010-02-27 23:59:59"],
    ["2000-03-01 00:00:00", "2001-03-30 23:59:59", "2000-04-14 23:59:59", "2010-02-28 23:59:59"],
    ["1890-02-28 00:00:00", "1891-03-29 23:59:59", "1890-04-13 23:59:59", "1900-02-27 23:59:59"],
    ["1890-03-01 00:00:00", "1891-03-30 23:59:59", "1890-04-14 23:59:59", "1900-02-28 23:59:59"],
    ["1896-02-29 00:00:00", "1897-03-29 23:59:59", "1896-04-13 23:59:59", "1906-02-27 23:59:59"],
    ["1899-02-01 00:00:00", "1900-03-02 23:59:59", "1899-03-17 23:59:59", "1909-01-31 23:59:59"],
    ["1900-01-15 00:00:00", "1901-02-13 23:59:59", "1900-02-28 23:59:59", "1910-01-14 23:59:59"],
    ["1900-02-28 23:59:59", "1901-03-30 23:59:58", "1900-04-14 23:59:58", "1910-02-28 23:59:58"],
    ["1900-03-01 00:00:00", "1901-03-30 23:59:59", "1900-04-14 23:59:59", "1910-02-28 23:59:59"],
    ["2090-02-28 12:00:00", "2091-03-30 11:59:59", "2090-04-14 11:59:59", "2100-02-28 11:59:59"],
    ["2090-03-01 00:00:00", "2091-03-30 23:59:59", "2090-04-14 23:59:59", "2100-02-28 23:59:59"],
    ["2096-02-29 00:00:00", "2097-03-29 23:59:59", "2096-04-13 23:59:59", "2106-02-27 23:59:59"],
    ["2096-02-29 23:59:59", "2097-03-30 23:59:58", "2096-04-14 23:59:58", "2106-02-28 23:59:58"],
    ["2099-02-01 00:00:00", "2100-03-02 23:59:59", "2099-03-17 23:59:59", "2109-01-31 23:59:59"],
    ["2100-01-15 00:00:00", "2101-02-13 23:59:59", "2100-02-28 23:59:59", "2110-01-14 23:59:59"],
    ["2100-02-01 00:00:00", "2101-03-02 23:59:59", "2100-03-17 23:59:59", "2110-01-31 23:59:59"],
    ["2100-02-28 23:59:59", "2101-03-30 23:59:58", "2100-04-14 23:59:58", "2110-02-28 23:59:58"],
    ["2100-03-01 00:00:00", "2101-03-30 23:59:59", "2100-04-14 23:59:59", "2110-02-28 23:59:59"],
    // the second after the last permitted one is the first that has a UTCTime, or the first that has none
    ["1940-01-01 00:00:00", "1941-01-29 23:59:59", "1940-02-14 23:59:59", "1949-12-31 23:59:59"],
    ["1948-12-02 00:00:00", "1949-12-31 23:59:59", "1949-01-15 23:59:59", "1958-12-01 23:59:59"],
    ["1949-11-17 00:00:00", "1950-12-16 23:59:59", "1949-12-31 23:59:59", "1959-11-16 23:59:59"],
    ["1949-12-31 23:59:59", "1951-01-30 23:59:58", "1950-02-14 23:59:58", "1959-12-31 23:59:58"],
    ["1950-01-01 00:00:00", "1951-01-30 23:59:59", "1950-02-14 23:59:59", "1959-12-31 23:59:59"],
    ["2040-01-01 00:00:00", "2041-01-29 23:59:59", "2040-02-14 23:59:59", "2049-12-31 23:59:59"],
    ["2048-12-02 00:00:00", "2049-12-31 23:59:59", "2049-01-15 23:59:59", "2058-12-01 23:59:59"],
    ["2049-11-17 00:00:00", "2050-12-16 23:59:59", "2049-12-31 23:59:59", "2059-11-16 23:59:59"],
    ["2049-12-31 23:59:59", "2051-01-30 23:59:58", "2050-02-14 23:59:58", "2059-12-31 23:59:58"],
    ["2050-01-01 00:00:00", "2051-01-30 23:59:59", "2050-02-14 23:59:59", "2059-12-31 23:59:59"],
    // the first year there is
    ["0000-01-01 00:00:00", "0001-01-29 23:59:59", "0000-02-14 23:59:59", "0009-12-31 23:59:59"],
    ["0000-02-01 00:00:00", "0001-03-01 23:59:59", "0000-03-16 23:59:59", "0010-01-31 23:59:59"],
    ["0000-02-28 00:00:00", "0001-03-28 23:59:59", "0000-04-12 23:59:59", "0010-02-27 23:59:59"],
    ["0000-02-29 00:00:00", "0001-03-29 23:59:59", "0000-04-13 23:59:59", "0010-02-27 23:59:59"],
    ["0000-02-29 23:59:59", "0001-03-30 23:59:58", "0000-04-14 23:59:58", "0010-02-28 23:59:58"],
    ["0000-03-01 00:00:00", "0001-03-30 23:59:59", "0000-04-14 23:59:59", "0010-02-28 23:59:59"],
    ["0000-12-31 23:59:59", "0002-01-30 23:59:58", "0001-02-14 23:59:58", "0010-12-31 23:59:58"],
    ["0004-02-29 00:00:00", "0005-03-29 23:59:59", "0004-04-13 23:59:59", "0014-02-27 23:59:59"],
    // the last starts whose tenth anniversary can be written
    ["9988-02-29 00:00:00", "9989-03-29 23:59:59", "9988-04-13 23:59:59", "9998-02-27 23:59:59"],
    ["9989-12-31 23:59:58", "9991-01-30 23:59:57", "9990-02-14 23:59:57", "9999-12-31 23:59:57"],
    ["9989-12-31 23:59:59", "9991-01-30 23:59:58", "9990-02-14 23:59:58", "9999-12-31 23:59:58"],
];

#[test]
fn the_last_permitted_second_is_the_one_before_the_limit_is_over() {
    let mut linters = Linters::of("validities at the last permitted second, written out");
    for [start, server, responder, authority] in EDGES {
        let start = moment(start);
        for (profile, last) in ALL.iter().zip([server, server, responder, authority].map(moment)) {
            assert_eq!(last_permitted_second(*profile, start), last, "the generator knows it");
            hold_last_second(&mut linters, *profile, start, last);
        }
    }
    linters.finish();
}

/// The first and the last second of days around which years differ.
fn starts_of(year: i64) -> Vec<Moment> {
    let mut days = vec![(1, 1), (2, 28), (3, 1), (12, 31)];
    if is_leap(year) {
        days.push((2, 29));
    }
    let ends = |(month, day)| [Moment::at(year, month, day), Moment::at(year, month, day).later(DAY - 1)];
    days.into_iter().flat_map(ends).collect()
}

#[test]
fn every_kind_of_year_has_its_last_permitted_second() {
    let mut linters = Linters::of("validities at the last permitted second, in years of every kind");
    let years = [0..=4, 94..=101, 394..=401, 1946..=1952, 2018..=2050, 2090..=2101, 9984..=9989];
    for start in years.into_iter().flatten().flat_map(starts_of) {
        for profile in ALL {
            let last = last_permitted_second(*profile, start);
            hold_last_second(&mut linters, *profile, start, last);
        }
    }
    linters.finish();
}

#[test]
fn ten_years_are_counted_by_the_calendar_and_not_in_days() {
    let mut linters = Linters::of("ten years by the calendar");
    for (year, days) in [(2024, 3653), (2025, 3652), (2095, 3652), (2097, 3651), (1897, 3651)] {
        let (start, anniversary) = (Moment::at(year, 1, 1), Moment::at(year + 10, 1, 1));
        assert_eq!(anniversary.seconds - start.seconds, days * DAY);
        hold_last_second(&mut linters, 4, start, anniversary.later(-1));
    }
    // "28 February for a start on 29 February", at the same time of the day, and not 1 March.
    let leap_day = moment("2024-02-29 12:34:56");
    for end in ["2034-02-28 23:59:59", "2034-03-01 00:00:00", "2034-03-01 12:34:55", "2034-03-01 12:34:56"] {
        hold_validity(&mut linters, AUTHORITY, (leap_day, moment(end)), &[111]);
    }
    // 2036 has a 29 February; a start on the 28th does not reach it.
    let end = moment("2036-02-28 23:59:59");
    hold_validity(&mut linters, AUTHORITY, (moment("2026-02-28 00:00:00"), end), &[111]);
    linters.finish();
}

#[test]
fn a_limit_past_9999_breaks_nothing() {
    let mut linters = Linters::of("validities at the end of all years");
    let first_starts = [
        (SERVER, "9998-12-02 00:00:00"),
        (RESPONDER, "9999-11-17 00:00:00"),
        (AUTHORITY, "9990-01-01 00:00:00"),
    ];
    for (profiles, first) in first_starts.map(|(profiles, first)| (profiles, moment(first))) {
        let (last, last_but_one) = (Moment::last(), Moment::last().later(-1));
        hold_validity(&mut linters, profiles, (first.later(-2), last_but_one), &[111]);
        hold_validity(&mut linters, profiles, (first.later(-1), last), &[111]);
        hold_validity(&mut linters, profiles, (first.later(-1), last_but_one), &[]);
        let later = (9990..=9999).flat_map(starts_of).filter(|start| *start > first);
        for start in [first, first.later(1)].into_iter().chain(later) {
            hold_validity(&mut linters, profiles, (start, last), &[]);
        }
    }
    linters.finish();
}

#[test]
fn however_long_a_validity_is_it_breaks_111() {
    let mut linters = Linters::of("validities of centuries");
    // Numbers of 16 or 32 bits are full of days or seconds by then, and begin again.
    let full = [1 << 31, 1 << 32, DAY << 15, DAY << 16];
    for start in ["0000-01-01 00:00:00", "1949-12-31 23:59:59", "2024-02-29 12:34:56"].map(moment) {
        for seconds in full.into_iter().flat_map(|seconds| [seconds - 1, seconds, seconds + 30 * DAY]) {
            hold_validity(&mut linters, ALL, (start, start.later(seconds)), &[111]);
        }
        hold_validity(&mut linters, ALL, (start, Moment::last()), &[111]);
    }
    linters.finish();
}

#[test]
fn equal_times_break_nothing_and_110_does_not_move() {
    let mut linters = Linters::of("validities of a second or two, and of none");
    let middles = [
        "0000-01-01 00:00:02",
        "1949-12-31 23:59:59",
        "1950-01-01 00:00:00",
        "2000-02-29 00:00:00",
        "2024-01-01 12:34:56",
        "2024-03-01 00:00:00",
        "2049-12-31 23:59:59",
        "2050-01-01 00:00:00",
        "9999-12-31 23:59:57",
    ];
    for middle in middles.map(moment) {
        for seconds in [-2, -1] {
            hold_validity(&mut linters, ALL, (middle, middle.later(seconds)), &[110]);
        }
        for seconds in [0, 1, 2] {
            hold_validity(&mut linters, ALL, (middle, middle.later(seconds)), &[]);
        }
    }
    for moment in [Moment::at(0, 1, 1), Moment::last()] {
        hold_validity(&mut linters, ALL, (moment, moment), &[]);
    }
    linters.finish();
}

#[test]
fn a_reversed_validity_breaks_110_alone() {
    let mut linters = Linters::of("validities backwards");
    let (first, last) = (Moment::at(0, 1, 1), Moment::last());
    for start in ["0000-02-29 00:00:00", "1949-12-31 23:59:59", "2024-01-01 12:34:56", "2096-02-29 00:00:00"]
    {
        let start = moment(start);
        for days in [1, 30, 365, 366, 36_525] {
            hold_validity(&mut linters, ALL, (start.later(days * DAY), start), &[110]);
        }
        hold_validity(&mut linters, ALL, (start, first), &[110]);
        hold_validity(&mut linters, ALL, (last, start), &[110]);
        // As long backwards as the limit allows forwards, and about a second more.
        for profile in ALL {
            for seconds in -2..=2 {
                let late = last_permitted_second(*profile, start).later(seconds);
                hold_validity(&mut linters, &[*profile], (late, start), &[110]);
            }
        }
    }
    // "50 to 99 is 19YY": 50 comes a century before 49.
    hold_validity(&mut linters, ALL, (moment("2049-01-01 00:00:00"), moment("1950-01-01 00:00:00")), &[110]);
    hold_validity(&mut linters, ALL, (last, first), &[110]);
    linters.finish();
}

#[test]
fn the_form_of_a_time_does_not_count_for_the_last_second() {
    let ways = |start: Moment, end: Moment| forms_of(start).len() * forms_of(end).len();
    let mut linters = Linters::of("validities in two forms");
    for (start, number) in
        [("2024-06-01 00:00:00", 4), ("2049-12-31 23:59:59", 2), ("1949-12-31 23:59:59", 2)]
    {
        let start = moment(start);
        for profile in ALL {
            let last = last_permitted_second(*profile, start);
            assert_eq!(ways(start, last), number);
            hold_last_second(&mut linters, *profile, start, last);
        }
    }
    linters.finish();
}
