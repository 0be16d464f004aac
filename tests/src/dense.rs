//! Records with as many findings as their octets can have, whose listings are the longest; and records whose lines have
//! together as many octets as are wanted, so that a listing ends where a buffer does.

use crate::certificate::{Certificate, Extension};
use crate::correct::{shortest, Case, Pair};
use crate::deck::{record_lines, Record};
use crate::element::{Element, Mark};
use crate::general_names::{dns, full_name, general_names, mail, point, uri};
use crate::profile::{existing_rules, identifier_of, standing, SLOTS};
use crate::records::{tiny_of, LONGEST_SIDE};

/// The names of a dense certificate, which are all alike.
#[derive(Clone, Copy, Debug, PartialEq, Eq)]
pub enum Names {
    /// `82 01 5F`, a dNSName "_": in a server's profile two findings, 413 and 414, for three octets, and nothing has more.
    /// In the responder's profile 414 alone, in the subordinate CA's 413 alone.
    Underscores,
    /// `82 00` and `81 00` by turns, a dNSName and an rfc822Name without a character: one finding for two octets, 414 and
    /// 412. In the responder's profile nothing has more. The subordinate CA's has neither rule.
    Empty,
    /// `86 00` in the full name of a CRL point, a URI without a character: in the subordinate CA's profile one finding for
    /// two octets, 424, and nothing has more. No other profile has that rule.
    Addresses,
}

pub const ALL_NAMES: [Names; 3] = [Names::Underscores, Names::Empty, Names::Addresses];

impl Names {
    /// The row in the table of the extension that they stand in: the alternative name or the CRL points.
    fn slot(self) -> u8 {
        match self {
            Names::Underscores | Names::Empty => 7,
            Names::Addresses => 9,
        }
    }

    /// What a dense certificate of over 255 octets has besides its names.
    fn other_octets(self) -> usize {
        match self {
            Names::Underscores | Names::Empty => 95,
            // The point, its name and its full name have headers of four octets each.
            Names::Addresses => 95 + 3 * 4,
        }
    }

    fn octets(self) -> usize {
        match self {
            Names::Underscores => 3,
            Names::Empty | Names::Addresses => 2,
        }
    }

    /// How many of them fit.
    pub fn most(self) -> usize {
        (LONGEST_SIDE - self.other_octets()) / self.octets()
    }

    /// The octets that the most of them leave.
    fn spare(self) -> usize {
        LONGEST_SIDE - self.other_octets() - self.most() * self.octets()
    }

    /// How many findings each of them has.
    fn findings(self, profile: u8) -> usize {
        self.rules(0, &existing_rules(profile)).count()
    }

    /// Which of these rules the name at a position breaks.
    fn rules(self, position: usize, existing: &[u16]) -> impl Iterator<Item = u16> + '_ {
        let rules: &[u16] = match self {
            Names::Underscores => &[413, 414],
            Names::Empty if position % 2 == 0 => &[414],
            Names::Empty => &[412],
            Names::Addresses => &[424],
        };
        rules.iter().copied().filter(|rule| existing.contains(rule))
    }

    fn at(self, position: usize, existing: &[u16]) -> Element {
        let name = match self {
            Names::Underscores => dns("_"),
            Names::Empty if position % 2 == 0 => dns(""),
            Names::Empty => mail(""),
            Names::Addresses => uri(""),
        };
        self.rules(position, existing).fold(name, Element::breaking)
    }

    /// The extension with so many of them.
    fn extension(self, count: usize, profile: u8) -> Extension {
        let existing = existing_rules(profile);
        let names = (0..count).map(|position| self.at(position, &existing)).collect();
        let identifier = identifier_of(self.slot());
        if self == Names::Addresses {
            let points = Element::sequence(vec![point(vec![full_name(names)])]);
            let mut extension = Extension::new(identifier, false, points);
            extension.breaks_at_value(418);
            extension
        } else {
            Extension::new(identifier, false, general_names(names))
        }
    }
}

/// A certificate with so many names, all else as short as it can be, and the shortest issuer. With the most names that fit
/// it has 8,192 octets.
pub fn dense(profile: u8, names: Names, count: usize) -> Case {
    let mut certificate = shortest();
    mark_what_is_missing(&mut certificate, profile, names.slot());
    certificate.extensions.push(names.extension(count, profile));
    if count == names.most() {
        certificate.signature = Element::bit_string(0, &vec![0; names.spare()]);
    }
    Pair { profile, certificate, issuer: shortest() }.encode()
}

/// The names of which a profile has the most findings.
pub fn densest_names(profile: u8) -> Names {
    match profile {
        1 | 2 => Names::Underscores,
        3 => Names::Empty,
        _ => Names::Addresses,
    }
}

/// The densest record of a profile.
pub fn densest(profile: u8) -> Case {
    let names = densest_names(profile);
    dense(profile, names, names.most())
}

/// What the shortest certificate breaks with one extension of the table and beside an issuer without a name.
fn mark_what_is_missing(certificate: &mut Certificate, profile: u8, present: u8) {
    certificate.tbs_marks.push(Mark::Breaks(101));
    certificate.inner_algorithm.marks.push(Mark::Breaks(105));
    certificate.outer_algorithm.marks.push(Mark::Breaks(106));
    certificate.key_algorithm.marks.push(Mark::Breaks(201));
    let existing = existing_rules(profile);
    if existing.contains(&104) {
        certificate.serial.marks.push(Mark::Breaks(104));
    }
    for rule in [113, 114, 116, 118] {
        if existing.contains(&rule) {
            certificate.subject.breaks(rule);
        }
    }
    let missing = SLOTS.filter(|slot| *slot != present && standing(*slot, profile).is_mandatory());
    certificate.list_marks.extend(missing.map(|slot| Mark::Breaks(300 + u16::from(slot))));
}

/// How many octets the lines of a record have.
pub fn octets_of_lines(record: &Record) -> usize {
    record_lines(record.number, record.case.profile, &record.case.expected).len()
}

/// No line of a name is longer, of either level.
const LINE: &str = "  413 at 8189 length 3 should\n";

/// So many records of one block take up what dense records leave of a wanted length, which is less than the lines of one
/// name more: by the digits of their numbers, up to nine octets each.
const FINE: usize = (2 * LINE.len()).div_ceil(9);

/// Dense records, all alike but the last, and behind them some of one block, whose lines have together exactly so many
/// octets.
pub fn records_of_lines(octets: usize, profile: u8, names: Names) -> Vec<Record> {
    let most = octets_of_lines(&Record { number: 1, case: dense(profile, names, names.most()) });
    let mut rest = octets - FINE * octets_of_lines(&fine(1));
    let count = rest.div_ceil(most);
    let alike = dense_of_lines(rest / count, profile, names);
    rest -= (count - 1) * octets_of_lines(&alike);
    let last = dense_of_lines(rest, profile, names);
    rest -= octets_of_lines(&last);
    let mut records = vec![alike; count - 1];
    records.push(last);
    for still in (1..=FINE).rev() {
        let digits = rest / still;
        records.push(fine(1 + digits as u32));
        rest -= digits;
    }
    assert_eq!(records.iter().map(octets_of_lines).sum::<usize>(), octets);
    records
}

/// The dense record with the most names whose lines have not more octets than these.
fn dense_of_lines(octets: usize, profile: u8, names: Names) -> Record {
    // With a name the count of findings can get a digit more.
    let step = names.findings(profile) * LINE.len() + 1;
    let mut count = names.most();
    loop {
        let record = Record { number: 1, case: dense(profile, names, count) };
        match octets_of_lines(&record).checked_sub(octets) {
            None | Some(0) => return record,
            Some(over) => count -= over.div_ceil(step),
        }
    }
}

/// A record of one block, whose number has so many digits: one to ten.
fn fine(digits: u32) -> Record {
    let number = if digits == 10 { u32::MAX } else { 10u32.pow(digits - 1) };
    Record { number, case: tiny_of(1) }
}
