//! The report: entries in their order, and the octets they are written as.

use crate::der::Element;
use crate::{Entry, Level};

/// "An entry is rule, start, whole length of the element (header included), each two octets", and "Every entry gets a
/// fourth pair of octets": "Entries are 8 octets".
pub const OCTETS_AN_ENTRY: usize = 8;

/// Collects findings, in any order.
#[derive(Debug, Default)]
pub struct Report {
    entries: Vec<Entry>,
}

impl Report {
    /// The rule is broken at this element.
    pub fn add(&mut self, rule: u16, element: Element) {
        self.entries.push(Entry {
            rule,
            // A certificate has at most 8,192 octets, so both numbers fit.
            start: element.start() as u16,
            length: element.whole().len() as u16,
            level: Level::of_rule(rule),
        });
    }

    /// The rule is broken at this element unless it is kept.
    pub fn require(&mut self, rule: u16, is_kept: bool, element: Element) {
        if !is_kept {
            self.add(rule, element);
        }
    }

    /// "Entries rise by rule, then start; no two are equal." No rule meets an element twice. With levels "the order stays".
    pub fn into_entries(mut self) -> Vec<Entry> {
        self.entries
            .sort_unstable_by_key(|entry| (entry.rule, entry.start));
        self.entries
    }
}

/// The report as the linter writes it into its room: "each two octets, high first".
pub fn report_octets(entries: &[Entry]) -> Vec<u8> {
    let mut octets = Vec::with_capacity(OCTETS_AN_ENTRY * entries.len());
    for entry in entries {
        for number in [entry.rule, entry.start, entry.length, entry.level.number()] {
            octets.extend(number.to_be_bytes());
        }
    }
    octets
}

#[cfg(test)]
mod tests {
    use super::*;

    const MUST: Entry = Entry {
        rule: 0x01A3,
        start: 0x1234,
        length: 0x0567,
        level: Level::Must,
    };
    const SHOULD: Entry = Entry {
        rule: 104,
        start: 13,
        length: 3,
        level: Level::Should,
    };

    #[test]
    fn the_level_is_the_fourth_pair() {
        assert_eq!(report_octets(&[]), []);
        assert_eq!(report_octets(&[SHOULD]), [0, 104, 0, 13, 0, 3, 0, 2]);
        let both = [
            0x01, 0xA3, 0x12, 0x34, 0x05, 0x67, 0, 1, 0, 104, 0, 13, 0, 3, 0, 2,
        ];
        assert_eq!(report_octets(&[MUST, SHOULD]), both);
        assert_eq!(both.len(), 2 * OCTETS_AN_ENTRY);
    }

    #[test]
    fn entries_rise_by_rule_then_start_whatever_their_level() {
        let later = Entry {
            start: MUST.start + 1,
            length: 2,
            level: Level::Should,
            ..MUST
        };
        let report = Report {
            entries: vec![later, MUST, SHOULD],
        };
        assert_eq!(report.into_entries(), [SHOULD, MUST, later]);
    }
}
