//! An entry of a report as the papers have it: how many octets it has, which they are, and the line that is printed of it.
//! The reference has no part in these.

use reference::{Entry, Level};

use crate::profile::level_of;

/// "Every entry gets a fourth pair of octets": "Entries are 8 octets". Nothing else in the tests says how many.
pub const ENTRY: usize = 8;

/// The entry that is due where an element breaks a rule.
pub fn entry(rule: u16, start: usize, length: usize) -> Entry {
    Entry { rule, start: start as u16, length: length as u16, level: level_of(rule) }
}

/// "1 for must, 2 for should"
pub fn level_number(level: Level) -> u16 {
    match level {
        Level::Must => 1,
        Level::Should => 2,
    }
}

/// "a printed finding ends in " must" or " should""
pub fn level_word(level: Level) -> &'static str {
    match level {
        Level::Must => "must",
        Level::Should => "should",
    }
}

/// The octets of a report: of each entry rule, start, whole length and level, "each two octets, high first".
pub fn octets_of(entries: &[Entry]) -> Vec<u8> {
    let pairs = |entry: &Entry| [entry.rule, entry.start, entry.length, level_number(entry.level)];
    entries.iter().flat_map(pairs).flat_map(u16::to_be_bytes).collect()
}

/// The entries that the octets of a report are; none where a level is neither 1 nor 2.
pub fn entries_in(octets: &[u8]) -> Result<Vec<Entry>, String> {
    octets.chunks(ENTRY).map(entry_in).collect()
}

fn entry_in(octets: &[u8]) -> Result<Entry, String> {
    let no_entry = || format!("no entry: {octets:?}");
    let octets: [u8; ENTRY] = octets.try_into().map_err(|_| no_entry())?;
    let [rule, start, length, level] =
        [0, 2, 4, 6].map(|place| u16::from_be_bytes([octets[place], octets[place + 1]]));
    let level = [Level::Must, Level::Should].into_iter().find(|known| level_number(*known) == level);
    Ok(Entry { rule, start, length, level: level.ok_or_else(no_entry)? })
}

/// The line that is printed of a finding.
pub fn line_of(entry: &Entry) -> String {
    let Entry { rule, start, length, level } = entry;
    format!("  {rule} at {start} length {length} {}\n", level_word(*level))
}

#[cfg(test)]
mod tests {
    use super::*;

    const SHOULD: Entry = Entry { rule: 0x01FF, start: 0x0203, length: 0x0405, level: Level::Should };

    #[test]
    fn an_entry_is_four_pairs() {
        let entries = [entry(104, 13, 3), SHOULD];
        let octets = [0, 104, 0, 13, 0, 3, 0, 1, 1, 0xFF, 2, 3, 4, 5, 0, 2];
        assert_eq!(octets_of(&entries), octets);
        assert_eq!(entries_in(&octets), Ok(entries.to_vec()));
        assert_eq!(octets.len(), ENTRY * entries.len());
    }

    #[test]
    fn octets_that_are_no_entry_are_told() {
        for octets in [
            // no level, one that there is not, one with its octets exchanged
            &[0, 104, 0, 13, 0, 3, 0, 0][..],
            &[0, 104, 0, 13, 0, 3, 0, 3],
            &[0, 104, 0, 13, 0, 3, 1, 0],
            // the level in the first pair, and before the length
            &[0, 1, 0, 104, 0, 13, 0, 3],
            &[0, 104, 0, 13, 0, 1, 0, 3],
            // three pairs
            &[0, 104, 0, 13, 0, 3],
        ] {
            assert!(entries_in(octets).is_err(), "{octets:?}");
        }
    }

    #[test]
    fn a_line_ends_in_the_level() {
        assert_eq!(line_of(&entry(111, 111, 36)), "  111 at 111 length 36 must\n");
        assert_eq!(line_of(&SHOULD), "  511 at 515 length 1029 should\n");
    }
}
