//! What the program prints: one line a record with its findings, one a lost block, and the counts.

use crate::deck::{read_deck, BLOCK_LENGTH};
use crate::{Answer, Event, Loss};
use std::fmt;

/// "It lends the linter 65,536 octets of room and takes as much of deck"
pub const ROOM: usize = 65_536;
pub const GREATEST_DECK_LENGTH: usize = 65_536;

/// What the program prints for a deck on its standard input.
pub fn listing(deck: &[u8]) -> Vec<u8> {
    if deck.len() > GREATEST_DECK_LENGTH {
        // "past that it prints only "deck too long""
        return b"deck too long\n".to_vec();
    }
    let listing = Listing {
        blocks: deck.len().div_ceil(BLOCK_LENGTH),
        events: read_deck(deck, ROOM),
    };
    listing.to_string().into_bytes()
}

struct Listing {
    blocks: usize,
    events: Vec<Event>,
}

impl fmt::Display for Listing {
    fn fmt(&self, lines: &mut fmt::Formatter) -> fmt::Result {
        let mut records = 0;
        let mut lost = 0;
        for event in &self.events {
            match event {
                Event::Record {
                    number,
                    profile,
                    answer,
                    ..
                } => {
                    records += 1;
                    write!(lines, "record {number} profile {profile} ")?;
                    write_answer(lines, answer)?;
                }
                Event::Lost { block, loss } => {
                    lost += 1;
                    writeln!(lines, "lost {block} {}", word_for(*loss))?;
                }
            }
        }
        let blocks = self.blocks;
        writeln!(lines, "records {records} blocks {blocks} lost {lost}")
    }
}

/// The end of a record's line, and a line for each of its findings.
fn write_answer(lines: &mut fmt::Formatter, answer: &Answer) -> fmt::Result {
    match answer {
        Answer::Refused(refusal) => {
            let (number, side, place) = (refusal.number, refusal.side, refusal.place);
            writeln!(lines, "refused {number} side {side} at {place}")
        }
        Answer::Report(entries) => {
            writeln!(lines, "findings {}", entries.len())?;
            for entry in entries {
                let (rule, start, length) = (entry.rule, entry.start, entry.length);
                let level = entry.level.word();
                writeln!(lines, "  {rule} at {start} length {length} {level}")?;
            }
            Ok(())
        }
    }
}

fn word_for(loss: Loss) -> &'static str {
    match loss {
        Loss::Short => "short",
        Loss::Unsound => "unsound",
        Loss::Stray => "stray",
    }
}

#[cfg(test)]
mod tests {
    use super::*;
    use crate::{write_record, Entry, Level};

    #[test]
    fn the_example() {
        let mut deck = write_record(1, 1, &[0x30, 0x00], &[0x30, 0x00], 512).unwrap();
        deck.resize(512 + 512 + 100, 0);
        let lines = "record 1 profile 1 refused 6 side 1 at 0\n\
                     lost 1 unsound\n\
                     lost 2 short\n\
                     records 1 blocks 3 lost 2\n";
        assert_eq!(listing(&deck), lines.as_bytes());
    }

    #[test]
    fn findings_alone_end_in_their_level() {
        let finding = |rule: u16, level: Level| Entry {
            rule,
            start: 13,
            length: 3,
            level,
        };
        let entries = vec![finding(104, Level::Must), finding(511, Level::Should)];
        let record = Event::Record {
            block: 0,
            number: 1,
            profile: 3,
            certificate: Vec::new(),
            issuer: Vec::new(),
            answer: Answer::Report(entries),
        };
        let listing = Listing {
            blocks: 1,
            events: vec![record],
        };
        let lines = "record 1 profile 3 findings 2\n\
                     \x20 104 at 13 length 3 must\n\
                     \x20 511 at 13 length 3 should\n\
                     records 1 blocks 1 lost 0\n";
        assert_eq!(listing.to_string(), lines);
    }

    #[test]
    fn the_shortest_and_the_longest_deck() {
        assert_eq!(listing(&[]), b"records 0 blocks 0 lost 0\n");
        assert!(listing(&[0; 65_536]).ends_with(b"\nrecords 0 blocks 128 lost 128\n"));
        assert_eq!(listing(&[0; 65_537]), b"deck too long\n");
    }
}
