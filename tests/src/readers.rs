//! The deck's readers, the reference and the proved one: both held to the records and lost blocks that are due, and the
//! proved one to the whole room after each record and to the counts.

use reference::{read_deck, Event};

use crate::deck::{loss_word, Deck, BLOCK};
use crate::entries::ENTRY;
use crate::hex;
use crate::holding::{Comparison, AMPLE_ROOM};
use crate::outcome::{first_difference, fresh_room, line_of, put_report, Outcome};
use crate::queue::{Met, Queue, Request};
use crate::random::Random;
use crate::shrink::shrink;

/// The proved reader.
pub type Reader = Queue<Reading>;

/// The program takes so many octets of a deck.
pub const MOST_OCTETS: usize = 65_536;

/// A deck to read, and the length of the room that is lent.
#[derive(Clone, Debug)]
pub struct Reading {
    pub deck: Vec<u8>,
    pub room: usize,
}

impl Reading {
    /// What the reference finds.
    fn reference(&self) -> Vec<Event> {
        read_deck(&self.deck, self.room)
    }

    /// What reading must write for these events, step by step and with the counts at the end. "The reader's caller
    /// lends it the linter's room, which it passes on whole": a report stands at the front of the room, and behind it
    /// is what earlier steps left; all else leaves the room as it was.
    fn steps_of(&self, events: &[Event]) -> Vec<Outcome> {
        let mut room = fresh_room(self.room);
        let (mut records, mut lost) = (0, 0);
        let mut steps = Vec::new();
        for event in events {
            match event {
                Event::Record { number, profile, certificate, issuer, answer, .. } => {
                    records += 1;
                    put_report(answer, &mut room);
                    let length = 3 + certificate.len() + issuer.len();
                    let line =
                        format!("record {number} profile {profile} length {length} {}", line_of(answer));
                    steps.push(Outcome { line, room: room.clone() });
                }
                Event::Lost { block, loss } => {
                    lost += 1;
                    steps.push(Outcome::without_room(format!("lost {block} {}", loss_word(*loss))));
                }
            }
        }
        let blocks = self.deck.len().div_ceil(BLOCK);
        steps.push(Outcome::without_room(format!("records {records} blocks {blocks} lost {lost}")));
        steps
    }
}

impl Request for Reading {
    const KIND: u8 = 14;

    /// The lengths of the room and of the deck.
    fn octets(&self) -> Vec<u8> {
        let [room, deck] = [self.room, self.deck.len()].map(|length| {
            u32::try_from(length).expect("a room and a deck have at most 65,536 octets").to_be_bytes()
        });
        [&room[1..], &deck[1..]].concat()
    }

    fn behind(&self) -> &[u8] {
        &self.deck
    }

    /// Steps up to the counts, a room behind each record.
    fn take_reply(&self, written: &mut &[u8]) -> Vec<Outcome> {
        let mut steps = Vec::new();
        loop {
            let mut step = Outcome::take_line(written);
            let is_record = step.line.starts_with("record ");
            if is_record {
                step.take_room(written, self.room);
            }
            let goes_on = is_record || step.line.starts_with("lost ");
            steps.push(step);
            if !goes_on {
                return steps;
            }
        }
    }

    fn reference_reply(&self) -> Vec<Outcome> {
        self.steps_of(&self.reference())
    }

    /// The first words of a step's line.
    fn kinds(step: &Outcome) -> Vec<String> {
        let words: Vec<&str> = step.line.split(' ').collect();
        vec![match words.as_slice() {
            ["record", _, "profile", _, "length", _, "refused", number, ..] => {
                format!("record refused {number}")
            }
            ["record", .., "findings", "0"] => "record without findings".to_string(),
            ["record", .., "findings", _] => "record with findings".to_string(),
            ["lost", _, loss] => format!("lost {loss}"),
            _ => "deck".to_string(),
        }]
    }

    /// Blocks are taken out.
    fn smallest(&self, differs: &mut dyn FnMut(&Reading) -> bool) -> Reading {
        let blocks: Vec<&[u8]> = self.deck.chunks(BLOCK).collect();
        let only = |positions: &[u8]| {
            let kept: Vec<&[u8]> = positions.iter().map(|position| blocks[usize::from(*position)]).collect();
            Reading { deck: kept.concat(), room: self.room }
        };
        let every: Vec<u8> = (0..blocks.len()).map(|position| position as u8).collect();
        only(&shrink(&every, &mut |positions| differs(&only(positions))))
    }

    fn shown(&self) -> String {
        format!("room {}, deck {}", self.room, hex::text(&self.deck))
    }
}

pub struct Readers {
    kind: String,
    reference: Comparison,
    proved: Reader,
    /// How many decks were longer than the program takes.
    too_long: usize,
}

impl Readers {
    pub fn of(kind: &str) -> Readers {
        Readers {
            kind: kind.to_string(),
            reference: Comparison::of(&format!("{kind}: read by the reference")),
            proved: Reader::of(&format!("{kind}: read by the proved reader")),
            too_long: 0,
        }
    }

    /// Holds both readers to what the deck knows of itself.
    pub fn hold(&mut self, what: &str, deck: &Deck, room: usize) {
        let reading = Reading { deck: deck.octets.clone(), room };
        let due = deck.events(room);
        self.reference.hold(what, &due, &reading.reference(), || reading.shown());
        let due = reading.steps_of(&due);
        self.hold_proved(what, reading, due);
    }

    /// Holds both readers to these steps.
    pub fn hold_steps(&mut self, what: &str, reading: Reading, due: Vec<Outcome>) {
        let difference = first_difference(&due, &reading.reference_reply());
        self.reference.note(what, difference, || reading.shown());
        self.hold_proved(what, reading, due);
    }

    /// Holds both readers to lines that were written by hand, and the proved one to the rooms of the reference.
    pub fn hold_lines(&mut self, what: &str, reading: Reading, due: &[&str]) {
        let steps = reading.reference_reply();
        let lines: Vec<&str> = steps.iter().map(|step| step.line.as_str()).collect();
        self.reference.hold(what, &due, &lines.as_slice(), || reading.shown());
        self.hold_proved(what, reading, steps);
    }

    fn hold_proved(&mut self, what: &str, reading: Reading, due: Vec<Outcome>) {
        if reading.deck.len() > MOST_OCTETS {
            self.too_long += 1;
        } else {
            self.proved.hold(what, reading, due);
        }
    }

    /// Fails if any deck differed. Single decks are held without a line each.
    pub fn settle(mut self) {
        self.reference.settle();
        self.proved.settle();
    }

    /// Says how many decks were compared and what was found in them, and fails if any differed.
    pub fn finish(self) -> Met {
        self.reference.finish();
        if self.too_long > 0 {
            println!("{}: {} decks were too long for the program", self.kind, self.too_long);
        }
        self.proved.finish()
    }
}

/// A room for a deck's records: none, a short one, one about as long as a report needs, or now and then as much as
/// the program lends.
pub fn some_room(deck: &Deck, random: &mut Random) -> usize {
    let needs = deck.needs();
    match random.below(64) {
        0 => AMPLE_ROOM,
        1..=7 => 0,
        8..=15 => random.below(5 * ENTRY),
        _ if needs.is_empty() => random.below(5 * ENTRY),
        _ => (*random.choose(&needs) + random.below(2 * ENTRY + 3)).saturating_sub(random.below(3)),
    }
}

#[cfg(test)]
mod tests {
    use super::{Outcome, Reading, Request};
    use crate::entries::{entry, ENTRY};
    use reference::{Answer, Event, Loss, Refusal};

    fn record(block: usize, answer: Answer) -> Event {
        Event::Record { block, number: 9, profile: 3, certificate: vec![1; 4], issuer: vec![2; 5], answer }
    }

    fn example() -> (Reading, Vec<Outcome>) {
        let refused = Answer::Refused(Refusal { number: 7, side: 0, place: 0 });
        let events = [
            record(0, Answer::Report(vec![entry(104, 1, 3)])),
            Event::Lost { block: 1, loss: Loss::Unsound },
            record(2, refused),
        ];
        let reading = Reading { deck: vec![0; 1300], room: ENTRY + 2 };
        let steps = reading.steps_of(&events);
        (reading, steps)
    }

    #[test]
    fn a_reading_is_two_lengths() {
        assert_eq!(Reading { deck: vec![7, 8], room: 0x10203 }.octets(), [1, 2, 3, 0, 0, 2]);
    }

    #[test]
    fn steps_have_the_room_as_earlier_ones_left_it() {
        let (_, steps) = example();
        let lines: Vec<&str> = steps.iter().map(|step| step.line.as_str()).collect();
        assert_eq!(
            lines,
            [
                "record 9 profile 3 length 12 findings 1",
                "lost 1 unsound",
                "record 9 profile 3 length 12 refused 7 side 0 at 0",
                "records 2 blocks 3 lost 1"
            ]
        );
        assert_eq!(steps[0].room, [0, 104, 0, 1, 0, 3, 0, 1, 8, 9]);
        assert_eq!(steps[2].room, steps[0].room);
        let kinds: Vec<String> = steps.iter().flat_map(Reading::kinds).collect();
        assert_eq!(kinds, ["record with findings", "lost unsound", "record refused 7", "deck"]);
    }

    #[test]
    fn written_steps_are_taken_apart() {
        let (reading, due) = example();
        let line_and_room = |step: &Outcome| [step.line.as_bytes(), b"\n", &step.room].concat();
        let mut written: Vec<u8> = due.iter().flat_map(line_and_room).collect();
        written.extend(b"more");
        let mut rest = written.as_slice();
        assert_eq!(reading.take_reply(&mut rest), due);
        assert_eq!(rest, b"more");
    }

    #[test]
    fn blocks_that_do_not_matter_are_taken_out() {
        let blocks: Vec<[u8; 512]> = (0..5).map(|octet| [octet; 512]).collect();
        let reading = Reading { deck: blocks.concat(), room: 0 };
        let smallest = reading.smallest(&mut |reading| reading.deck.contains(&3));
        assert_eq!(smallest.deck, blocks[3]);
    }
}
