//! Decks: records cut into blocks, and what reading and listing them must give.

use reference::{Answer, Event, Loss};

use crate::correct::Case;
use crate::entries;
use crate::holding::octets_needed;
use crate::outcome::refusal_line;
use crate::records::refused;

pub const BLOCK: usize = 512;
/// The octets of a record in a block.
pub const DATA: usize = 502;
/// Where the check stands in a block.
pub const CHECK: usize = 510;

#[derive(Clone, Debug)]
pub struct Record {
    pub number: u32,
    pub case: Case,
}

/// The check of a block: 1 plus each octet times its place counted from 1, modulo 65,521.
pub fn check(block: &[u8]) -> u16 {
    let sum: u64 = block[..CHECK].iter().zip(1u64..).map(|(octet, place)| u64::from(*octet) * place).sum();
    ((1 + sum) % 65_521) as u16
}

/// Writes the check where it belongs.
pub fn seal(block: &mut [u8]) {
    let check = check(block);
    block[CHECK..].copy_from_slice(&check.to_be_bytes());
}

pub fn fails_its_check(block: &[u8]) -> bool {
    check(block).to_be_bytes() != block[CHECK..]
}

impl Record {
    /// The octets of the record, before it is cut.
    pub fn octets(&self) -> Vec<u8> {
        let mut octets = vec![self.case.profile];
        octets.extend((self.case.certificate.len() as u16).to_be_bytes());
        octets.extend(&self.case.certificate);
        octets.extend(&self.case.issuer);
        octets
    }

    pub fn blocks(&self) -> Vec<Vec<u8>> {
        blocks_of(self.number, &self.octets())
    }

    fn event(&self, block: usize, room: usize) -> Event {
        Event::Record {
            block,
            number: self.number,
            profile: self.case.profile,
            certificate: self.case.certificate.clone(),
            issuer: self.case.issuer.clone(),
            answer: in_room(&self.case.expected, room),
        }
    }
}

/// Cuts the octets of a record into sealed blocks.
pub fn blocks_of(number: u32, octets: &[u8]) -> Vec<Vec<u8>> {
    let parts = octets.chunks(DATA).enumerate();
    parts.map(|(part, data)| block(number, octets.len() as u16, part as u8, data)).collect()
}

/// One sealed block.
pub fn block(number: u32, length: u16, part: u8, data: &[u8]) -> Vec<u8> {
    let mut block = vec![0; BLOCK];
    block[0..4].copy_from_slice(&number.to_be_bytes());
    block[4..6].copy_from_slice(&length.to_be_bytes());
    block[6] = part;
    block[8..8 + data.len()].copy_from_slice(data);
    seal(&mut block);
    block
}

/// The answer to a case in a room of this length: a report that does not fit is refused with 7.
pub fn in_room(answer: &Answer, room: usize) -> Answer {
    if octets_needed(answer) > room {
        refused(7, 0, 0)
    } else {
        answer.clone()
    }
}

/// What became of a stretch of blocks.
#[derive(Clone, Debug)]
enum Fate {
    /// A whole record, of this many blocks.
    Record(Box<Record>, usize),
    Lost(Loss),
}

/// A deck that knows what reading it must give.
#[derive(Clone, Debug, Default)]
pub struct Deck {
    pub octets: Vec<u8>,
    fates: Vec<Fate>,
}

impl Deck {
    /// A deck of these records, numbered from 1.
    pub fn of(cases: &[Case]) -> Deck {
        let mut deck = Deck::default();
        for (number, case) in (1..).zip(cases) {
            deck.push_record(&Record { number, case: case.clone() });
        }
        deck
    }

    pub fn push_record(&mut self, record: &Record) {
        self.push_whole(record, &record.blocks());
    }

    /// The blocks of a record, all of them.
    pub fn push_whole(&mut self, record: &Record, blocks: &[Vec<u8>]) {
        self.fates.push(Fate::Record(Box::new(record.clone()), blocks.len()));
        self.octets.extend(blocks.concat());
    }

    /// A block, or less than one at the end of the deck, that belongs to no record.
    pub fn push_lost(&mut self, octets: &[u8], loss: Loss) {
        self.fates.push(Fate::Lost(loss));
        self.octets.extend(octets);
    }

    /// What reading gives, by block position from 0, with the linter in a room of this length.
    pub fn events(&self, room: usize) -> Vec<Event> {
        let mut position = 0;
        let mut events = Vec::new();
        for fate in &self.fates {
            match fate {
                Fate::Record(record, blocks) => {
                    events.push(record.event(position, room));
                    position += blocks;
                }
                Fate::Lost(loss) => {
                    events.push(Event::Lost { block: position, loss: *loss });
                    position += 1;
                }
            }
        }
        events
    }

    /// How many octets the report of each record takes.
    pub fn needs(&self) -> Vec<usize> {
        let records = self.fates.iter().filter_map(|fate| match fate {
            Fate::Record(record, _) => Some(octets_needed(&record.case.expected)),
            Fate::Lost(_) => None,
        });
        records.collect()
    }

    /// How many blocks there are, a short one counted.
    pub fn blocks(&self) -> usize {
        self.octets.len().div_ceil(BLOCK)
    }
}

/// What the program prints for these events, in the words of the paper.
pub fn listing_of(events: &[Event], blocks: usize) -> String {
    let mut text = String::new();
    let (mut records, mut lost) = (0, 0);
    for event in events {
        match event {
            Event::Record { number, profile, answer, .. } => {
                records += 1;
                text += &record_lines(*number, *profile, answer);
            }
            Event::Lost { block, loss } => {
                lost += 1;
                text += &format!("lost {block} {}\n", loss_word(*loss));
            }
        }
    }
    text + &format!("records {records} blocks {blocks} lost {lost}\n")
}

/// A record's own line and those of its findings.
pub fn record_lines(number: u32, profile: u8, answer: &Answer) -> String {
    format!("record {number} profile {profile} {}", answer_lines(answer))
}

/// The end of a record's line, and the lines of its findings.
pub fn answer_lines(answer: &Answer) -> String {
    match answer {
        Answer::Refused(refusal) => refusal_line(refusal) + "\n",
        Answer::Report(entries) => {
            let findings: String = entries.iter().map(entries::line_of).collect();
            format!("findings {}\n{findings}", entries.len())
        }
    }
}

pub fn loss_word(loss: Loss) -> &'static str {
    match loss {
        Loss::Short => "short",
        Loss::Unsound => "unsound",
        Loss::Stray => "stray",
    }
}
