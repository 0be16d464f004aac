//! The deck's writers on records of every size and number, in rooms of every kind, and their refusals
//! in every combination. Both are held to blocks that the bench cuts itself.

use comparison::amount::cases;
use comparison::correct::Case;
use comparison::deck::{Record, BLOCK};
use comparison::holding::AMPLE_ROOM;
use comparison::profile::ALL;
use comparison::queue::hold_met;
use comparison::random::Random;
use comparison::records::{largest, linted, of_length, of_two_blocks, tiny, LONGEST_SIDE};
use comparison::writers::{Blocks, Writer, Writers, Writing};
use reference::Refusal;

/// "N from 3 to 16,387", and our writer takes no empty side.
const LEAST: usize = 5;
const MOST: usize = 16_387;

/// Numbers with each of their four octets set and not set.
const NUMBERS: [u32; 10] =
    [1, 0xFF, 0x100, 0xFFFF, 0x1_0000, 0xFF_FFFF, 0x100_0000, 0x102_0304, u32::MAX - 1, u32::MAX];

/// "512 a block (writers), exceed the lent length"
const NO_ROOM: Blocks = Err(Refusal { number: 7, side: 0, place: 0 });

/// Holds both writers to a record in rooms that are just enough, more, and an octet too little.
fn hold_rooms(writers: &mut Writers, what: &str, record: &Record) {
    let blocks = record.blocks().concat();
    let needed = blocks.len();
    for room in [needed, needed + 1, needed + BLOCK - 1, needed + BLOCK] {
        writers.hold(what, Writing::of(record, room), Ok(blocks.clone()));
    }
    for room in [needed - 1, needed - BLOCK, needed - BLOCK + 1, 0] {
        writers.hold(what, Writing::of(record, room), NO_ROOM);
    }
}

#[test]
fn records_of_every_kind_are_cut_into_blocks() {
    let mut writers = Writers::of("records of every kind");
    let mut random = Random::for_purpose("written records");
    for number in NUMBERS {
        for case in [tiny(&mut random), of_two_blocks(&mut random), linted(&mut random), largest(&mut random)]
        {
            let record = Record { number, case };
            hold_rooms(&mut writers, "a record", &record);
            writers.hold(
                "as much room as the program lends",
                Writing::of(&record, AMPLE_ROOM),
                Ok(record.blocks().concat()),
            );
        }
    }
    let met = writers.finish();
    hold_met(&met, &["blocks 1", "blocks 2", "blocks 33", "refused 7 side 0 at 0"]);
}

#[test]
fn records_of_every_length_at_the_edge_of_a_block() {
    let mut writers = Writers::of("records around each multiple of 502 octets");
    let edges = (1..=32).flat_map(|parts| parts * 502 - 2..=parts * 502 + 2);
    let lengths: Vec<usize> = (LEAST..12).chain(edges).chain(MOST - 3..=MOST).collect();
    for length in &lengths {
        let record = Record { number: 7, case: of_length(*length) };
        assert_eq!(record.octets().len(), *length);
        hold_rooms(&mut writers, &format!("N is {length}"), &record);
    }
    let met = writers.finish();
    // Every count from 1 to 33 blocks, and refusal 7.
    assert!(met.is_empty() || met.len() == 34);
}

#[test]
fn chance_octets_are_written_as_they_are() {
    let mut writers = Writers::of("records with octets by chance");
    let mut random = Random::for_purpose("written octets");
    for _ in 0..cases(3_000) {
        let [certificate, issuer] = [0, 0].map(|_| {
            let longest = *random.choose(&[4, 600, 600, 2_000, LONGEST_SIDE]);
            let length = random.between(1, longest);
            random.octets(length)
        });
        let profile = *random.choose(ALL);
        let number = 1 + random.below(u32::MAX as usize) as u32;
        let case = Case { profile, certificate, issuer, ..tiny(&mut random) };
        let record = Record { number, case };
        let blocks = record.blocks().concat();
        if random.once_in(8) {
            writers.hold("too little", Writing::of(&record, random.below(blocks.len())), NO_ROOM);
        } else {
            writers.hold("enough", Writing::of(&record, blocks.len() + random.below(700)), Ok(blocks));
        }
    }
    writers.finish();
}

// Refusals

/// A call, and which of the five reasons to refuse it there are, in the order of the paper's table.
struct Reasons {
    certificate: Vec<u8>,
    issuer: Vec<u8>,
    profile: u8,
    number: u32,
    room: usize,
}

impl Reasons {
    /// "The first that applies, top to bottom": 1, 2, 3, 8, 7; the writer skips 4, 5 and 6.
    fn first(&self) -> Option<Refusal> {
        let sides = [&self.certificate, &self.issuer];
        let [bad_certificate, bad_issuer] = sides.map(|side| side.is_empty() || side.len() > LONGEST_SIDE);
        let needed = BLOCK * (3 + self.certificate.len() + self.issuer.len()).div_ceil(502);
        let reasons = [
            (bad_certificate, 1, 1),
            (bad_issuer, 2, 2),
            (!ALL.contains(&self.profile), 3, 0),
            (self.number == 0, 8, 0),
            (self.room < needed, 7, 0),
        ];
        let first = reasons.into_iter().find(|(applies, ..)| *applies);
        first.map(|(_, number, side)| Refusal { number, side, place: 0 })
    }

    fn hold(self, writers: &mut Writers) {
        let due = match self.first() {
            Some(refusal) => Err(refusal),
            None => {
                let case = Case {
                    profile: self.profile,
                    certificate: self.certificate.clone(),
                    issuer: self.issuer.clone(),
                    ..of_length(LEAST)
                };
                Ok(Record { number: self.number, case }.blocks().concat())
            }
        };
        let Reasons { certificate, issuer, profile, number, room } = self;
        writers.hold("reasons to refuse", Writing { number, profile, certificate, issuer, room }, due);
    }
}

/// Every combination of reasons: sides, profiles, numbers and rooms with a fault and without.
#[test]
fn refusals_come_in_their_order_in_every_combination() {
    let mut writers = Writers::of("reasons to refuse in every combination");
    let side = |length: usize| vec![0xA5; length];
    for certificate in [0, 1, LONGEST_SIDE, LONGEST_SIDE + 1] {
        for issuer in [0, 1, LONGEST_SIDE, LONGEST_SIDE + 1] {
            for profile in [0, 1, 4, 5, 255] {
                for number in [0, 1] {
                    for room in [0, 511, 512, 33 * BLOCK - 1, 33 * BLOCK] {
                        let (certificate, issuer) = (side(certificate), side(issuer));
                        Reasons { certificate, issuer, profile, number, room }.hold(&mut writers);
                    }
                }
            }
        }
    }
    let met = writers.finish();
    for (number, side) in [(1, 1), (2, 2), (3, 0), (8, 0), (7, 0)] {
        hold_met(&met, &[&format!("refused {number} side {side} at 0")]);
    }
    hold_met(&met, &["blocks 1", "blocks 33"]);
}

#[test]
fn every_profile_octet_is_refused_or_written() {
    let mut writers = Writers::of("every profile octet");
    for profile in 0..=255 {
        for number in [0, 9] {
            let (certificate, issuer) = (vec![0x30, 0], vec![0x30, 0]);
            Reasons { certificate, issuer, profile, number, room: 515 }.hold(&mut writers);
        }
    }
    writers.finish();
}

#[test]
fn what_is_no_certificate_is_written_all_the_same() {
    // The writer skips 4, 5 and 6: P2, P7 and P1 of the paper's examples.
    let mut writers = Writers::of("sides that the linter refuses");
    for side in [vec![0x30, 0x81, 0], vec![0x31, 6, 2, 1, 2, 2, 1, 1], vec![0x30, 0], vec![0]] {
        let (certificate, issuer) = (side.clone(), side);
        Reasons { certificate, issuer, profile: 2, number: 3, room: 512 }.hold(&mut writers);
    }
    writers.finish();
}

#[test]
fn a_frame_that_makes_no_call_of_the_writer_is_told() {
    let writer = Writer::of("frames that make no call");
    let whole = [0, 0, 0, 1, 1, 0, 0, 0, 0, 2, 0x30, 0, 0x30, 0];
    // A head that is cut short, whose missing octets count as 0, and a certificate that is.
    let cut_short: Vec<&[u8]> = (0..12).map(|length| &whole[..length]).collect();
    writer.hold_frames(&cut_short, &"no call\n".repeat(12));
    let one_octet_of_room_too_many = [0, 0, 0, 1, 1, 1, 0, 1, 0, 0];
    writer.hold_frames(&[&one_octet_of_room_too_many], "no call\n");
    // The issuer may be empty.
    writer.hold_frames(&[&whole[..12], &whole], "refused 2 side 2 at 0\nrefused 7 side 0 at 0\n");
}
