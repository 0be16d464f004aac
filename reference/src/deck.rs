//! The deck: records in blocks of 512 octets, each block with its check.

use crate::lint::{check_call, check_room, lint, refusal};
use crate::{Event, Loss, Refusal};

/// "Block: octets 0–3 record number, 4–5 record length N, 6 part, 7 zero, 8–509 data, 510–511 check; high octet first."
pub const BLOCK_LENGTH: usize = 512;
const CHECK_START: usize = 510;
/// "parts from 0, 502 octets each"
const DATA_LENGTH: usize = 502;

/// "Record: profile octet, certificate length in two octets, certificate, issuer; N from 3 to 16,387"
const RECORD_HEAD_LENGTH: usize = 3;
const GREATEST_RECORD_LENGTH: usize = 16_387;

/// The number that octets 510 and 511 of a sound block hold.
///
/// "Check: 1 plus the sum of (i+1) times octet i, i from 0 to 509, modulo the prime 65,521."
pub fn block_check(block: &[u8]) -> u16 {
    let sum: u32 = (1..)
        .zip(block.iter().take(CHECK_START))
        .map(|(weight, &octet): (u32, _)| weight * u32::from(octet))
        .sum();
    // The sum is at most 255 * (1 + 2 + … + 510), far below 2^32; the remainder is below 2^16.
    ((1 + sum) % 65_521) as u16
}

/// The blocks of one record, as the writer puts them into a room of so many octets.
pub fn write_record(
    number: u32,
    profile: u8,
    certificate: &[u8],
    issuer: &[u8],
    room: usize,
) -> Result<Vec<u8>, Refusal> {
    check_call(certificate, issuer, profile)?;
    // "8 | record number 0 (writer only)"
    if number == 0 {
        return Err(refusal(8, 0, 0));
    }
    let record_length = RECORD_HEAD_LENGTH + certificate.len() + issuer.len();
    check_room(BLOCK_LENGTH * parts(record_length), room)?;

    let mut record = Vec::with_capacity(record_length);
    record.push(profile);
    // Both lengths are checked: at most 8,192 and at most 16,387.
    record.extend((certificate.len() as u16).to_be_bytes());
    record.extend(certificate);
    record.extend(issuer);
    Ok(blocks_of(number, &record))
}

/// How many parts a record of this length has.
fn parts(record_length: usize) -> usize {
    record_length.div_ceil(DATA_LENGTH)
}

/// "parts from 0, 502 octets each, last zero-filled"
fn blocks_of(number: u32, record: &[u8]) -> Vec<u8> {
    let mut blocks = Vec::with_capacity(BLOCK_LENGTH * parts(record.len()));
    for (part, data) in (0u8..).zip(record.chunks(DATA_LENGTH)) {
        let start = blocks.len();
        blocks.extend(number.to_be_bytes());
        blocks.extend((record.len() as u16).to_be_bytes());
        blocks.extend([part, 0]);
        blocks.extend(data);
        blocks.resize(start + CHECK_START, 0);
        let check = block_check(&blocks[start..]);
        blocks.extend(check.to_be_bytes());
    }
    blocks
}

/// What reading a deck finds, in the order of its blocks; `room` is the linter's.
///
/// "A record is handed out at a block exactly when it starts a run of consecutive sound blocks …" "Every block in no such
/// run is lost". Only the first block of a run is a part 0, so no two runs overlap.
pub fn read_deck(deck: &[u8], room: usize) -> Vec<Event> {
    let blocks: Vec<Result<Block, Loss>> = deck.chunks(BLOCK_LENGTH).map(Block::read).collect();
    let mut events = Vec::new();
    let mut unread = blocks.as_slice();
    while let Some((first, after_first)) = unread.split_first() {
        let position = blocks.len() - unread.len();
        unread = match split_record(unread) {
            Some((record, after_record)) => {
                events.push(record.into_event(position, room));
                after_record
            }
            None => {
                events.push(Event::Lost {
                    block: position,
                    loss: why_lost(first),
                });
                after_first
            }
        };
    }
    events
}

/// Why a block in no run is lost: ""short" (under 512 octets, at the end), "unsound" (check differs), else "stray"".
fn why_lost(block: &Result<Block, Loss>) -> Loss {
    match block {
        Ok(_) => Loss::Stray,
        Err(loss) => *loss,
    }
}

/// A sound block.
struct Block<'a> {
    number: u32,
    record_length: usize,
    part: usize,
    octet_7: u8,
    /// The 502 octets of data.
    data: &'a [u8],
}

impl<'a> Block<'a> {
    /// The block in these octets, if they are 512 and the check agrees.
    fn read(octets: &'a [u8]) -> Result<Block<'a>, Loss> {
        let (checked, check) = octets.split_at_checked(CHECK_START).ok_or(Loss::Short)?;
        let check: [u8; 2] = check.try_into().map_err(|_| Loss::Short)?;
        if block_check(checked) != u16::from_be_bytes(check) {
            return Err(Loss::Unsound);
        }
        match checked {
            [n0, n1, n2, n3, l0, l1, part, octet_7, data @ ..] => Ok(Block {
                number: u32::from_be_bytes([*n0, *n1, *n2, *n3]),
                record_length: usize::from(u16::from_be_bytes([*l0, *l1])),
                part: usize::from(*part),
                octet_7: *octet_7,
                data,
            }),
            _ => Err(Loss::Short),
        }
    }

    /// The octets of its record that this block holds, if it is this part of a record with this number and length:
    /// "one number (not 0) and one N of 3 to 16,387, octet 7 and fill zero".
    fn data_of_part(&self, part: usize, number: u32, record_length: usize) -> Option<&'a [u8]> {
        let fits = self.part == part
            && self.number == number
            && self.record_length == record_length
            && self.octet_7 == 0;
        if !fits {
            return None;
        }
        let held = record_length
            .saturating_sub(DATA_LENGTH * part)
            .min(DATA_LENGTH);
        let (data, fill) = self.data.split_at_checked(held)?;
        fill.iter().all(|&octet| octet == 0).then_some(data)
    }
}

/// A record put together from its blocks.
struct Record {
    number: u32,
    profile: u8,
    certificate_length: usize,
    /// All N octets, the three at the head included.
    octets: Vec<u8>,
}

/// The record whose run of blocks starts at the front, if one does, and the blocks behind that run.
fn split_record<'b, 'a>(
    blocks: &'b [Result<Block<'a>, Loss>],
) -> Option<(Record, &'b [Result<Block<'a>, Loss>])> {
    let first = blocks.first()?.as_ref().ok()?;
    let (number, record_length) = (first.number, first.record_length);
    if number == 0 || !(RECORD_HEAD_LENGTH..=GREATEST_RECORD_LENGTH).contains(&record_length) {
        return None;
    }
    let (run, after_run) = blocks.split_at_checked(parts(record_length))?;
    let mut octets = Vec::with_capacity(record_length);
    for (part, block) in run.iter().enumerate() {
        let block = block.as_ref().ok()?;
        octets.extend(block.data_of_part(part, number, record_length)?);
    }
    Some((Record::read(number, octets)?, after_run))
}

impl Record {
    fn read(number: u32, octets: Vec<u8>) -> Option<Record> {
        let (&[profile, high, low], certificates) = octets.split_first_chunk()?;
        let certificate_length = usize::from(u16::from_be_bytes([high, low]));
        // "certificate length at most N−3"
        (certificate_length <= certificates.len()).then_some(Record {
            number,
            profile,
            certificate_length,
            octets,
        })
    }

    /// The record as it was written, "with the findings or the refusal that each would get alone".
    fn into_event(self, block: usize, room: usize) -> Event {
        let certificates = self.octets.get(RECORD_HEAD_LENGTH..).unwrap_or(&[]);
        let (certificate, issuer) = certificates
            .split_at_checked(self.certificate_length)
            .unwrap_or((certificates, &[]));
        Event::Record {
            block,
            number: self.number,
            profile: self.profile,
            certificate: certificate.to_vec(),
            issuer: issuer.to_vec(),
            answer: lint(certificate, issuer, self.profile, room),
        }
    }
}

#[cfg(test)]
mod tests {
    use super::*;
    use crate::{Answer, Refusal};

    fn example() -> Vec<u8> {
        write_record(1, 1, &[0x30, 0x00], &[0x30, 0x00], 512).unwrap()
    }

    #[test]
    fn the_example_block() {
        let block = example();
        assert_eq!(block.len(), 512);
        assert_eq!(block[..8], [0, 0, 0, 1, 0, 7, 0, 0]);
        assert_eq!(block[8..15], [0x01, 0x00, 0x02, 0x30, 0x00, 0x30, 0x00]);
        assert_eq!(block[510..], [0x05, 0x2E]);
    }

    #[test]
    fn the_example_reads_back() {
        let answer = Answer::Refused(Refusal {
            number: 6,
            side: 1,
            place: 0,
        });
        let record = Event::Record {
            block: 0,
            number: 1,
            profile: 1,
            certificate: vec![0x30, 0x00],
            issuer: vec![0x30, 0x00],
            answer,
        };
        assert_eq!(read_deck(&example(), 0), [record]);
    }

    #[test]
    fn the_writer_refuses_in_order() {
        let number = |result: Result<Vec<u8>, Refusal>| result.map_err(|refusal| refusal.number);
        assert_eq!(number(write_record(0, 0, &[], &[], 0)), Err(1));
        assert_eq!(number(write_record(0, 0, &[1], &[], 0)), Err(2));
        assert_eq!(number(write_record(0, 0, &[1], &[1], 0)), Err(3));
        assert_eq!(number(write_record(0, 1, &[1], &[1], 0)), Err(8));
        assert_eq!(number(write_record(1, 1, &[1], &[1], 511)), Err(7));
        assert!(write_record(1, 1, &[1], &[1], 512).is_ok());
    }

    #[test]
    fn a_record_of_two_parts_needs_both() {
        let blocks = write_record(7, 3, &[1; 400], &[2; 100], 1024).unwrap();
        assert_eq!(blocks.len(), 1024);
        assert_eq!(read_deck(&blocks, 0).len(), 1);

        let lost = |deck: &[u8]| -> Vec<Loss> {
            let events = read_deck(deck, 0);
            let losses = events.iter().map(|event| match event {
                Event::Lost { loss, .. } => Some(*loss),
                Event::Record { .. } => None,
            });
            losses.collect::<Option<_>>().unwrap()
        };
        assert_eq!(lost(&blocks[..512]), [Loss::Stray]);
        assert_eq!(lost(&blocks[512..]), [Loss::Stray]);
        assert_eq!(lost(&blocks[..1023]), [Loss::Stray, Loss::Short]);
        let mut spoiled = blocks.clone();
        spoiled[600] ^= 1;
        assert_eq!(lost(&spoiled), [Loss::Stray, Loss::Unsound]);
    }

    #[test]
    fn part_0_of_one_record_is_not_joined_to_part_1_of_another() {
        let one = write_record(1, 3, &[1; 400], &[2; 100], 1024).unwrap();
        let two = write_record(2, 3, &[1; 400], &[2; 100], 1024).unwrap();
        let joined = [&one[..512], &two[512..]].concat();
        assert!(read_deck(&joined, 0).iter().all(|event| matches!(
            event,
            Event::Lost {
                loss: Loss::Stray,
                ..
            }
        )));
    }
}
