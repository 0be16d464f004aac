//! The deck's writers, the reference and the proved one: both held to the blocks or the refusal that
//! are due, and the proved one to every octet of the room.

use reference::{write_record, Refusal};

use crate::calls::{head_of_sides, shown_sides};
use crate::deck::{Record, BLOCK};
use crate::holding::Comparison;
use crate::outcome::{fresh_room, refusal_line, Outcome};
use crate::queue::{Met, Queue, Request};

/// The proved writer.
pub type Writer = Queue<Writing>;

/// What a writer is called with.
#[derive(Clone, Debug)]
pub struct Writing {
    pub number: u32,
    pub profile: u8,
    pub certificate: Vec<u8>,
    pub issuer: Vec<u8>,
    /// The length of the room.
    pub room: usize,
}

/// The blocks of a record, or why there are none.
pub type Blocks = Result<Vec<u8>, Refusal>;

impl Writing {
    pub fn of(record: &Record, room: usize) -> Writing {
        let case = &record.case;
        Writing {
            number: record.number,
            profile: case.profile,
            certificate: case.certificate.clone(),
            issuer: case.issuer.clone(),
            room,
        }
    }

    /// What the reference writes.
    fn reference(&self) -> Blocks {
        write_record(self.number, self.profile, &self.certificate, &self.issuer, self.room)
    }

    /// "The writer answers its number of blocks; room after them is untouched." On refusal all of it is.
    pub fn outcome_of(&self, blocks: &Blocks) -> Outcome {
        let mut room = fresh_room(self.room);
        let line = match blocks {
            Ok(blocks) => {
                room[..blocks.len()].copy_from_slice(blocks);
                format!("blocks {}", blocks.len() / BLOCK)
            }
            Err(refusal) => refusal_line(refusal),
        };
        Outcome { line, room }
    }
}

impl Request for Writing {
    const KIND: u8 = 13;

    /// Number, profile, the lengths of the room and of the certificate, both sides.
    fn octets(&self) -> Vec<u8> {
        let head = [&self.number.to_be_bytes()[..], &[self.profile]].concat();
        [&head, &head_of_sides(self.room, &self.certificate), &self.certificate, &self.issuer]
            .map(Vec::as_slice)
            .concat()
    }

    fn take_reply(&self, written: &mut &[u8]) -> Vec<Outcome> {
        vec![Outcome::take(written, self.room)]
    }

    fn reference_reply(&self) -> Vec<Outcome> {
        vec![self.outcome_of(&self.reference())]
    }

    fn kinds(outcome: &Outcome) -> Vec<String> {
        vec![outcome.line.clone()]
    }

    fn shown(&self) -> String {
        let sides = shown_sides(self.profile, &self.certificate, &self.issuer);
        format!("number {}, room {}, {sides}", self.number, self.room)
    }
}

pub struct Writers {
    reference: Comparison,
    proved: Writer,
}

impl Writers {
    pub fn of(kind: &str) -> Writers {
        Writers {
            reference: Comparison::of(&format!("{kind}: calls of the reference's writer")),
            proved: Writer::of(&format!("{kind}: calls of the proved writer")),
        }
    }

    /// Holds both writers to what is due.
    pub fn hold(&mut self, what: &str, writing: Writing, due: Blocks) {
        self.reference.hold(what, &due, &writing.reference(), || writing.shown());
        let due = vec![writing.outcome_of(&due)];
        self.proved.hold(what, writing, due);
    }

    /// Says how many calls were compared and how they were answered, and fails if any differed.
    pub fn finish(self) -> Met {
        self.reference.finish();
        self.proved.finish()
    }
}

#[cfg(test)]
mod tests {
    use super::{Request, Writing};
    use reference::Refusal;

    fn example(room: usize) -> Writing {
        Writing { number: 0x1020304, profile: 3, certificate: vec![7, 8], issuer: vec![9], room }
    }

    #[test]
    fn a_call_is_a_number_a_profile_two_lengths_and_two_sides() {
        assert_eq!(example(0x10203).octets(), [1, 2, 3, 4, 3, 1, 2, 3, 0, 2, 7, 8, 9]);
    }

    #[test]
    fn blocks_stand_at_the_front_of_the_room() {
        let outcome = example(1026).outcome_of(&Ok(vec![9; 1024]));
        assert_eq!((outcome.line.as_str(), &outcome.room[1023..]), ("blocks 2", &[9, 20, 21][..]));
        let outcome = example(2).outcome_of(&Err(Refusal { number: 8, side: 0, place: 0 }));
        assert_eq!((outcome.line.as_str(), &outcome.room[..]), ("refused 8 side 0 at 0", &[0, 1][..]));
    }
}
