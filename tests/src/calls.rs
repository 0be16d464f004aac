//! Calls of the linter, and the proved linter held to the whole answer that is due: number, side and
//! place, or the count, and every octet of the room.

use reference::{lint, Answer, Refusal};

use crate::entries::{entries_in, ENTRY};
use crate::hex;
use crate::invariants::{hold_place, hold_report};
use crate::outcome::Outcome;
use crate::queue::{Queue, Request};
use crate::shrink::shrink;

/// The proved linter.
pub type Linter = Queue<Call>;

/// What the linter is called with.
#[derive(Clone, Debug)]
pub struct Call {
    pub profile: u8,
    pub certificate: Vec<u8>,
    pub issuer: Vec<u8>,
    /// The length of the room.
    pub room: usize,
}

impl Call {
    pub fn new(profile: u8, certificate: &[u8], issuer: &[u8], room: usize) -> Call {
        Call { profile, certificate: certificate.to_vec(), issuer: issuer.to_vec(), room }
    }

    /// The same call in another room.
    pub fn in_room(&self, room: usize) -> Call {
        Call { room, ..self.clone() }
    }

    /// What the reference answers.
    pub fn reference(&self) -> Answer {
        lint(&self.certificate, &self.issuer, self.profile, self.room)
    }

    /// The outcome's answer, after it was held to what is true of all answers: entries rise, are of
    /// rules of the profile and lie in the certificate; a refusal is as tabled, at a start within its
    /// side; what is no entry is as it was.
    fn held_answer(&self, outcome: &Outcome) -> Result<Answer, String> {
        let answer = answer_in(outcome)?;
        match &answer {
            Answer::Report(entries) => hold_report(entries, &self.certificate, self.profile)?,
            Answer::Refused(refusal) => self.hold_refusal(refusal)?,
        }
        if *outcome == Outcome::of(&answer, self.room) {
            Ok(answer)
        } else {
            Err("the line is written otherwise, or the room is changed where there is no entry".to_string())
        }
    }

    fn hold_refusal(&self, refusal: &Refusal) -> Result<(), String> {
        match (refusal.number, refusal.side, refusal.place) {
            (1, 1, 0) | (2, 2, 0) | (3, 0, 0) | (7, 0, 0) => Ok(()),
            (4..=6, 1 | 2, _) => hold_place(refusal, &self.certificate, &self.issuer),
            _ => Err(format!("there is no {refusal:?}")),
        }
    }
}

impl Request for Call {
    const KIND: u8 = 12;

    /// The profile, the lengths of the room and of the certificate, both sides.
    fn octets(&self) -> Vec<u8> {
        [
            &[self.profile],
            head_of_sides(self.room, &self.certificate).as_slice(),
            &self.certificate,
            &self.issuer,
        ]
        .concat()
    }

    fn take_reply(&self, written: &mut &[u8]) -> Vec<Outcome> {
        vec![Outcome::take(written, self.room)]
    }

    fn reference_reply(&self) -> Vec<Outcome> {
        vec![Outcome::of(&self.reference(), self.room)]
    }

    fn hold_invariants(&self, reply: &[Outcome]) -> Result<(), String> {
        reply.iter().try_for_each(|outcome| self.held_answer(outcome).map(drop))
    }

    /// The kind of its answer, and each entry's rule.
    fn kinds(outcome: &Outcome) -> Vec<String> {
        let Ok(answer) = answer_in(outcome) else { return vec!["no answer".to_string()] };
        let mut kinds = vec![kind_of(&answer)];
        if let Answer::Report(entries) = answer {
            kinds.extend(entries.iter().map(|entry| format!("rule {}", entry.rule)));
        }
        kinds
    }

    /// Octets are taken out of both sides.
    fn smallest(&self, differs: &mut dyn FnMut(&Call) -> bool) -> Call {
        let mut smallest = self.clone();
        smallest.certificate = shrink(&self.certificate, &mut |shorter| {
            differs(&Call { certificate: shorter.to_vec(), ..smallest.clone() })
        });
        smallest.issuer = shrink(&self.issuer, &mut |shorter| {
            differs(&Call { issuer: shorter.to_vec(), ..smallest.clone() })
        });
        smallest
    }

    fn shown(&self) -> String {
        format!("room {}, {}", self.room, shown_sides(self.profile, &self.certificate, &self.issuer))
    }
}

/// Three octets with the length of a room, and two with the length of a certificate.
pub fn head_of_sides(room: usize, certificate: &[u8]) -> Vec<u8> {
    let room = u32::try_from(room).expect("a room has at most 65,536 octets").to_be_bytes();
    let length = u16::try_from(certificate.len()).expect("a certificate fits into a frame");
    [&room[1..], &length.to_be_bytes()[..]].concat()
}

/// A pair and its profile, for a message.
pub fn shown_sides(profile: u8, certificate: &[u8], issuer: &[u8]) -> String {
    let (certificate, issuer) = (hex::text(certificate), hex::text(issuer));
    format!("profile {profile}\n  certificate {certificate}\n  issuer {issuer}")
}

/// In few words what an answer is.
pub fn kind_of(answer: &Answer) -> String {
    match answer {
        Answer::Refused(refusal) => format!("refused {} side {}", refusal.number, refusal.side),
        Answer::Report(entries) if entries.is_empty() => "no finding".to_string(),
        Answer::Report(_) => "findings".to_string(),
    }
}

/// The answer that the line and the front of the room say. The reference has no part in this.
fn answer_in(outcome: &Outcome) -> Result<Answer, String> {
    let no_answer = || format!("no answer: {:?}", outcome.line);
    let number = |text: &str| text.parse::<usize>().map_err(|_| no_answer());
    match outcome.line.split(' ').collect::<Vec<&str>>().as_slice() {
        ["findings", count] => {
            let octets = outcome.room.get(..ENTRY * number(count)?).ok_or("more findings than fit")?;
            Ok(Answer::Report(entries_in(octets)?))
        }
        ["refused", refusal, "side", side, "at", place] => Ok(Answer::Refused(Refusal {
            number: number(refusal)? as u8,
            side: number(side)? as u8,
            place: number(place)?,
        })),
        _ => Err(no_answer()),
    }
}

#[cfg(test)]
mod tests {
    use super::{Call, Outcome, Request};
    use crate::entries::{entry, ENTRY};
    use reference::{Answer, Level, Refusal};

    const REFUSED: Answer = Answer::Refused(Refusal { number: 7, side: 0, place: 0 });

    #[test]
    fn a_call_is_a_profile_two_lengths_and_two_sides() {
        let call = Call::new(3, &[7, 8], &[9], 0x10203);
        assert_eq!(call.octets(), [3, 1, 2, 3, 0, 2, 7, 8, 9]);
    }

    #[test]
    fn an_answer_is_read_back() {
        let report = Answer::Report(vec![entry(104, 1, 3)]);
        let call = Call::new(3, &[0; 4], &[], ENTRY + 2);
        assert_eq!(Call::kinds(&Outcome::of(&report, ENTRY + 2)), ["findings", "rule 104"]);
        assert_eq!(call.held_answer(&Outcome::of(&report, ENTRY + 2)), Ok(report));
        assert_eq!(call.in_room(2).held_answer(&Outcome::of(&REFUSED, 2)), Ok(REFUSED));
    }

    #[test]
    fn an_outcome_that_no_call_can_have_is_told() {
        let call = Call::new(3, &[0; 4], &[], 2);
        for (line, room) in [
            ("findings 0", [0, 2]),
            ("findings 1", [0, 1]),
            ("findings 00", [0, 1]),
            ("refused 7 side 0 at 0", [1, 1]),
            ("refused 7 side 1 at 0", [0, 1]),
            ("refused 4 side 1 at 4", [0, 1]),
            ("refused 4 side 2 at 1", [0, 1]),
            ("refused", [0, 1]),
        ] {
            let outcome = Outcome { line: line.to_string(), room: room.to_vec() };
            assert!(call.hold_invariants(&[outcome]).is_err(), "{line}");
        }
    }

    #[test]
    fn an_entry_of_another_level_or_place_is_told() {
        let call = Call::new(3, &[0; 4], &[], ENTRY);
        let answered = |room: [u8; ENTRY]| {
            call.held_answer(&Outcome { line: "findings 1".to_string(), room: room.to_vec() })
        };
        assert_eq!(answered([0, 104, 0, 1, 0, 3, 0, 1]), Ok(Answer::Report(vec![entry(104, 1, 3)])));
        for wrong in [
            // should, no level, a level with its octets exchanged
            [0, 104, 0, 1, 0, 3, 0, 2],
            [0, 104, 0, 1, 0, 3, 0, 0],
            [0, 104, 0, 1, 0, 3, 1, 0],
            // the level in the first, the second or the third pair
            [0, 1, 0, 104, 0, 1, 0, 3],
            [0, 104, 0, 1, 0, 1, 0, 3],
            // three pairs, and what the room held before
            [0, 104, 0, 1, 0, 3, 6, 7],
        ] {
            assert!(answered(wrong).is_err(), "{wrong:?}");
        }
        assert_eq!(entry(104, 1, 3).level, Level::Must);
    }
}
