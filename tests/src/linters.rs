//! The linters, the reference and the proved one: both held to the answer that a case calls for.

use reference::{lint, Answer};

use crate::calls::{shown_sides, Call, Linter};
use crate::correct::Case;
use crate::deck::in_room;
use crate::entries::ENTRY;
use crate::holding::{octets_needed, Comparison, AMPLE_ROOM};
use crate::invariants::hold_octets;
use crate::outcome::Outcome;
use crate::queue::Request;
use crate::records::refused;

pub struct Linters {
    reference: Comparison,
    proved: Linter,
}

impl Linters {
    pub fn of(kind: &str) -> Linters {
        Linters {
            reference: Comparison::of(kind),
            proved: Linter::of(&format!("{kind}: calls of the proved linter")),
        }
    }

    /// Holds both linters to a case. The proved one gets a room of another length each time, and
    /// every eighth time a room that is one octet short besides.
    pub fn hold(&mut self, what: &str, case: &Case) {
        let Case { profile, certificate, issuer, expected } = case;
        let answered = lint(certificate, issuer, *profile, AMPLE_ROOM);
        self.reference.hold(what, expected, &answered, || shown_sides(*profile, certificate, issuer));
        self.hold_octets(what, &answered);
        let turn = self.reference.compared();
        let needed = octets_needed(expected);
        let call = Call::new(*profile, certificate, issuer, room_for(needed, turn));
        if needed > 0 && turn % 8 == 0 {
            self.hold_proved(what, call.in_room(needed - 1), &refused(7, 0, 0));
        }
        self.hold_proved(what, call, expected);
    }

    /// Holds both linters to a case in a room of this length.
    pub fn hold_in_room(&mut self, what: &str, case: &Case, room: usize) {
        let call = Call::new(case.profile, &case.certificate, &case.issuer, room);
        let due = in_room(&case.expected, room);
        self.reference.hold(what, &due, &call.reference(), || call.shown());
        self.hold_proved(what, call, &due);
    }

    /// Holds the reference to the octets of its report. They are no case of their own: only a difference is noted.
    fn hold_octets(&mut self, what: &str, answered: &Answer) {
        let Answer::Report(entries) = answered else { return };
        if let Err(difference) = hold_octets(entries) {
            self.reference.note(what, Some(difference), String::new);
        }
    }

    fn hold_proved(&mut self, what: &str, call: Call, expected: &Answer) {
        let due = vec![Outcome::of(expected, call.room)];
        self.proved.hold(what, call, due);
    }

    /// Fails if any answer differed or if there was nothing to compare.
    pub fn settle(mut self) {
        self.reference.settle();
        self.proved.settle();
    }

    /// The same, and says how many answers were compared.
    pub fn finish(self) {
        self.reference.finish();
        self.proved.finish();
    }
}

/// A room that is long enough, mostly just so.
fn room_for(needed: usize, turn: usize) -> usize {
    const MORE: [usize; 7] = [0, 1, ENTRY - 1, ENTRY, ENTRY + 1, 2 * ENTRY + 1, 300];
    if turn % 500 == 0 {
        AMPLE_ROOM
    } else {
        needed + MORE[turn % MORE.len()]
    }
}

/// Holds both linters to a single case at once.
pub fn hold_at_once(what: &str, case: &Case) {
    let mut linters = Linters::of(what);
    linters.hold(what, case);
    linters.settle();
}
