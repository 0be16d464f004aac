//! Holding what is answered to what is expected, and saying the differences at the end rather than
//! the first alone.

use std::fmt::Debug;

use reference::Answer;

use crate::amount::say;
use crate::entries::ENTRY;

/// Room for every report there can be.
pub const AMPLE_ROOM: usize = 65_536;

/// At most this many differences are written out.
const SHOWN: usize = 4;

pub struct Comparison {
    kind: String,
    compared: usize,
    differing: usize,
    shown: Vec<String>,
}

impl Comparison {
    pub fn of(kind: &str) -> Comparison {
        Comparison { kind: kind.to_string(), compared: 0, differing: 0, shown: Vec::new() }
    }

    /// Holds an answer to the expected one. `input` writes out what was asked, for the message.
    pub fn hold<Value: PartialEq + Debug>(
        &mut self,
        what: &str,
        expected: &Value,
        answered: &Value,
        input: impl FnOnce() -> String,
    ) {
        let difference =
            (expected != answered).then(|| format!("expected {expected:?}\n  answered {answered:?}"));
        self.note(what, difference, input);
    }

    /// Counts a case, and the difference if there is one.
    pub fn note(&mut self, what: &str, difference: Option<String>, input: impl FnOnce() -> String) {
        self.compared += 1;
        let Some(difference) = difference else { return };
        self.differing += 1;
        if self.shown.len() < SHOWN {
            self.shown.push(format!("{what}\n  {difference}\n  {}", input()));
        }
    }

    /// How many were compared so far.
    pub fn compared(&self) -> usize {
        self.compared
    }

    /// Fails if any differed or if there was nothing to compare.
    pub fn settle(&self) {
        let Comparison { kind, compared, differing, shown } = self;
        assert!(*compared > 0, "{kind}: nothing was compared");
        assert!(*differing == 0, "{kind}: {differing} of {compared} differ\n{}", shown.join("\n"));
    }

    /// The same, and says how many were compared.
    pub fn finish(&self) {
        say(&self.kind, self.compared);
        self.settle();
    }
}

/// "8 octets a finding"; a refusal needs none.
pub fn octets_needed(answer: &Answer) -> usize {
    ENTRY * rules_of(answer).len()
}

/// The rules of a report, in its order; of a refusal none.
pub fn rules_of(answer: &Answer) -> Vec<u16> {
    match answer {
        Answer::Report(entries) => entries.iter().map(|entry| entry.rule).collect(),
        Answer::Refused(_) => Vec::new(),
    }
}
