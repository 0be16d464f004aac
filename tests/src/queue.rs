//! Requests to the program `answers`, in which the proved linter, writer and reader are: they wait until they are worth
//! a run, and then the replies are held to what is due.

use std::collections::BTreeMap;

use crate::answers::Frame;
use crate::holding::Comparison;
use crate::outcome::{first_difference, Outcome};
use crate::program::Program;

/// Requests wait until they and the rooms of their replies have this many octets.
const OCTETS_A_RUN: usize = 4_000_000;

/// What the program is asked: a call of the linter or of the writer, or the reading of a deck.
pub trait Request: Clone {
    /// The kind of its frame.
    const KIND: u8;

    /// What its frame holds.
    fn octets(&self) -> Vec<u8>;

    /// What comes behind its frame.
    fn behind(&self) -> &[u8] {
        &[]
    }

    /// Takes its reply from what the program wrote. What was written after it stays.
    fn take_reply(&self, written: &mut &[u8]) -> Vec<Outcome>;

    /// The reply that the reference calls for.
    fn reference_reply(&self) -> Vec<Outcome>;

    /// Holds a reply to what is true of all replies, whatever is due.
    fn hold_invariants(&self, _reply: &[Outcome]) -> Result<(), String> {
        Ok(())
    }

    /// What is counted of each outcome of a reply.
    fn kinds(outcome: &Outcome) -> Vec<String>;

    /// The request with parts taken out for as long as `differs` stays true.
    fn smallest(&self, _differs: &mut dyn FnMut(&Self) -> bool) -> Self {
        self.clone()
    }

    fn shown(&self) -> String;
}

/// How often each kind of outcome was met; none where the programs are left out.
pub type Met = BTreeMap<String, usize>;

/// Fails if a kind was never met, except where the programs are left out.
pub fn hold_met(met: &Met, wanted: &[&str]) {
    for kind in wanted {
        assert!(met.is_empty() || met.contains_key(*kind), "nothing was {kind:?}");
    }
}

struct Waiting<Asked> {
    what: String,
    request: Asked,
    due: Vec<Outcome>,
}

/// The program, the requests that wait for it, and where it differed so far from what is due.
pub struct Queue<Asked> {
    kind: String,
    /// None where the programs are left out.
    program: Option<Program>,
    comparison: Comparison,
    waiting: Vec<Waiting<Asked>>,
    octets: usize,
    met: Met,
}

impl<Asked: Request> Queue<Asked> {
    pub fn of(kind: &str) -> Queue<Asked> {
        Queue {
            kind: kind.to_string(),
            program: Program::unless_left_out("answers", kind),
            comparison: Comparison::of(kind),
            waiting: Vec::new(),
            octets: 0,
            met: Met::new(),
        }
    }

    /// Whether there is a program to ask.
    pub fn is_there(&self) -> bool {
        self.program.is_some()
    }

    /// Holds the program to the reply that the reference calls for.
    pub fn compare(&mut self, what: &str, request: Asked) {
        let due = request.reference_reply();
        self.hold(what, request, due);
    }

    /// Holds the program to a reply, now or when enough requests wait.
    pub fn hold(&mut self, what: &str, request: Asked, due: Vec<Outcome>) {
        let rooms: usize = due.iter().map(|outcome| outcome.room.len()).sum();
        self.octets += request.octets().len() + request.behind().len() + rooms;
        self.waiting.push(Waiting { what: what.to_string(), request, due });
        if self.octets > OCTETS_A_RUN {
            self.ask();
        }
    }

    fn ask(&mut self) {
        let waiting = std::mem::take(&mut self.waiting);
        self.octets = 0;
        let Some(program) = &self.program else { return };
        let requests: Vec<&Asked> = waiting.iter().map(|waiting| &waiting.request).collect();
        for (Waiting { what, request, due }, reply) in waiting.iter().zip(replies(program, &requests)) {
            let broken = || request.hold_invariants(&reply).err();
            let difference = first_difference(due, &reply).or_else(broken);
            self.comparison.note(what, difference, || {
                let smallest = smallest_difference(program, request);
                format!("{}\n  smallest: {}", request.shown(), smallest.shown())
            });
            for kind in reply.iter().flat_map(Asked::kinds) {
                *self.met.entry(kind).or_default() += 1;
            }
        }
    }

    /// The outcomes of all these requests at once, one reply's behind the other's; none where the programs are left out.
    pub fn outcomes(&self, requests: &[&Asked]) -> Vec<Outcome> {
        self.program.as_ref().map_or_else(Vec::new, |program| replies(program, requests).concat())
    }

    /// Holds the program to what it must write on frames of this kind, with nothing behind them, whether they make a
    /// request or not.
    pub fn hold_frames(&self, frames: &[&[u8]], due: &str) {
        let Some(program) = &self.program else { return };
        let mut input = Vec::new();
        for octets in frames {
            Frame::of_kind(Asked::KIND, octets.to_vec()).write(&mut input);
        }
        let written = program.run(&[], &input);
        assert_eq!(String::from_utf8_lossy(&written), due, "{}: {frames:02X?}", self.kind);
    }

    /// Asks what waits, and fails if any reply differed.
    pub fn settle(&mut self) {
        self.ask();
        if self.is_there() {
            self.comparison.settle();
        }
    }

    /// The same, and says how many replies were compared and of what kinds they were.
    pub fn finish(mut self) -> Met {
        self.ask();
        if self.is_there() {
            self.comparison.finish();
            println!("{}: {:?}", self.kind, self.met);
        }
        self.met
    }
}

fn input_of<Asked: Request>(requests: &[&Asked]) -> Vec<u8> {
    let mut input = Vec::new();
    for request in requests {
        Frame::of_kind(Asked::KIND, request.octets()).write(&mut input);
        input.extend(request.behind());
    }
    input
}

/// The program's reply to each request.
fn replies<Asked: Request>(program: &Program, requests: &[&Asked]) -> Vec<Vec<Outcome>> {
    let written = program.run(&[], &input_of(requests));
    let mut rest = written.as_slice();
    let replies = requests.iter().map(|request| request.take_reply(&mut rest)).collect();
    assert!(rest.is_empty(), "nothing is written that was not asked for");
    replies
}

/// A small request on which the program and the reference differ; the request itself where they do not.
fn smallest_difference<Asked: Request>(program: &Program, request: &Asked) -> Asked {
    request.smallest(&mut |smaller| replies(program, &[smaller])[0] != smaller.reference_reply())
}
