//! A program that answers each frame of octets with a line, held to the lines that are expected.

use std::collections::BTreeMap;

use crate::hex;
use crate::program::Program;
use crate::shrink::shrink;

/// So many frames go to one run of the program.
const FRAMES_A_RUN: usize = 20_000;

/// At most this many differences of a family are made small and written out.
const SHOWN: usize = 3;

/// The kind of a frame that asks whether its octets are sound DER.
pub const ENCODING: u8 = 11;

/// The kind of a frame that asks whether its octets are a value of an extension: its number in the table. The numbers
/// from 11 to 14 were taken when the table got its eleventh row, so that row has the next.
pub fn kind_of_value(slot: u8) -> u8 {
    match slot {
        1..=10 => slot,
        11 => 15,
        _ => panic!("the table has no row {slot}"),
    }
}

/// What the program is asked: of what kind the question is, and octets.
#[derive(Clone, Debug, PartialEq, Eq)]
pub struct Frame {
    pub kind: u8,
    pub octets: Vec<u8>,
}

impl Frame {
    pub fn of_kind(kind: u8, octets: Vec<u8>) -> Frame {
        Frame { kind, octets }
    }

    /// The same question about other octets.
    fn about(&self, octets: &[u8]) -> Frame {
        Frame { kind: self.kind, octets: octets.to_vec() }
    }

    /// Writes the kind, two octets of length, high octet first, and then the octets.
    pub fn write(&self, input: &mut Vec<u8>) {
        let length = u16::try_from(self.octets.len()).expect("a frame has at most 65,535 octets");
        input.push(self.kind);
        input.extend(length.to_be_bytes());
        input.extend(&self.octets);
    }

    pub fn shown(&self) -> String {
        format!("kind {}, {}", self.kind, hex::text(&self.octets))
    }
}

/// A frame, and the line that is due where the rules on paper or the encoder say it.
#[derive(Clone, Debug)]
pub struct Question {
    pub frame: Frame,
    pub due: Option<String>,
}

impl Question {
    pub fn open(frame: Frame) -> Question {
        Question { frame, due: None }
    }

    pub fn with_line(frame: Frame, due: &str) -> Question {
        Question { frame, due: Some(due.to_string()) }
    }
}

/// Questions of one sort, made one by one because a long run has many.
pub struct Family {
    pub what: &'static str,
    questions: Box<dyn Iterator<Item = Question>>,
}

impl Family {
    pub fn of(what: &'static str, questions: impl IntoIterator<Item = Question> + 'static) -> Family {
        Family { what, questions: Box::new(questions.into_iter()) }
    }

    /// The questions that have a line due.
    pub fn judged(self) -> impl Iterator<Item = (Frame, String)> {
        self.questions.filter_map(|question| Some((question.frame, question.due?)))
    }
}

/// How often each answer was met, by the kind of the frame and the first word of the line.
#[derive(Clone, Debug, Default)]
pub struct Tally {
    met: BTreeMap<(u8, String), usize>,
}

impl Tally {
    fn count(&mut self, frame: &Frame, line: &str) {
        let word = line.split(' ').next().unwrap_or_default();
        *self.met.entry((frame.kind, word.to_string())).or_default() += 1;
    }

    pub fn add(&mut self, other: &Tally) {
        for (key, count) in &other.met {
            *self.met.entry(key.clone()).or_default() += count;
        }
    }

    pub fn frames(&self) -> usize {
        self.met.values().sum()
    }

    /// The answers to frames of a kind, by their first words.
    pub fn answers(&self, kind: u8) -> BTreeMap<&str, usize> {
        let of_kind = self.met.iter().filter(|((given, _), _)| *given == kind);
        of_kind.map(|((_, word), count)| (word.as_str(), *count)).collect()
    }
}

/// The line that the reference gives on a frame; nothing where it cannot be asked.
pub type Expectation = fn(&Frame) -> Option<String>;

/// A program that is being asked, and where it differed so far.
pub struct Questioning {
    program: Program,
    expected: Expectation,
    differing: usize,
    shown: Vec<String>,
}

impl Questioning {
    /// Starts asking a program; nothing where the programs are left out.
    pub fn of(name: &str, expected: Expectation) -> Option<Questioning> {
        let program = Program::unless_left_out(name, name)?;
        assert_eq!(program.run(&[], &[]), b"", "nothing is answered to no frame");
        Some(Questioning { program, expected, differing: 0, shown: Vec::new() })
    }

    /// Holds the program to the reference, and both to the lines that are due.
    pub fn ask(&mut self, mut family: Family) -> Tally {
        let mut tally = Tally::default();
        let most_shown = self.shown.len() + SHOWN;
        loop {
            let batch: Vec<Question> = family.questions.by_ref().take(FRAMES_A_RUN).collect();
            if batch.is_empty() {
                return tally;
            }
            let frames: Vec<&Frame> = batch.iter().map(|question| &question.frame).collect();
            for (question, line) in batch.iter().zip(self.lines_of(&frames)) {
                self.hold(family.what, question, &line, most_shown);
                tally.count(&question.frame, &line);
            }
        }
    }

    fn hold(&mut self, what: &str, question: &Question, line: &str, most_shown: usize) {
        let frame = &question.frame;
        let expected = (self.expected)(frame);
        let expected = expected.unwrap_or_else(|| panic!("{what}: nothing is expected of {}", frame.shown()));
        let is_due = question.due.as_ref().is_none_or(|due| due == line);
        if line == expected && is_due {
            return;
        }
        self.differing += 1;
        if self.shown.len() < most_shown {
            let due = question.due.as_ref().map(|due| format!("{due:?} is due, ")).unwrap_or_default();
            let mut difference = format!(
                "{what}: {due}the reference says {expected:?}, the program {line:?}\n  on {}",
                frame.shown()
            );
            if line != expected {
                difference += &format!("\n  smallest: {}", self.smallest_difference(frame).shown());
            }
            self.shown.push(difference);
        }
    }

    /// A frame on which the program and the reference differ, with octets taken out while they
    /// still do.
    fn smallest_difference(&self, frame: &Frame) -> Frame {
        let smallest = shrink(&frame.octets, &mut |shorter| {
            let shorter = frame.about(shorter);
            (self.expected)(&shorter).is_some_and(|expected| self.lines_of(&[&shorter])[0] != expected)
        });
        frame.about(&smallest)
    }

    /// The lines that the program writes for these frames.
    fn lines_of(&self, frames: &[&Frame]) -> Vec<String> {
        let mut input = Vec::new();
        for frame in frames {
            frame.write(&mut input);
        }
        let written = String::from_utf8(self.program.run(&[], &input)).expect("the program writes ASCII");
        assert!(written.is_empty() || written.ends_with('\n'), "the last line ends in LF");
        let lines: Vec<String> = written.split_terminator('\n').map(str::to_string).collect();
        assert_eq!(lines.len(), frames.len(), "one line for each frame");
        lines
    }

    /// Fails if the program differed anywhere.
    pub fn finish(self) {
        assert!(self.differing == 0, "frames that differ: {}\n{}", self.differing, self.shown.join("\n"));
    }
}

#[cfg(test)]
mod tests {
    use super::{Frame, Tally};

    #[test]
    fn a_frame_is_its_kind_its_length_and_its_octets() {
        let mut input = Vec::new();
        Frame::of_kind(3, vec![7, 8]).write(&mut input);
        Frame::of_kind(9, vec![1; 0x102]).write(&mut input);
        assert_eq!(input[..9], [3, 0, 2, 7, 8, 9, 1, 2, 1]);
        assert_eq!(input.len(), 5 + 3 + 0x102);
    }

    #[test]
    fn answers_are_counted_by_kind_and_first_word() {
        let mut tally = Tally::default();
        tally.count(&Frame::of_kind(0, vec![]), "unsound at 3");
        tally.count(&Frame::of_kind(0, vec![]), "unsound at 4");
        tally.count(&Frame::of_kind(1, vec![]), "value");
        tally.add(&tally.clone());
        assert_eq!(tally.frames(), 6);
        assert_eq!(tally.answers(0).into_iter().collect::<Vec<_>>(), [("unsound", 4)]);
    }
}
