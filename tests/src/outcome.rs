//! What the program `answers` writes: lines, and behind a line the room that was lent.

use reference::{Answer, Refusal};

use crate::entries::{octets_of, ENTRY};

/// A line, and the room as the call left it; no octet where no room is written.
#[derive(Clone, Debug, Default, PartialEq, Eq)]
pub struct Outcome {
    pub line: String,
    pub room: Vec<u8>,
}

impl Outcome {
    /// A line with no room behind it.
    pub fn without_room(line: String) -> Outcome {
        Outcome { line, room: Vec::new() }
    }

    /// The outcome that an answer calls for: entries at the front of the room, and the rest as it
    /// was; all of it as it was on refusal.
    pub fn of(answer: &Answer, room: usize) -> Outcome {
        let mut octets = fresh_room(room);
        put_report(answer, &mut octets);
        Outcome { line: line_of(answer), room: octets }
    }

    /// The first of the outcomes that a program wrote, with a room of this length behind its line.
    /// What was written after it stays.
    pub fn take(written: &mut &[u8], room: usize) -> Outcome {
        let mut outcome = Outcome::take_line(written);
        outcome.take_room(written, room);
        outcome
    }

    /// The same without a room.
    pub fn take_line(written: &mut &[u8]) -> Outcome {
        let end = written.iter().position(|octet| *octet == b'\n').expect("a line ends in LF");
        let line = String::from_utf8_lossy(&written[..end]).into_owned();
        *written = &written[end + 1..];
        Outcome::without_room(line)
    }

    /// Takes the room's octets from behind the line.
    pub fn take_room(&mut self, written: &mut &[u8], room: usize) {
        let (room, rest) = written.split_at_checked(room).expect("the whole room follows its line");
        self.room = room.to_vec();
        *written = rest;
    }

    /// Where this outcome is another than the one that is due, in words.
    fn difference_from(&self, due: &Outcome) -> Option<String> {
        if self.line != due.line {
            return Some(format!("{:?} is due, and it was {:?}", due.line, self.line));
        }
        if self.room == due.room {
            return None;
        }
        let place = self.room.iter().zip(&due.room).take_while(|(octet, due)| octet == due).count();
        let entry_at =
            |room: &[u8]| room.iter().skip(place - place % ENTRY).take(ENTRY).copied().collect::<Vec<u8>>();
        let (due_entry, entry) = (entry_at(&due.room), entry_at(&self.room));
        Some(format!(
            "{:?}: the room differs at octet {place}, where {due_entry:?} is due and it was {entry:?}",
            self.line
        ))
    }
}

/// The first outcome that is another than the one that is due, in words.
pub fn first_difference(due: &[Outcome], outcomes: &[Outcome]) -> Option<String> {
    let none = Outcome::default();
    (0..due.len().max(outcomes.len())).find_map(|position| {
        let [due, outcome] = [due, outcomes].map(|outcomes| outcomes.get(position).unwrap_or(&none));
        Some(format!("step {position}: {}", outcome.difference_from(due)?))
    })
}

/// What the program writes of an answer.
pub fn line_of(answer: &Answer) -> String {
    match answer {
        Answer::Refused(refusal) => refusal_line(refusal),
        Answer::Report(entries) => format!("findings {}", entries.len()),
    }
}

pub fn refusal_line(Refusal { number, side, place }: &Refusal) -> String {
    format!("refused {number} side {side} at {place}")
}

/// The entries of an answer go to the front of the room, and the rest stays.
pub fn put_report(answer: &Answer, room: &mut [u8]) {
    if let Answer::Report(entries) = answer {
        room[..ENTRY * entries.len()].copy_from_slice(&octets_of(entries));
    }
}

/// The room that the program lends: no octet is like its neighbours or like those 256 places on.
pub fn fresh_room(length: usize) -> Vec<u8> {
    (0..length).map(|place| (place % 251) as u8).collect()
}

#[cfg(test)]
mod tests {
    use super::{first_difference, Outcome};
    use crate::entries::entry;
    use reference::Answer;

    fn of_room(line: &str, room: &[u8]) -> Outcome {
        Outcome { line: line.to_string(), room: room.to_vec() }
    }

    #[test]
    fn a_report_stands_at_the_front_of_the_room() {
        let report = Answer::Report(vec![entry(104, 1, 3)]);
        assert_eq!(Outcome::of(&report, 10), of_room("findings 1", &[0, 104, 0, 1, 0, 3, 0, 1, 8, 9]));
    }

    #[test]
    fn outcomes_are_taken_one_by_one() {
        let mut written: &[u8] = b"findings 0\n\0\x01lost 1 short\nmore";
        assert_eq!(Outcome::take(&mut written, 2), of_room("findings 0", &[0, 1]));
        assert_eq!(Outcome::take_line(&mut written), of_room("lost 1 short", &[]));
        assert_eq!(written, b"more");
    }

    #[test]
    fn the_first_difference_is_told() {
        let due = [of_room("a", &[1, 2]), of_room("b", &[]), of_room("c", &[3])];
        assert_eq!(first_difference(&due, &due), None);
        let mut room_changed = due.clone();
        room_changed[2].room[0] = 4;
        let one_more = [&due[..], &due[1..2]].concat();
        let one_missing = [&due[..1], &due[2..]].concat();
        for (outcomes, place) in [
            (&room_changed[..], "step 2: "),
            (&one_more, "step 3: "),
            (&one_missing, "step 1: "),
            (&[], "step 0: "),
        ] {
            let difference = first_difference(&due, outcomes).expect("it differs");
            assert!(difference.starts_with(place), "{difference}");
        }
    }

    #[test]
    fn a_room_differs_by_an_entry() {
        let due = [of_room("findings 2", &[0, 104, 0, 1, 0, 3, 0, 1, 0, 105, 0, 9, 0, 4, 0, 1])];
        let wrong = [of_room("findings 2", &[0, 104, 0, 1, 0, 3, 0, 1, 0, 105, 0, 9, 0, 4, 0, 2])];
        let told = "step 0: \"findings 2\": the room differs at octet 15, \
                    where [0, 105, 0, 9, 0, 4, 0, 1] is due and it was [0, 105, 0, 9, 0, 4, 0, 2]";
        assert_eq!(first_difference(&due, &wrong).as_deref(), Some(told));
    }
}
