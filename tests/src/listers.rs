//! The listers, the reference and the program `decklint`: both held to the listing that is due, octet for octet.

use reference::listing;

use crate::amount::say;
use crate::deck::{listing_of, Deck};
use crate::holding::{Comparison, AMPLE_ROOM};
use crate::lines::hold_form;
use crate::program::Program;
use crate::readers::MOST_OCTETS;

/// What the program prints for a deck, by what was put into it. "Past that it prints only `deck too long`."
pub fn listing_due(deck: &Deck) -> String {
    if deck.octets.len() > MOST_OCTETS {
        return "deck too long\n".to_string();
    }
    listing_of(&deck.events(AMPLE_ROOM), deck.blocks())
}

pub struct Listers {
    kind: String,
    reference: Comparison,
    /// None where the programs are left out.
    program: Option<Program>,
    printed: Comparison,
    octets: usize,
    longest: usize,
}

impl Listers {
    pub fn of(kind: &str) -> Listers {
        Listers {
            kind: kind.to_string(),
            reference: Comparison::of(&format!("{kind}: listed by the reference")),
            program: Program::unless_left_out("decklint", "the proved lister"),
            printed: Comparison::of(&format!("{kind}: listed by decklint")),
            octets: 0,
            longest: 0,
        }
    }

    /// Holds both listers to what the deck knows of itself, and gives that.
    pub fn hold(&mut self, what: &str, deck: &Deck) -> String {
        let due = listing_due(deck);
        self.hold_text(what, &deck.octets, &due);
        due
    }

    /// Holds both listers to this listing, and every line of it to its form.
    pub fn hold_text(&mut self, what: &str, deck: &[u8], due: &str) {
        let input = || format!("a deck of {} octets", deck.len());
        let misformed = hold_form(due).err();
        self.reference.note(what, difference(due, &listing(deck)).or(misformed), input);
        if let Some(program) = &self.program {
            let (written, said) = program.run_and_hear(&[], deck);
            let heard = (!said.is_empty()).then(|| format!("decklint said {said}"));
            self.printed.note(what, difference(due, &written).or(heard), input);
        }
        self.octets += due.len();
        self.longest = self.longest.max(due.len());
    }

    /// Says how many decks and octets were compared, and fails if any differed.
    pub fn finish(self) {
        self.reference.finish();
        say(&format!("{}: octets of listings, the longest of {}", self.kind, self.longest), self.octets);
        if self.program.is_some() {
            self.printed.finish();
        }
    }
}

/// Where a listing leaves the one that is due; none where they are the same. A listing can be too long to be shown whole.
fn difference(due: &str, answered: &[u8]) -> Option<String> {
    if due.as_bytes() == answered {
        return None;
    }
    let same = due.bytes().zip(answered).take_while(|(due, answered)| due == *answered).count();
    let before = due[..same].matches('\n').count();
    let line = |text: &str| text.lines().nth(before).map(str::to_string);
    let (expected, found) = (line(due), line(&String::from_utf8_lossy(answered)));
    Some(format!(
        "expected {} octets and answered {}, the same up to octet {same}\n  line {}: expected {expected:?}, answered {found:?}",
        due.len(),
        answered.len(),
        before + 1
    ))
}

#[cfg(test)]
mod tests {
    use super::difference;

    #[test]
    fn a_difference_is_shown_by_its_line() {
        let due = "one\ntwo\nthree\n";
        assert_eq!(difference(due, due.as_bytes()), None);
        let shown = |answered: &str| difference(due, answered.as_bytes()).expect("they differ");
        assert!(shown("one\ntwenty\nthree\n")
            .contains("the same up to octet 6\n  line 2: expected Some(\"two\")"));
        assert!(shown("one\ntwo\n").contains("line 3: expected Some(\"three\"), answered None"));
        assert!(shown("one\ntwo\nthree\nfour\n").contains("line 4: expected None, answered Some(\"four\")"));
    }
}
