//! Refusals 4 and 5: sound DER, and SETs in order.

use crate::der::{self, Element};
use crate::Soundness;

/// "its depth is over 16 (outermost 1)"
const GREATEST_DEPTH: usize = 16;

/// Whether `octets` are one sound element with every SET in order; if not, where the first fault is.
///
/// A fault anywhere outweighs a SET out of order, for refusal 4 is tried before refusal 5.
pub fn soundness(octets: &[u8]) -> Soundness {
    let mut walk = Walk {
        first_unordered: None,
    };
    if let Err(place) = walk.check_outermost(octets) {
        return Soundness::Unsound(place);
    }
    match walk.first_unordered {
        Some(place) => Soundness::Unordered(place),
        None => Soundness::Sound,
    }
}

/// The element that `octets`, whose first stands at `start`, are exactly, if it is sound with every SET in order.
pub fn sound_element(octets: &[u8], start: usize) -> Option<Element<'_>> {
    match soundness(octets) {
        Soundness::Sound => Element::at_front_of(octets, start),
        Soundness::Unsound(_) | Soundness::Unordered(_) => None,
    }
}

/// "Walk by rising start, outer before inner." Each check answers with the place of the first faulty element.
struct Walk {
    /// The start of the first SET out of order among those walked so far.
    first_unordered: Option<usize>,
}

impl Walk {
    /// "One outermost element fills the bytes (else it is faulty, at 0)."
    fn check_outermost(&mut self, octets: &[u8]) -> Result<(), usize> {
        match Element::at_front_of(octets, 0) {
            Some(outermost) if outermost.whole().len() == octets.len() => {
                self.check_element(&outermost, 1)
            }
            _ => Err(0),
        }
    }

    fn check_element(&mut self, element: &Element, depth: usize) -> Result<(), usize> {
        if depth > GREATEST_DEPTH || !has_sound_type(element) {
            return Err(element.start());
        }
        if element.is_constructed() {
            self.check_list(element, depth + 1)?;
        }
        Ok(())
    }

    /// "In a constructed one, an element holds a list of elements, each again such an element, filling it exactly."
    fn check_list(&mut self, enclosing: &Element, depth: usize) -> Result<(), usize> {
        let mut members = enclosing.members();
        for member in members.by_ref() {
            self.check_element(&member, depth)?;
        }
        if let Some(place) = members.place_of_remainder() {
            return Err(place);
        }
        if enclosing.identifier() == der::SET && !is_ascending(enclosing) {
            self.note_unordered(enclosing.start());
        }
        Ok(())
    }

    /// An outer SET is noted after its inner ones, although it starts before them.
    fn note_unordered(&mut self, place: usize) {
        let first = self.first_unordered.map_or(place, |first| first.min(place));
        self.first_unordered = Some(first);
    }
}

/// "Every SET is a SET OF: members ascend as octet strings, equals allowed."
pub fn is_ascending(set: &Element) -> bool {
    set.members()
        .zip(set.members().skip(1))
        .all(|(member, next)| member.whole() <= next.whole())
}

/// Faulty: "or its universal type is broken".
fn has_sound_type(element: &Element) -> bool {
    let is_universal = element.identifier() & 0xC0 == 0;
    if !is_universal {
        return true;
    }
    let number = element.identifier() & 0x1F;
    // "SEQUENCE, SET and universal 8, 11 and 29 constructed, all others primitive"
    let must_be_constructed = matches!(number, 16 | 17 | 8 | 11 | 29);
    if element.is_constructed() != must_be_constructed {
        return false;
    }
    match number {
        1 => is_boolean(element.contents()),
        2 | 10 => is_integer(element.contents()),
        3 => is_bit_string(element.contents()),
        5 => element.contents().is_empty(),
        6 => is_object_identifier(element.contents()),
        _ => true,
    }
}

/// "BOOLEAN one octet 00 or FF"
fn is_boolean(contents: &[u8]) -> bool {
    matches!(contents, [0x00] | [0xFF])
}

/// "INTEGER and ENUMERATED non-empty, minimal two's complement"
pub fn is_integer(contents: &[u8]) -> bool {
    match contents {
        [] => false,
        [0x00, second, ..] => *second >= 0x80,
        [0xFF, second, ..] => *second < 0x80,
        _ => true,
    }
}

/// "BIT STRING first octet 0 to 7, unused bits zero, 0 if nothing follows"
pub fn is_bit_string(contents: &[u8]) -> bool {
    match contents {
        [] => false,
        [unused] => *unused == 0,
        [unused, .., last] => *unused <= 7 && last.trailing_zeros() >= u32::from(*unused),
    }
}

/// "OID non-empty, no arc starting 80, last octet below 80"
pub fn is_object_identifier(contents: &[u8]) -> bool {
    let mut starts_an_arc = true;
    for &octet in contents {
        if starts_an_arc && octet == 0x80 {
            return false;
        }
        starts_an_arc = octet < 0x80;
    }
    !contents.is_empty() && starts_an_arc
}

#[cfg(test)]
mod tests {
    use super::*;
    use Soundness::{Sound, Unordered, Unsound};

    #[test]
    fn the_examples_on_the_edge() {
        assert_eq!(soundness(&[0x30, 0x00]), Sound);
        assert_eq!(soundness(&[0x30, 0x81, 0x00]), Unsound(0));
        assert_eq!(soundness(&[0x30, 0x80, 0x00, 0x00]), Unsound(0));
        assert_eq!(soundness(&[0x30, 0x00, 0x00]), Unsound(0));
        assert_eq!(soundness(&[0x02, 0x02, 0x00, 0x7F]), Unsound(0));
        assert_eq!(soundness(&[0x02, 0x02, 0x00, 0x80]), Sound);
        assert_eq!(soundness(&[0x02, 0x01, 0x80]), Sound);
        assert_eq!(soundness(&[0x30, 0x03, 0x01, 0x01, 0x01]), Unsound(2));
        assert_eq!(soundness(&[0x31, 0x06, 2, 1, 2, 2, 1, 1]), Unordered(0));
        assert_eq!(soundness(&[]), Unsound(0));
    }

    #[test]
    fn a_fault_outweighs_an_unordered_set_before_it() {
        let octets = [0x30, 11, 0x31, 6, 2, 1, 2, 2, 1, 1, 1, 1, 1];
        assert_eq!(soundness(&octets), Unsound(10));
    }

    #[test]
    fn an_outer_unordered_set_comes_before_an_inner_one() {
        let octets = [0x31, 11, 0x31, 6, 2, 1, 2, 2, 1, 1, 2, 1, 1];
        assert_eq!(soundness(&octets), Unordered(0));
        let octets = [0x30, 11, 0x31, 6, 2, 1, 2, 2, 1, 1, 2, 1, 1];
        assert_eq!(soundness(&octets), Unordered(2));
    }

    #[test]
    fn sixteen_levels_are_sound_and_seventeen_are_not() {
        fn nested(levels: usize) -> Vec<u8> {
            (0..levels)
                .rev()
                .flat_map(|inner| [0x30, 2 * inner as u8])
                .collect()
        }
        assert_eq!(soundness(&nested(16)), Sound);
        assert_eq!(soundness(&nested(17)), Unsound(32));
    }

    #[test]
    fn octets_behind_the_last_member_are_a_member() {
        assert_eq!(soundness(&[0x30, 3, 5, 0, 5]), Unsound(4));
        assert_eq!(soundness(&[0xA0, 3, 5, 0, 5]), Unsound(4));
    }

    #[test]
    fn bit_strings() {
        assert!(is_bit_string(&[0]));
        assert!(!is_bit_string(&[1]));
        assert!(!is_bit_string(&[]));
        assert!(is_bit_string(&[7, 0x80]));
        assert!(!is_bit_string(&[7, 0x40]));
        assert!(!is_bit_string(&[8, 0x00]));
        assert!(is_bit_string(&[7, 0x00]));
    }

    #[test]
    fn object_identifiers() {
        assert!(is_object_identifier(&[0x2A]));
        assert!(!is_object_identifier(&[]));
        assert!(!is_object_identifier(&[0x80, 0x01]));
        assert!(!is_object_identifier(&[0x2A, 0x80, 0x01]));
        assert!(is_object_identifier(&[0x2A, 0x81, 0x80, 0x01]));
        assert!(!is_object_identifier(&[0x2A, 0x81]));
    }
}
