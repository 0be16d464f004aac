//! The encoder: elements of DER as a tree.
//!
//! Every node can carry marks. After encoding, each mark has the start and the whole length of its
//! node, so what a test expects comes from what was built and never from reading octets back.

/// What is to be remembered about a node.
#[derive(Clone, Debug, PartialEq, Eq)]
pub enum Mark {
    /// A finding is expected here.
    Breaks(u16),
    /// The refusal of this number is expected here.
    Refused(u8),
    /// A name to find the node by, in the tree and in the encoding.
    Name(&'static str),
}

/// How the length of an element is written. All but the first are faults.
#[derive(Clone, Copy, Debug, PartialEq, Eq)]
pub enum LengthForm {
    Shortest,
    /// Long form with this many octets, however many would do.
    Long(usize),
    /// `80`, with the two zero octets at the end.
    Indefinite,
    /// The shortest form of this number, whatever the contents are.
    Claimed(usize),
}

#[derive(Clone, Debug, PartialEq, Eq)]
pub struct Element {
    pub identifier: u8,
    pub length_form: LengthForm,
    pub contents: Vec<Part>,
    pub marks: Vec<Mark>,
}

/// A stretch of an element's contents. A BIT STRING that holds a key is an octet and then an
/// element.
#[derive(Clone, Debug, PartialEq, Eq)]
pub enum Part {
    Octets(Vec<u8>),
    Element(Element),
}

#[derive(Clone, Copy, Debug, PartialEq, Eq)]
pub struct Place {
    pub start: usize,
    pub length: usize,
}

#[derive(Clone, Debug, PartialEq, Eq)]
pub struct Encoded {
    pub octets: Vec<u8>,
    pub marks: Vec<(Mark, Place)>,
}

impl Encoded {
    /// The place of the only node with this name.
    pub fn place_of(&self, name: &str) -> Place {
        let mut places =
            self.marks.iter().filter(|(mark, _)| matches!(mark, Mark::Name(given) if *given == name));
        let (_, place) = places.next().unwrap_or_else(|| panic!("no node is named {name}"));
        assert!(places.next().is_none(), "several nodes are named {name}");
        *place
    }
}

pub mod tag {
    pub const BOOLEAN: u8 = 0x01;
    pub const INTEGER: u8 = 0x02;
    pub const BIT_STRING: u8 = 0x03;
    pub const OCTET_STRING: u8 = 0x04;
    pub const NULL: u8 = 0x05;
    pub const OBJECT_IDENTIFIER: u8 = 0x06;
    pub const ENUMERATED: u8 = 0x0A;
    pub const UTF8_STRING: u8 = 0x0C;
    pub const PRINTABLE_STRING: u8 = 0x13;
    pub const TELETEX_STRING: u8 = 0x14;
    pub const IA5_STRING: u8 = 0x16;
    pub const UTC_TIME: u8 = 0x17;
    pub const GENERALIZED_TIME: u8 = 0x18;
    pub const BMP_STRING: u8 = 0x1E;
    pub const SEQUENCE: u8 = 0x30;
    pub const SET: u8 = 0x31;

    /// A primitive element of the context class.
    pub const fn context(number: u8) -> u8 {
        0x80 | number
    }

    /// A constructed element of the context class.
    pub const fn context_constructed(number: u8) -> u8 {
        0xA0 | number
    }
}

impl Element {
    pub fn primitive(identifier: u8, octets: &[u8]) -> Element {
        Element::of_parts(identifier, vec![Part::Octets(octets.to_vec())])
    }

    pub fn constructed(identifier: u8, members: Vec<Element>) -> Element {
        Element::of_parts(identifier, members.into_iter().map(Part::Element).collect())
    }

    pub fn of_parts(identifier: u8, contents: Vec<Part>) -> Element {
        Element { identifier, length_form: LengthForm::Shortest, contents, marks: Vec::new() }
    }

    pub fn sequence(members: Vec<Element>) -> Element {
        Element::constructed(tag::SEQUENCE, members)
    }

    /// A SET OF: its members in ascending order of their encodings.
    pub fn set_of(mut members: Vec<Element>) -> Element {
        members.sort_by_key(Element::octets);
        Element::constructed(tag::SET, members)
    }

    pub fn boolean(value: bool) -> Element {
        Element::primitive(tag::BOOLEAN, &[if value { 0xFF } else { 0 }])
    }

    pub fn integer(contents: &[u8]) -> Element {
        Element::primitive(tag::INTEGER, contents)
    }

    /// The INTEGER of a number given without sign, in the fewest octets.
    pub fn unsigned(number: &[u8]) -> Element {
        let digits: Vec<u8> = number.iter().copied().skip_while(|octet| *octet == 0).collect();
        match digits.first() {
            None => Element::integer(&[0]),
            Some(first) if *first >= 0x80 => Element::integer(&[&[0], digits.as_slice()].concat()),
            Some(_) => Element::integer(&digits),
        }
    }

    pub fn null() -> Element {
        Element::primitive(tag::NULL, &[])
    }

    pub fn object_identifier(contents: &[u8]) -> Element {
        Element::primitive(tag::OBJECT_IDENTIFIER, contents)
    }

    pub fn octet_string(octets: &[u8]) -> Element {
        Element::primitive(tag::OCTET_STRING, octets)
    }

    pub fn bit_string(unused: u8, octets: &[u8]) -> Element {
        Element::primitive(tag::BIT_STRING, &[&[unused], octets].concat())
    }

    pub fn printable(text: &str) -> Element {
        Element::primitive(tag::PRINTABLE_STRING, text.as_bytes())
    }

    pub fn utf8(text: &str) -> Element {
        Element::primitive(tag::UTF8_STRING, text.as_bytes())
    }

    pub fn named(mut self, name: &'static str) -> Element {
        self.marks.push(Mark::Name(name));
        self
    }

    pub fn breaking(mut self, rule: u16) -> Element {
        self.marks.push(Mark::Breaks(rule));
        self
    }

    pub fn refused(mut self, number: u8) -> Element {
        self.marks.push(Mark::Refused(number));
        self
    }

    pub fn with_length_form(mut self, form: LengthForm) -> Element {
        self.length_form = form;
        self
    }

    /// The members, where this element holds elements alone.
    pub fn members(&self) -> impl Iterator<Item = &Element> {
        self.contents.iter().filter_map(|part| match part {
            Part::Element(element) => Some(element),
            Part::Octets(_) => None,
        })
    }

    pub fn members_mut(&mut self) -> impl Iterator<Item = &mut Element> {
        self.contents.iter_mut().filter_map(|part| match part {
            Part::Element(element) => Some(element),
            Part::Octets(_) => None,
        })
    }

    pub fn push(&mut self, member: Element) {
        self.contents.push(Part::Element(member));
    }

    pub fn insert(&mut self, position: usize, member: Element) {
        self.contents.insert(position, Part::Element(member));
    }

    /// Puts other contents of plain octets in place of these.
    pub fn set_octets(&mut self, octets: &[u8]) {
        self.contents = vec![Part::Octets(octets.to_vec())];
    }

    /// The first node of this name, this one included, in the order of the encoding.
    pub fn find(&mut self, name: &str) -> &mut Element {
        self.try_find(name).unwrap_or_else(|| panic!("no node is named {name}"))
    }

    fn try_find(&mut self, name: &str) -> Option<&mut Element> {
        if self.is_named(name) {
            return Some(self);
        }
        self.members_mut().find_map(|member| member.try_find(name))
    }

    fn is_named(&self, name: &str) -> bool {
        self.marks.iter().any(|mark| matches!(mark, Mark::Name(given) if *given == name))
    }

    /// The same encoding, with all that is not on the way to the first node of this name put down as
    /// octets: quick to encode again when only that node changes. Marks beside the way are lost.
    pub fn encoded_around(mut self, name: &str) -> Element {
        let mut is_found = self.is_named(name);
        for part in &mut self.contents {
            let Part::Element(member) = part else { continue };
            *part = if !is_found && member.try_find(name).is_some() {
                is_found = true;
                Part::Element(member.clone().encoded_around(name))
            } else {
                Part::Octets(member.octets())
            };
        }
        self
    }

    /// Takes the first member with this name out of this element.
    pub fn remove(&mut self, name: &str) -> Element {
        let is_it = |part: &Part| matches!(part, Part::Element(element) if element.is_named(name));
        let position =
            self.contents.iter().position(is_it).unwrap_or_else(|| panic!("no member is named {name}"));
        match self.contents.remove(position) {
            Part::Element(element) => element,
            Part::Octets(_) => unreachable!("only an element has a name"),
        }
    }

    pub fn octets(&self) -> Vec<u8> {
        self.encode().octets
    }

    pub fn encode(&self) -> Encoded {
        let inside = encode_parts(&self.contents);
        let (mut octets, end) = (self.header(inside.octets.len()), self.end_octets());
        let header = octets.len();
        octets.extend(inside.octets);
        octets.extend(end);
        let own = Place { start: 0, length: octets.len() };
        let mut marks: Vec<_> = self.marks.iter().map(|mark| (mark.clone(), own)).collect();
        marks.extend(shifted(inside.marks, header));
        Encoded { octets, marks }
    }

    fn header(&self, contents: usize) -> Vec<u8> {
        let mut header = vec![self.identifier];
        match self.length_form {
            LengthForm::Shortest => header.extend(shortest_length(contents)),
            LengthForm::Claimed(length) => header.extend(shortest_length(length)),
            LengthForm::Long(count) => header.extend(long_length(contents, count)),
            LengthForm::Indefinite => header.push(0x80),
        }
        header
    }

    fn end_octets(&self) -> &'static [u8] {
        match self.length_form {
            LengthForm::Indefinite => &[0, 0],
            _ => &[],
        }
    }
}

/// A length in the fewest octets (X.690, 10.1).
pub fn shortest_length(length: usize) -> Vec<u8> {
    match length {
        0..=0x7F => vec![length as u8],
        0x80..=0xFF => long_length(length, 1),
        0x100..=0xFFFF => long_length(length, 2),
        _ => long_length(length, 3),
    }
}

/// A length in the long form with `count` octets after the first.
pub fn long_length(length: usize, count: usize) -> Vec<u8> {
    let mut octets = vec![0x80 | count as u8];
    for position in (0..count).rev() {
        octets.push(if position < 8 { (length >> (8 * position)) as u8 } else { 0 });
    }
    octets
}

/// The octets of parts one after the other, without an element around them.
pub fn octets_of(parts: &[Part]) -> Vec<u8> {
    encode_parts(parts).octets
}

fn encode_parts(parts: &[Part]) -> Encoded {
    let mut whole = Encoded { octets: Vec::new(), marks: Vec::new() };
    for part in parts {
        match part {
            Part::Octets(octets) => whole.octets.extend(octets),
            Part::Element(element) => {
                let encoded = element.encode();
                let start = whole.octets.len();
                whole.marks.extend(shifted(encoded.marks, start));
                whole.octets.extend(encoded.octets);
            }
        }
    }
    whole
}

fn shifted(marks: Vec<(Mark, Place)>, by: usize) -> impl Iterator<Item = (Mark, Place)> {
    marks
        .into_iter()
        .map(move |(mark, place)| (mark, Place { start: place.start + by, length: place.length }))
}

#[cfg(test)]
mod tests {
    use super::*;

    #[test]
    fn lengths_are_written_in_the_fewest_octets() {
        assert_eq!(shortest_length(0x7F), [0x7F]);
        assert_eq!(shortest_length(0x80), [0x81, 0x80]);
        assert_eq!(shortest_length(0xFF), [0x81, 0xFF]);
        assert_eq!(shortest_length(0x100), [0x82, 0x01, 0x00]);
        assert_eq!(shortest_length(0x10000), [0x83, 0x01, 0x00, 0x00]);
        assert_eq!(long_length(5, 4), [0x84, 0, 0, 0, 5]);
    }

    #[test]
    fn marks_have_the_start_and_whole_length_of_their_nodes() {
        let inner = Element::integer(&[1, 2]).named("inner");
        let bits = Element::of_parts(tag::BIT_STRING, vec![Part::Octets(vec![0]), Part::Element(inner)])
            .named("bits");
        let long = Element::octet_string(&[0; 200]);
        let encoded = Element::sequence(vec![long, bits]).named("outer").encode();
        assert_eq!(encoded.place_of("outer"), Place { start: 0, length: encoded.octets.len() });
        assert_eq!(encoded.place_of("bits"), Place { start: 3 + 203, length: 7 });
        assert_eq!(encoded.place_of("inner"), Place { start: 3 + 203 + 3, length: 4 });
        assert_eq!(encoded.octets[209..213], [2, 2, 1, 2]);
    }

    #[test]
    fn what_is_encoded_around_a_node_leaves_the_encoding_as_it_was() {
        let inner = Element::sequence(vec![Element::null(), Element::integer(&[5]).named("five")]);
        let tree = Element::sequence(vec![inner.clone(), Element::sequence(vec![inner])]);
        let mut around = tree.clone().encoded_around("five");
        assert_eq!(around.octets(), tree.octets());
        assert_eq!(around.members().count(), 1);
        around.find("five").set_octets(&[6, 7]);
        assert_eq!(around.octets()[..10], [0x30, 17, 0x30, 6, 5, 0, 2, 2, 6, 7]);
    }

    #[test]
    fn faulty_lengths_are_written_as_asked() {
        let element = |form| Element::octet_string(&[7]).with_length_form(form).octets();
        assert_eq!(element(LengthForm::Shortest), [4, 1, 7]);
        assert_eq!(element(LengthForm::Long(2)), [4, 0x82, 0, 1, 7]);
        assert_eq!(element(LengthForm::Claimed(9)), [4, 9, 7]);
        assert_eq!(element(LengthForm::Indefinite), [4, 0x80, 7, 0, 0]);
    }

    #[test]
    fn members_of_a_set_ascend() {
        let set = Element::set_of(vec![Element::integer(&[2]), Element::null(), Element::integer(&[1])]);
        assert_eq!(set.octets(), [0x31, 8, 2, 1, 1, 2, 1, 2, 5, 0]);
    }

    #[test]
    fn numbers_without_sign_are_minimal() {
        assert_eq!(Element::unsigned(&[0, 0]).octets(), [2, 1, 0]);
        assert_eq!(Element::unsigned(&[0, 0x7F]).octets(), [2, 1, 0x7F]);
        assert_eq!(Element::unsigned(&[0x80]).octets(), [2, 2, 0, 0x80]);
    }
}
