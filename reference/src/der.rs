//! Elements of the Distinguished Encoding Rules (X.690): an identifier octet, a length, contents.

/// Identifier octets of the universal types that are read by name.
pub const BOOLEAN: u8 = 0x01;
pub const INTEGER: u8 = 0x02;
pub const BIT_STRING: u8 = 0x03;
pub const OCTET_STRING: u8 = 0x04;
pub const NULL: u8 = 0x05;
pub const OBJECT_IDENTIFIER: u8 = 0x06;
pub const UTF8_STRING: u8 = 0x0C;
pub const PRINTABLE_STRING: u8 = 0x13;
pub const UTC_TIME: u8 = 0x17;
pub const GENERALIZED_TIME: u8 = 0x18;
pub const SEQUENCE: u8 = 0x30;
pub const SET: u8 = 0x31;

/// The identifier octet of the primitive context-specific tag `[number]`.
pub const fn primitive(number: u8) -> u8 {
    0x80 | number
}

/// The identifier octet of the constructed context-specific tag `[number]`.
pub const fn constructed(number: u8) -> u8 {
    0xA0 | number
}

/// An element where it stands: its start, and its octets.
#[derive(Clone, Copy, Debug)]
pub struct Element<'a> {
    identifier: u8,
    start: usize,
    whole: &'a [u8],
    contents: &'a [u8],
}

impl<'a> Element<'a> {
    /// The element at the front of `octets`, whose first octet stands at `start`.
    ///
    /// None if the header is not one of sound DER, or if "its header or contents pass its container's end":
    /// the end of `octets`.
    pub fn at_front_of(octets: &'a [u8], start: usize) -> Option<Element<'a>> {
        let (&identifier, after_identifier) = octets.split_first()?;
        if !has_sound_tag_number(identifier) {
            return None;
        }
        let (contents_length, after_header) = split_length(after_identifier)?;
        let contents = after_header.get(..contents_length)?;
        let header_length = octets.len() - after_header.len();
        let whole = octets.get(..header_length + contents_length)?;
        Some(Element {
            identifier,
            start,
            whole,
            contents,
        })
    }

    pub fn identifier(&self) -> u8 {
        self.identifier
    }

    /// The place of the first octet of the header.
    pub fn start(&self) -> usize {
        self.start
    }

    /// All octets, header included.
    pub fn whole(&self) -> &'a [u8] {
        self.whole
    }

    pub fn contents(&self) -> &'a [u8] {
        self.contents
    }

    /// The place of the first octet of the contents.
    pub fn contents_start(&self) -> usize {
        self.start + (self.whole.len() - self.contents.len())
    }

    pub fn is_constructed(&self) -> bool {
        self.identifier & 0x20 != 0
    }

    /// The elements that a constructed element holds, from left to right.
    pub fn members(&self) -> Elements<'a> {
        Elements {
            rest: self.contents,
            start: self.contents_start(),
        }
    }
}

/// A list of elements, one behind the other.
#[derive(Clone, Debug)]
pub struct Elements<'a> {
    rest: &'a [u8],
    start: usize,
}

impl Elements<'_> {
    /// Where octets are left that begin with no element, if there are any: None once the list is read to its end.
    pub fn place_of_remainder(&self) -> Option<usize> {
        (!self.rest.is_empty()).then_some(self.start)
    }
}

impl<'a> Iterator for Elements<'a> {
    type Item = Element<'a>;

    fn next(&mut self) -> Option<Element<'a>> {
        let element = Element::at_front_of(self.rest, self.start)?;
        let length = element.whole.len();
        self.rest = self.rest.get(length..)?;
        self.start += length;
        Some(element)
    }
}

/// Faulty: "its tag number is 31 or universal 0".
fn has_sound_tag_number(identifier: u8) -> bool {
    let number = identifier & 0x1F;
    let is_universal = identifier & 0xC0 == 0;
    number != 31 && !(is_universal && number == 0)
}

/// The length at the front of `octets`, and the octets behind it.
///
/// Faulty: "its length is indefinite or not in the fewest octets".
fn split_length(octets: &[u8]) -> Option<(usize, &[u8])> {
    let (&first, rest) = octets.split_first()?;
    if first < 0x80 {
        return Some((usize::from(first), rest));
    }
    let count = usize::from(first & 0x7F);
    let length = long_length(rest.get(..count)?)?;
    Some((length, rest.get(count..)?))
}

/// The number in the octets of a long length; none of them at all is the indefinite form.
fn long_length(octets: &[u8]) -> Option<usize> {
    if *octets.first()? == 0 {
        return None;
    }
    let mut length: usize = 0;
    for &octet in octets {
        // A length beyond usize passes the end of any container.
        length = length.checked_mul(256)?.checked_add(usize::from(octet))?;
    }
    (length >= 0x80).then_some(length)
}

#[cfg(test)]
mod tests {
    use super::*;

    fn contents_length(octets: &[u8]) -> Option<usize> {
        Element::at_front_of(octets, 0).map(|element| element.contents().len())
    }

    #[test]
    fn lengths_stand_in_the_fewest_octets() {
        assert_eq!(contents_length(&[0x04, 0x00]), Some(0));
        assert_eq!(contents_length(&[0x04, 0x81, 0x00]), None);
        assert_eq!(contents_length(&[0x30, 0x80, 0x00, 0x00]), None);

        let mut long = vec![0x04, 0x81, 0x7F];
        long.resize(3 + 0x7F, 0);
        assert_eq!(contents_length(&long), None);

        let mut long = vec![0x04, 0x81, 0x80];
        long.resize(3 + 0x80, 0);
        assert_eq!(contents_length(&long), Some(0x80));
        long.pop();
        assert_eq!(contents_length(&long), None);

        let mut long = vec![0x04, 0x82, 0x00, 0x80];
        long.resize(4 + 0x80, 0);
        assert_eq!(contents_length(&long), None);
    }

    #[test]
    fn a_length_beyond_every_container_is_no_element() {
        let mut octets = vec![0x04, 0xFF];
        octets.resize(2 + 127 + 4, 0xFF);
        assert_eq!(contents_length(&octets), None);
        assert_eq!(
            contents_length(&[0x04, 0x88, 255, 255, 255, 255, 255, 255, 255, 255]),
            None
        );
    }

    #[test]
    fn tag_numbers_31_and_universal_0_are_faulty() {
        for identifier in [0x00, 0x20, 0x1F, 0x3F, 0x5F, 0x9F, 0xBF, 0xFF] {
            assert_eq!(contents_length(&[identifier, 0x00]), None);
        }
        for identifier in [0x40, 0x80, 0xA0, 0xC0, 0x1E, 0xBE] {
            assert_eq!(contents_length(&[identifier, 0x00]), Some(0));
        }
    }
}
