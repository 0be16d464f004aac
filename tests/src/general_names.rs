//! The forms of a GeneralName, and the structures made of them.

use crate::certificate::Name;
use crate::element::{tag, Element};

pub fn dns(name: &str) -> Element {
    Element::primitive(tag::context(2), name.as_bytes())
}

pub fn uri(address: &str) -> Element {
    Element::primitive(tag::context(6), address.as_bytes())
}

pub fn mail(address: &str) -> Element {
    Element::primitive(tag::context(1), address.as_bytes())
}

pub fn internet_address(octets: &[u8]) -> Element {
    Element::primitive(tag::context(7), octets)
}

pub fn registered_identifier(contents: &[u8]) -> Element {
    Element::primitive(tag::context(8), contents)
}

/// A directory name. Name is a CHOICE, so its tag is explicit.
pub fn directory(name: &Name) -> Element {
    Element::constructed(tag::context_constructed(4), vec![name.element()])
}

pub fn other_name(kind: Vec<u8>, value: Element) -> Element {
    let value = Element::constructed(tag::context_constructed(0), vec![value]);
    Element::constructed(tag::context_constructed(0), vec![Element::object_identifier(&kind), value])
}

pub fn x400(contents: Vec<Element>) -> Element {
    Element::constructed(tag::context_constructed(3), contents)
}

pub fn edi_party(contents: Vec<Element>) -> Element {
    Element::constructed(tag::context_constructed(5), contents)
}

pub fn general_names(names: Vec<Element>) -> Element {
    Element::sequence(names)
}

pub fn access(method: Vec<u8>, location: Element) -> Element {
    Element::sequence(vec![Element::object_identifier(&method), location])
}

/// What a CRL distribution point says of where the list is.
pub fn full_name(names: Vec<Element>) -> Element {
    let names = Element::constructed(tag::context_constructed(0), names);
    Element::constructed(tag::context_constructed(0), vec![names])
}

/// A name relative to the issuer of the list: a SET under the tag [1].
pub fn relative_name(mut attributes: Vec<Element>) -> Element {
    attributes.sort_by_key(Element::octets);
    let set = Element::constructed(tag::context_constructed(1), attributes);
    Element::constructed(tag::context_constructed(0), vec![set])
}

pub fn reasons(unused: u8, octets: &[u8]) -> Element {
    Element::primitive(tag::context(1), &[&[unused], octets].concat())
}

pub fn list_issuer(names: Vec<Element>) -> Element {
    Element::constructed(tag::context_constructed(2), names)
}

pub fn point(fields: Vec<Element>) -> Element {
    Element::sequence(fields)
}

/// Name constraints of the lists that are not empty.
pub fn name_constraints(permitted: Vec<Element>, excluded: Vec<Element>) -> Element {
    let lists = [permitted, excluded].into_iter().zip(0..).filter(|(subtrees, _)| !subtrees.is_empty());
    let lists = lists.map(|(subtrees, number)| subtree_list(number, subtrees));
    Element::sequence(lists.collect())
}

/// The list of permitted subtrees (0) or of excluded ones (1).
pub fn subtree_list(number: u8, subtrees: Vec<Element>) -> Element {
    Element::constructed(tag::context_constructed(number), subtrees)
}

/// A subtree of names: where it starts, and how far from there the names are that it holds.
pub fn subtree(base: Element, distances: Vec<Element>) -> Element {
    let mut members = vec![base];
    members.extend(distances);
    Element::sequence(members)
}

/// An INTEGER under the tag [0].
pub fn minimum(contents: &[u8]) -> Element {
    Element::primitive(tag::context(0), contents)
}

/// An INTEGER under the tag [1].
pub fn maximum(contents: &[u8]) -> Element {
    Element::primitive(tag::context(1), contents)
}

pub fn policy(identifier: Vec<u8>, qualifiers: Vec<Element>) -> Element {
    let mut members = vec![Element::object_identifier(&identifier)];
    if !qualifiers.is_empty() {
        members.push(Element::sequence(qualifiers));
    }
    Element::sequence(members)
}

pub fn qualifier(identifier: Vec<u8>, value: Element) -> Element {
    Element::sequence(vec![Element::object_identifier(&identifier), value])
}

/// A named bit list: the given bits set, and no octet or bit after the last of them.
pub fn named_bits(bits: &[usize]) -> Element {
    let Some(last) = bits.iter().max() else {
        return Element::bit_string(0, &[]);
    };
    let mut octets = vec![0u8; last / 8 + 1];
    for bit in bits {
        octets[bit / 8] |= 0x80 >> (bit % 8);
    }
    Element::bit_string(7 - (last % 8) as u8, &octets)
}
