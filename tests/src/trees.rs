//! Chance trees of sound DER with SETs in order, and small elements to put into other trees.

use crate::element::{tag, Element};
use crate::random::Random;

/// A sound tree whose outermost element stands at depth 1 and whose deepest at most at
/// `most_depth`.
pub fn tree(most_depth: usize, random: &mut Random) -> Element {
    if most_depth <= 1 || random.once_in(3) {
        return leaf(random);
    }
    let count = *random.choose(&[0, 1, 1, 2, 2, 3, 5]);
    let members: Vec<Element> = (0..count).map(|_| tree(most_depth - 1, random)).collect();
    match random.below(8) {
        0 | 1 => Element::set_of(members),
        2 => Element::constructed(*random.choose(&[0x28, 0x2B, 0x3D]), members),
        3 | 4 => Element::constructed(random.below(31) as u8 | *random.choose(&[0x60, 0xA0, 0xE0]), members),
        _ => Element::sequence(members),
    }
}

/// A sound primitive element.
pub fn leaf(random: &mut Random) -> Element {
    let length = if random.once_in(20) { random.between(100, 300) } else { random.below(6) };
    let octets = random.octets(length);
    match random.below(9) {
        0 => Element::boolean(random.once_in(2)),
        1 => Element::primitive(*random.choose(&[tag::INTEGER, tag::ENUMERATED]), &minimal(octets)),
        2 => bits(octets, random),
        3 => Element::null(),
        4 => Element::object_identifier(&arcs(octets)),
        5 => Element::primitive(random.below(31) as u8 | *random.choose(&[0x40, 0x80, 0xC0]), &octets),
        _ => Element::primitive(*random.choose(&FREE_TYPES), &octets),
    }
}

/// Universal types whose contents are free.
pub const FREE_TYPES: [u8; 20] = [4, 7, 9, 12, 13, 14, 15, 18, 19, 20, 21, 22, 23, 24, 25, 26, 27, 28, 30, 4];

/// Contents of an INTEGER in the fewest octets.
fn minimal(mut octets: Vec<u8>) -> Vec<u8> {
    if octets.is_empty() {
        octets.push(0);
    }
    if octets.len() > 1 && (octets[0] == 0 || octets[0] == 0xFF) {
        octets[0] = 0x2A;
    }
    octets
}

fn bits(mut octets: Vec<u8>, random: &mut Random) -> Element {
    let Some(last) = octets.last_mut() else {
        return Element::bit_string(0, &[]);
    };
    let unused = random.below(8) as u8;
    *last &= 0xFFu8 << unused;
    Element::bit_string(unused, &octets)
}

fn arcs(mut octets: Vec<u8>) -> Vec<u8> {
    octets.push(0x2A);
    for position in 0..octets.len() {
        let starts_an_arc = position == 0 || octets[position - 1] < 0x80;
        if starts_an_arc && octets[position] == 0x80 {
            octets[position] = 0x81;
        }
    }
    let last = octets.len() - 1;
    octets[last] &= 0x7F;
    octets
}

/// A small element, sound or not.
pub fn small_element(random: &mut Random) -> Element {
    if random.once_in(2) {
        return tree(3, random);
    }
    let length = random.below(4);
    Element::primitive(crate::mutation::interesting_octet(random), &random.octets(length))
}

/// A tree of the tags that extension values are made of, so that some come close to one.
pub fn value_like(most_depth: usize, random: &mut Random) -> Element {
    if most_depth <= 1 || random.once_in(3) {
        return value_like_leaf(random);
    }
    let count = *random.choose(&[0, 1, 1, 1, 2, 2, 3]);
    let members: Vec<Element> = (0..count).map(|_| value_like(most_depth - 1, random)).collect();
    match random.below(8) {
        0 => Element::set_of(members),
        1..=3 => Element::constructed(tag::context_constructed(random.below(6) as u8), members),
        _ => Element::sequence(members),
    }
}

fn value_like_leaf(random: &mut Random) -> Element {
    let length = random.below(4);
    let octets = random.octets(length);
    match random.below(10) {
        0 => Element::boolean(!random.once_in(4)),
        1 => Element::integer(&minimal(octets)),
        2 => bits(octets, random),
        3 => Element::null(),
        4 => Element::octet_string(&octets),
        5..=7 => Element::object_identifier(&arcs(octets)),
        _ => Element::primitive(tag::context(random.below(9) as u8), &octets),
    }
}
