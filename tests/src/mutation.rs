//! Chance changes of octets and of elements. Nothing is expected of them but that two linters
//! answer alike.

use crate::element::{Element, LengthForm, Part};
use crate::random::Random;

/// Changes a few octets: flips, insertions, deletions, exchanges, a cut, a stretch put elsewhere.
pub fn mutate_octets(octets: &mut Vec<u8>, random: &mut Random) {
    for _ in 0..random.between(1, 3) {
        if octets.is_empty() {
            octets.push(random.octet());
            continue;
        }
        let position = random.below(octets.len());
        match random.below(8) {
            0 => octets[position] ^= 1 << random.below(8),
            1 => octets[position] = interesting_octet(random),
            2 => octets.insert(position, interesting_octet(random)),
            3 => {
                octets.remove(position);
            }
            4 => {
                let other = random.below(octets.len());
                octets.swap(position, other);
            }
            5 => octets.truncate(position),
            6 => {
                let stretch = stretch_at(octets, position, random);
                let target = random.below(octets.len() + 1);
                octets.splice(target..target, stretch);
            }
            _ => octets[position] = octets[position].wrapping_add(if random.once_in(2) { 1 } else { 0xFF }),
        }
    }
}

fn stretch_at(octets: &[u8], position: usize, random: &mut Random) -> Vec<u8> {
    let most = (octets.len() - position).min(12);
    octets[position..position + random.between(1, most)].to_vec()
}

/// Octets that mean something in DER, and any other.
pub fn interesting_octet(random: &mut Random) -> u8 {
    const INTERESTING: [u8; 30] = [
        0x00, 0x01, 0x02, 0x03, 0x04, 0x05, 0x06, 0x0A, 0x0C, 0x10, 0x11, 0x13, 0x17, 0x18, 0x1F, 0x30, 0x31,
        0x7F, 0x80, 0x81, 0x82, 0x83, 0x84, 0x86, 0xA0, 0xA3, 0xA4, 0xBF, 0xFE, 0xFF,
    ];
    if random.once_in(4) {
        random.octet()
    } else {
        *random.choose(&INTERESTING)
    }
}

/// Changes one element of a tree: its identifier, its length, its contents or its neighbours.
/// Lengths around it follow.
pub fn mutate_element(tree: &mut Element, random: &mut Random) {
    let chosen = random.below(count(tree));
    let element = nth(tree, chosen).expect("the tree has as many elements as were counted");
    match random.below(9) {
        0 => element.identifier = interesting_octet(random),
        1 => element.identifier ^= 0x20,
        2 => element.length_form = LengthForm::Long(random.between(1, 9)),
        3 => element.length_form = LengthForm::Claimed(random.below(300)),
        4 => drop_part(element, random),
        5 => repeat_part(element, random),
        6 => exchange_parts(element, random),
        7 => {
            let length = random.below(6);
            element.set_octets(&random.octets(length));
        }
        _ => insert_something(element, random),
    }
}

fn count(element: &Element) -> usize {
    1 + element.members().map(count).sum::<usize>()
}

fn nth(element: &mut Element, position: usize) -> Option<&mut Element> {
    if position == 0 {
        return Some(element);
    }
    let mut left = position - 1;
    for member in element.members_mut() {
        let size = count(member);
        if left < size {
            return nth(member, left);
        }
        left -= size;
    }
    None
}

fn drop_part(element: &mut Element, random: &mut Random) {
    if !element.contents.is_empty() {
        element.contents.remove(random.below(element.contents.len()));
    }
}

fn repeat_part(element: &mut Element, random: &mut Random) {
    if !element.contents.is_empty() {
        let part = random.choose(&element.contents).clone();
        element.contents.insert(random.below(element.contents.len() + 1), part);
    }
}

fn exchange_parts(element: &mut Element, random: &mut Random) {
    if !element.contents.is_empty() {
        let (first, second) = (random.below(element.contents.len()), random.below(element.contents.len()));
        element.contents.swap(first, second);
    }
}

fn insert_something(element: &mut Element, random: &mut Random) {
    let position = random.below(element.contents.len() + 1);
    element.contents.insert(position, Part::Element(crate::trees::small_element(random)));
}

/// Puts a small element in place of one element of a tree.
pub fn replace_element(tree: &mut Element, random: &mut Random) {
    let chosen = random.below(count(tree));
    *nth(tree, chosen).expect("the tree has as many elements as were counted") =
        crate::trees::small_element(random);
}

/// Every change of a single octet, every octet taken out, and every cut that leaves something.
pub fn every_change_of_an_octet(octets: &[u8]) -> Vec<Vec<u8>> {
    let mut changed = Vec::new();
    for position in 0..octets.len() {
        for octet in (0..=255).filter(|octet| *octet != octets[position]) {
            let mut other = octets.to_vec();
            other[position] = octet;
            changed.push(other);
        }
        changed.push([&octets[..position], &octets[position + 1..]].concat());
        if position > 0 {
            changed.push(octets[..position].to_vec());
        }
    }
    changed
}

/// Every element with every identifier octet, and every element emptied, doubled, taken out, turned
/// round, and with a neighbour before or a member at its end. Lengths around it follow.
pub fn every_change_of_an_element(tree: &Element) -> Vec<Element> {
    let mut changed = Vec::new();
    for position in 0..count(tree) {
        let mut add = |change: &dyn Fn(&mut Element)| {
            let mut other = tree.clone();
            change(nth(&mut other, position).expect("the tree has as many elements as were counted"));
            changed.push(other);
        };
        for identifier in 0..=255 {
            add(&|element| element.identifier = identifier);
        }
        add(&|element| element.contents.clear());
        add(&|element| element.contents.reverse());
        for added in [Element::null(), Element::sequence(vec![]), Element::object_identifier(&[0x2A])] {
            add(&|element| element.push(added.clone()));
            add(&|element| element.insert(0, added.clone()));
        }
        for member in 0..members(tree, position) {
            add(&|element| drop(element.contents.remove(member)));
            add(&|element| element.contents.insert(member, element.contents[member].clone()));
        }
    }
    changed
}

/// How many parts the element at this position has.
fn members(tree: &Element, position: usize) -> usize {
    nth(&mut tree.clone(), position).map_or(0, |element| element.contents.len())
}
