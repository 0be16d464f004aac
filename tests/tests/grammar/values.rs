//! Questions about extension values.

use super::*;
use comparison::general_names::*;

fn value(slot: u8, octets: Vec<u8>) -> Question {
    Question::open(Frame::of_kind(kind_of_value(slot), octets))
}

fn judged_value(slot: u8, octets: Vec<u8>, is_value: bool) -> Question {
    Question::with_line(Frame::of_kind(kind_of_value(slot), octets), line_of_value(is_value))
}

pub fn judged() -> Vec<Family> {
    vec![
        Family::of("values by hand", by_hand(VALUES_BY_HAND)),
        Family::of("bad values", all_bad_values()),
        Family::of("plain values, values on the edge and values with everything", all_good_values()),
        Family::of("values of correct certificates", values_of_correct_certificates().take(cases(12_000))),
        Family::of("named bit lists, numbers and identifiers of one and two octets", short_contents()),
        Family::of("values of the greatest depth and of many octets", values_at_limits()),
    ]
}

pub fn open() -> Vec<Family> {
    vec![
        Family::of("values offered to every extension", values_offered_to_all()),
        Family::of("every identifier octet with chosen contents, as values", every_identifier()),
        Family::of("values with every change of an octet", values_with_octets_changed()),
        Family::of("values with every change of an element", values_with_elements_changed()),
        Family::of("values, mutated", mutated_values().take(cases(40_000))),
        Family::of("random trees as values", trees_as_values().take(cases(40_000))),
    ]
}

fn all_bad_values() -> Vec<Question> {
    let of_slot = |slot: u8| {
        let values = bad_values(slot).into_iter();
        values.map(move |value| judged_value(slot, octets_of(&value.parts), false))
    };
    SLOTS.flat_map(of_slot).collect()
}

/// Good values of an extension that are known beforehand.
fn good_values(slot: u8) -> Vec<Vec<u8>> {
    let judging = ALL.iter().filter(|profile| standing(slot, **profile).is_judged());
    let mut values: Vec<Vec<u8>> = judging.map(|profile| plain_value(slot, *profile).octets()).collect();
    values.extend(edge_values(slot).iter().map(|(value, _)| octets_of(&value.parts)));
    values.push(fullest_value(slot).octets());
    values
}

fn all_good_values() -> Vec<Question> {
    let of_slot =
        |slot: u8| good_values(slot).into_iter().map(move |octets| judged_value(slot, octets, true));
    SLOTS.flat_map(of_slot).collect()
}

/// The values of a correct pair that its profile judges.
fn values_of(pair: &Pair) -> Vec<(u8, Vec<Part>)> {
    let mut values = Vec::new();
    for slot in SLOTS.filter(|slot| standing(*slot, pair.profile).is_judged()) {
        let identifier = identifier_of(slot);
        let mut extensions = pair.certificate.extensions.iter();
        if let Some(extension) = extensions.find(|extension| extension.identifier == identifier) {
            values.push((slot, extension.value.clone()));
        }
    }
    values
}

fn values_of_correct_certificates() -> impl Iterator<Item = Question> {
    let mut random = Random::for_purpose("values of correct certificates");
    let values = (0..).flat_map(move |number: usize| {
        let profile = ALL[number % ALL.len()];
        values_of(&correct(profile, &mut random))
    });
    values.map(|(slot, parts)| judged_value(slot, octets_of(&parts), true))
}

/// Contents so short that the rules can be worked out for all of them.
fn short_contents() -> Vec<Question> {
    let mut questions = Vec::new();
    for first in 0..=255u8 {
        for unused in 0..=9 {
            questions.extend(named_bit_lists(unused, first));
        }
        questions.push(judged_value(2, vec![0x30, 3, 2, 1, first], first < 0x80));
        questions.extend(distances(&[first], (1..0x80).contains(&first), first < 0x80));
        questions.push(judged_value(1, vec![0x30, 3, 0x82, 1, first], true));
        questions.push(judged_value(7, vec![0x30, 3, 0x88, 1, first], first < 0x80));
        questions.push(judged_value(5, vec![0x30, 3, 6, 1, first], first < 0x80));
        for second in [0, 1, 0x7F, 0x80, 0x81, 0xFE, 0xFF] {
            let is_minimal = !(first == 0 && second < 0x80 || first == 0xFF && second >= 0x80);
            let is_identifier = first != 0x80 && second < 0x80;
            let is_count = is_minimal && first < 0x80;
            questions.push(judged_value(2, vec![0x30, 4, 2, 2, first, second], is_count));
            questions.extend(distances(&[first, second], is_count, is_count));
            questions.push(judged_value(1, vec![0x30, 4, 0x82, 2, first, second], is_minimal));
            questions.push(judged_value(7, vec![0x30, 4, 0x88, 2, first, second], is_identifier));
            questions.push(judged_value(5, vec![0x30, 4, 6, 2, first, second], is_identifier));
        }
    }
    questions
}

/// A subtree of a permitted list with these contents as its minimum, and with them as its maximum.
fn distances(contents: &[u8], is_minimum: bool, is_maximum: bool) -> [Question; 2] {
    [(minimum(contents), is_minimum), (maximum(contents), is_maximum)].map(|(distance, is_value)| {
        let constraints = name_constraints(vec![subtree(dns("a"), vec![distance])], vec![]);
        judged_value(11, constraints.octets(), is_value)
    })
}

/// Key usages and reasons whose last octet is this one: the last bit in use is set.
fn named_bit_lists(unused: u8, last: u8) -> Vec<Question> {
    let is_list = unused < 8 && last.trailing_zeros() == u32::from(unused);
    vec![
        judged_value(4, vec![3, 2, unused, last], is_list),
        judged_value(4, vec![3, 3, unused, 0, last], is_list),
        judged_value(9, vec![0x30, 6, 0x30, 4, 0x81, 2, unused, last], is_list),
        judged_value(9, vec![0x30, 7, 0x30, 5, 0x81, 3, unused, 0x80, last], is_list),
    ]
}

fn values_at_limits() -> Vec<Question> {
    let mut questions = Vec::new();
    for depth in 4..=30 {
        questions.push(judged_value(7, nested_other_name(depth).octets(), depth <= 16));
    }
    let many = |member: Element, count: usize| Element::sequence(vec![member; count]).octets();
    let name = || uri("");
    questions.push(judged_value(3, Element::octet_string(&[0; 6000]).octets(), true));
    questions.push(judged_value(5, many(Element::object_identifier(&[0x2A]), 2000), true));
    questions.push(judged_value(7, many(name(), 3000), true));
    questions.push(judged_value(8, many(access(vec![0x2A], name()), 800), true));
    questions.push(judged_value(9, many(Element::sequence(vec![]), 3000), true));
    let subtrees = vec![subtree(name(), vec![]); 1400];
    questions.push(judged_value(11, name_constraints(subtrees, vec![]).octets(), true));
    questions
}

/// Good and bad values of each extension as values of each.
fn values_offered_to_all() -> impl Iterator<Item = Question> {
    let mut random = Random::for_purpose("values offered");
    let known = SLOTS.flat_map(|slot| {
        let bad = bad_values(slot).into_iter().map(|value| octets_of(&value.parts));
        good_values(slot).into_iter().chain(bad)
    });
    let of_correct = std::iter::repeat_with(move || values_of(&correct(*random.choose(ALL), &mut random)));
    let of_correct = of_correct.flatten().take(cases(800)).map(|(_, parts)| octets_of(&parts));
    known.chain(of_correct).flat_map(|octets| SLOTS.map(move |slot| value(slot, octets.clone())))
}

fn every_identifier() -> Vec<Question> {
    let contents =
        ["", "00", "FF", "2A", "30 00", "05 00", "06 01 2A", "07 80", "82 01 61", "30 03 06 01 2A"];
    let mut questions = Vec::new();
    for identifier in 0..=255 {
        for text in contents {
            let element = Element::primitive(identifier, &hex::octets(text));
            let inside = Element::sequence(vec![element.clone()]);
            for octets in [element.octets(), inside.octets()] {
                questions.extend(SLOTS.map(|slot| value(slot, octets.clone())));
            }
        }
    }
    questions
}

/// Short good values and those with everything, each of their octets changed in every way.
fn values_with_octets_changed() -> Vec<Question> {
    let of_slot = |slot: u8| {
        let short = good_values(slot).into_iter().filter(|octets| octets.len() <= 16);
        let changed = short.chain([fullest_value(slot).octets()]);
        changed.flat_map(|octets| every_change_of_an_octet(&octets)).map(move |octets| value(slot, octets))
    };
    SLOTS.flat_map(of_slot).collect()
}

fn values_with_elements_changed() -> Vec<Question> {
    let of_slot = |slot: u8| {
        let changed = every_change_of_an_element(&fullest_value(slot)).into_iter();
        changed.map(move |element| value(slot, element.octets()))
    };
    SLOTS.flat_map(of_slot).collect()
}

/// Values of correct certificates, values with everything and bad values, each after a few changes.
fn mutated_values() -> impl Iterator<Item = Question> {
    let mut random = Random::for_purpose("mutated values");
    std::iter::repeat_with(move || {
        let (slot, parts) = any_value(&mut random);
        let mut whole = Element::of_parts(0x30, parts);
        let octets_too = random.once_in(4);
        for _ in 0..random.between(usize::from(!octets_too), 3) {
            for member in whole.members_mut() {
                mutate_element(member, &mut random);
            }
        }
        let mut octets = octets_of(&whole.contents);
        if octets_too {
            mutate_octets(&mut octets, &mut random);
        }
        octets.truncate(6000);
        value(slot, octets)
    })
}

fn any_value(random: &mut Random) -> (u8, Vec<Part>) {
    let slot = any_slot(random);
    match random.below(4) {
        0 => {
            let values = values_of(&correct(*random.choose(ALL), random));
            random.choose(&values).clone()
        }
        1 => (slot, random.choose(&bad_values(slot)).parts.clone()),
        _ => (slot, vec![Part::Element(fullest_value(slot))]),
    }
}

fn trees_as_values() -> impl Iterator<Item = Question> {
    let mut random = Random::for_purpose("trees as values");
    std::iter::repeat_with(move || {
        let slot = any_slot(&mut random);
        let depth = random.between(1, 5);
        let tree = match random.below(4) {
            0 => tree(depth, &mut random),
            _ => value_like(depth, &mut random),
        };
        let mut octets = tree.octets();
        octets.truncate(6000);
        value(slot, octets)
    })
}
