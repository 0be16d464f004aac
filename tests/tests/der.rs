//! Sound DER and SETs in order: the program `answers` against the reference, and both against
//! verdicts by hand.

use comparison::amount::{cases, say};
use comparison::answers::{Family, Frame, Question, Questioning, Tally, ENCODING};
use comparison::correct::correct;
use comparison::element::{long_length, shortest_length, tag, Element};
use comparison::hex;
use comparison::malformed::{malformed, nested, with_every_field};
use comparison::mutants::{outside_whole_and_mutated, whole_and_mutated};
use comparison::mutation::{interesting_octet, mutate_element, mutate_octets};
use comparison::profile::ALL;
use comparison::random::Random;
use comparison::trees::tree;
use comparison::verdicts::{line_of, verdict_on_two, BY_HAND};
use reference::soundness;

/// An octet string and the verdict expected of it, where one was written down.
type Judged = (Vec<u8>, String);

fn by_hand() -> Vec<Judged> {
    let mut judged: Vec<Judged> =
        BY_HAND.iter().map(|(octets, verdict)| (hex::octets(octets), verdict.to_string())).collect();
    judged.extend(lengths_at_their_edges());
    judged.extend(depths());
    judged
}

/// Lengths around every change of form, with contents that match and contents that do not.
fn lengths_at_their_edges() -> Vec<Judged> {
    let mut judged = Vec::new();
    for length in [0usize, 1, 0x7E, 0x7F, 0x80, 0x81, 0xFE, 0xFF, 0x100, 0x101, 0x1FFC, 0x2000, 0xFFFB] {
        let shortest = shortest_length(length);
        let mut add = |form: &[u8], contents: usize, verdict: &str| {
            judged.push(([&[tag::OCTET_STRING], form, &vec![0x55; contents]].concat(), verdict.to_string()));
        };
        add(&shortest, length, "sound");
        if length < 0xFFFB {
            add(&shortest, length + 1, "unsound at 0");
        }
        if length > 0 {
            add(&shortest, length - 1, "unsound at 0");
        }
        for count in (1..=9).chain([126, 127]) {
            let form = long_length(length, count);
            let enough =
                long_length(length, count.min(8))[1..].iter().any(|octet| *octet != 0) || length == 0;
            if form != shortest && enough && 1 + form.len() + length <= 0xFFFF {
                add(&form, length, "unsound at 0");
            }
        }
    }
    // The long form with as many octets as can be named, and far more than there is room for.
    for count in [1, 2, 3, 4, 5, 8, 9, 16, 126, 127] {
        let form = [&[0x80 | count as u8], vec![0xFF; count].as_slice()].concat();
        for contents in [0, 1, 127, 128, 255] {
            if count == 1 && contents == 255 {
                continue;
            }
            let octets = [&[tag::OCTET_STRING], form.as_slice(), &vec![0x55; contents]].concat();
            judged.push((octets, "unsound at 0".to_string()));
        }
    }
    judged
}

fn depths() -> Vec<Judged> {
    let mut judged = Vec::new();
    for depth in 1..=40 {
        // Each of the outer headers has two octets, so the element at depth 17 starts at 32.
        let verdict = if depth <= 16 { "sound" } else { "unsound at 32" };
        for inner in [Element::sequence(vec![]), Element::null(), Element::set_of(vec![])] {
            judged.push((nested(1, depth, inner).octets(), verdict.to_string()));
        }
    }
    judged.push((hex::octets("30 80").repeat(4096), "unsound at 0".to_string()));
    judged.push((hex::octets("31 80").repeat(4096), "unsound at 0".to_string()));
    // As deep as 8,192 octets go. The outermost headers have four octets.
    let deep = nested(1, 2090, Element::null()).octets();
    assert!((8000..=8192).contains(&deep.len()), "{} octets", deep.len());
    judged.push((deep, "unsound at 64".to_string()));
    // SETs nested to the depth allowed, the innermost out of order.
    let inner = Element::constructed(tag::SET, vec![Element::integer(&[2]), Element::integer(&[1])]);
    judged.push((nested(1, 15, inner.clone()).octets(), "unordered at 28".to_string()));
    judged.push((nested(1, 16, inner).octets(), "unsound at 32".to_string()));
    judged
}

fn family(what: &'static str, items: impl IntoIterator<Item = Vec<u8>> + 'static) -> Family {
    Family::of(what, items.into_iter().map(|octets| Question::open(Frame::of_kind(ENCODING, octets))))
}

fn families() -> Vec<Family> {
    vec![
        family("lists of no, one and two octets", up_to_two_octets()),
        family("lists of three octets", three_octets()),
        family("every identifier octet with chosen contents", every_identifier()),
        family("malformed certificates", malformed_certificates()),
        family("outside certificates, whole and mutated", outside_whole_and_mutated("outside DER")),
        family("octets at random", at_random().take(cases(25_000))),
        family("random trees", trees("compared trees").take(cases(12_000))),
        family("random trees, mutated", mutated_trees().take(cases(25_000))),
        family(
            "certificates, whole and mutated",
            whole_and_mutated("certificates as DER").take(cases(9_000)),
        ),
    ]
}

fn up_to_two_octets() -> Vec<Vec<u8>> {
    let mut items = vec![vec![]];
    items.extend((0..=255).map(|octet| vec![octet]));
    items.extend((0..=0xFFFFu16).map(|pair| pair.to_be_bytes().to_vec()));
    items
}

fn three_octets() -> Vec<Vec<u8>> {
    let mut items = Vec::new();
    for second in 0..=255 {
        items.extend((0..=255).map(|third| vec![0x30, second, third]));
    }
    for first in
        [0x00, 0x01, 0x02, 0x03, 0x04, 0x05, 0x06, 0x0A, 0x10, 0x11, 0x1F, 0x24, 0x31, 0x80, 0xA0, 0xFF]
    {
        for second in [0x00, 0x01, 0x02, 0x7F, 0x80, 0x81, 0x82, 0xFF] {
            items.extend((0..=255).map(|third| vec![first, second, third]));
        }
    }
    items
}

fn every_identifier() -> Vec<Vec<u8>> {
    let contents = [
        "",
        "00",
        "01",
        "7F",
        "80",
        "FF",
        "00 00",
        "00 7F",
        "00 80",
        "FF 7F",
        "FF 80",
        "07 80",
        "08 00",
        "05 00",
        "81 00",
        "81 80",
        "80 01",
        "02 01 01",
        "01 01 FF",
        "01 01 01",
        "02 01 02 02 01 01",
        "02 01 01 02 01 02",
        "30 00",
        "00 00 00",
        "2A 86 48",
    ];
    let mut items = Vec::new();
    for identifier in 0..=255 {
        for text in contents {
            let element = Element::primitive(identifier, &hex::octets(text));
            items.push(element.octets());
            items.push(Element::sequence(vec![element.clone()]).octets());
            items.push(Element::constructed(tag::SET, vec![Element::null(), element]).octets());
        }
    }
    items
}

fn malformed_certificates() -> Vec<Vec<u8>> {
    let mut random = Random::for_purpose("malformed DER");
    let mut items = Vec::new();
    for profile in ALL {
        let certificate = with_every_field(correct(*profile, &mut random).certificate);
        items.extend(malformed(&certificate).iter().map(|item| item.tree.octets()));
    }
    items
}

fn at_random() -> impl Iterator<Item = Vec<u8>> {
    let mut random = Random::for_purpose("octets at random");
    std::iter::repeat_with(move || {
        let length = random.below(24);
        if random.once_in(4) {
            random.octets(length)
        } else {
            (0..length).map(|_| interesting_octet(&mut random)).collect()
        }
    })
}

/// Sound trees that reach down to depth 16 at most.
fn trees(purpose: &str) -> impl Iterator<Item = Vec<u8>> {
    let mut random = Random::for_purpose(purpose);
    std::iter::repeat_with(move || {
        let depth = random.between(1, 9);
        let wrapped = random.between(1, 17 - depth);
        nested(1, wrapped, tree(depth, &mut random)).octets()
    })
}

fn mutated_trees() -> impl Iterator<Item = Vec<u8>> {
    let mut random = Random::for_purpose("mutated trees");
    std::iter::repeat_with(move || {
        let depth = random.between(2, 6);
        let mut tree = tree(depth, &mut random);
        if random.once_in(2) {
            mutate_element(&mut tree, &mut random);
        }
        let mut octets = tree.octets();
        if random.once_in(2) {
            mutate_octets(&mut octets, &mut random);
        }
        octets.truncate(8192);
        octets
    })
}

/// The verdict on two octets or fewer.
fn verdict_on_short(octets: &[u8]) -> &'static str {
    match octets {
        [identifier, length] => verdict_on_two(*identifier, *length),
        _ => "unsound at 0",
    }
}

#[test]
fn the_reference_agrees_with_the_verdicts_by_hand() {
    let judged = by_hand();
    for (octets, verdict) in &judged {
        assert_eq!(&line_of(soundness(octets)), verdict, "{}", hex::text(octets));
    }
    let short = up_to_two_octets();
    for octets in &short {
        assert_eq!(line_of(soundness(octets)), verdict_on_short(octets), "{}", hex::text(octets));
    }
    say("verdicts by hand, reference", judged.len() + short.len());
}

#[test]
fn random_trees_are_sound_as_they_were_built() {
    let count = cases(20_000);
    for octets in trees("sound trees").take(count) {
        assert_eq!(line_of(soundness(&octets)), "sound", "{}", hex::text(&octets));
    }
    say("random trees built sound, reference", count);
}

/// The line that is expected of the program.
fn expected(frame: &Frame) -> Option<String> {
    Some(line_of(soundness(&frame.octets)))
}

#[test]
fn the_program_agrees_with_the_reference() {
    let Some(mut questioning) = Questioning::of("answers", expected) else { return };
    let tally = questioning.ask(Family::of("by hand", verdicts_by_hand()));
    say("frames with verdicts by hand", tally.frames());
    let mut whole = Tally::default();
    for family in families() {
        let what = family.what;
        let tally = questioning.ask(family);
        say(&format!("frames: {what}"), tally.frames());
        whole.add(&tally);
    }
    questioning.finish();
    let frames = whole.frames();
    say("frames in all", frames);
    assert!(frames >= 200_000, "only {frames} frames were compared");
    assert_eq!(whole.answers(ENCODING).len(), 3, "every kind of verdict was met");
}

/// Everything with a verdict by hand, as questions.
fn verdicts_by_hand() -> Vec<Question> {
    let judged = by_hand().into_iter();
    let short = up_to_two_octets().into_iter().map(|octets| {
        let verdict = verdict_on_short(&octets).to_string();
        (octets, verdict)
    });
    judged
        .chain(short)
        .map(|(octets, verdict)| Question::with_line(Frame::of_kind(ENCODING, octets), &verdict))
        .collect()
}
