//! Questions about certificates.

use super::*;

fn certificate(octets: Vec<u8>) -> Question {
    Question::open(Frame::of_kind(CERTIFICATE, octets))
}

/// Octets that are a certificate.
fn good_certificate(certificate: &Certificate) -> Question {
    Question::with_line(Frame::of_kind(CERTIFICATE, certificate.element().octets()), "certificate")
}

/// A tree that is marked where the refusal is due.
fn marked_certificate(tree: &Element) -> Question {
    let encoded = tree.encode();
    let line = line_of(&refusal(&encoded, 1));
    Question::with_line(Frame::of_kind(CERTIFICATE, encoded.octets), &line)
}

/// As many of the octets as a certificate may have, and one at least.
fn within_limits(mut octets: Vec<u8>) -> Vec<u8> {
    octets.truncate(MOST_OCTETS);
    if octets.is_empty() {
        octets.push(0);
    }
    octets
}

pub fn judged() -> Vec<Family> {
    vec![
        Family::of("certificates by hand", by_hand(CERTIFICATES_BY_HAND)),
        Family::of("certificates changed as the paper's readings are worded", readings()),
        Family::of("malformed certificates", malformed_certificates()),
        Family::of("certificates with a spoiled time", spoiled_times().take(cases(3_000))),
        Family::of("times at every edge", times()),
        Family::of("correct certificates and their issuers", correct_certificates().take(cases(4_000))),
        Family::of("certificates with a single fault", faulty_certificates()),
        Family::of("certificates of the most octets and of the greatest depth", certificates_at_limits()),
    ]
}

pub fn open() -> Vec<Family> {
    let open = |octets: Vec<u8>| certificate(within_limits(octets));
    let family = |what, items: Vec<Vec<u8>>| Family::of(what, items.into_iter().map(open));
    vec![
        family("short certificates with every change of an octet", short_with_octets_changed()),
        family("short certificates with every change of an element", short_with_elements_changed()),
        family("outside items, whole and mutated", outside_whole_and_mutated("outside grammar")),
        Family::of(
            "certificates, whole and mutated",
            whole_and_mutated("certificates as grammar").take(cases(15_000)).map(open),
        ),
        Family::of(
            "mutants of pairs",
            Mutants::new("grammar of mutants")
                .take(cases(10_000))
                .map(move |mutant| open(mutant.certificate)),
        ),
        Family::of("certificates with elements replaced", replaced_elements().take(cases(25_000)).map(open)),
        Family::of("random trees as certificates", trees_as_certificates().take(cases(10_000)).map(open)),
    ]
}

/// The readings of the design, each in several certificates that have every field.
fn readings() -> Vec<Question> {
    let mut questions = Vec::new();
    for certificate in certificates_with_every_field() {
        questions.extend(readings_of(&certificate));
    }
    questions
}

fn readings_of(certificate: &Certificate) -> Vec<Question> {
    let changed = |change: &dyn Fn(&mut Element)| {
        let mut tree = certificate.element();
        change(&mut tree);
        marked_certificate(&tree)
    };
    let mut questions = vec![
        changed(&|tree| refuse(tree.find(node::VERSION_NUMBER), |element| element.set_octets(&[0]))),
        changed(&|tree| refuse(tree.find(node::VERSION), |element| element.contents.clear())),
        changed(&|tree| refuse(tree.find(node::CRITICAL), |element| element.set_octets(&[0]))),
        changed(&|tree| refuse(tree.find(node::EXTENSION_LIST), |element| element.contents.clear())),
        changed(&|tree| refuse(tree.find(node::EXTENSIONS), |element| element.contents.clear())),
    ];
    for name in [node::ISSUER, node::SUBJECT] {
        questions.push(changed(&|tree| tree.find(name).push(Element::set_of(vec![]).refused(6))));
    }
    for name in [node::CERTIFICATE, node::TBS] {
        for extra in [Element::null(), Element::sequence(vec![]), Element::primitive(0x84, &[])] {
            questions.push(changed(&|tree| tree.find(name).push(extra.clone().refused(6))));
        }
    }
    questions
}

/// Changes an element and marks it as the place of refusal 6.
fn refuse(element: &mut Element, change: impl Fn(&mut Element)) {
    change(element);
    element.marks.push(Mark::Refused(6));
}

/// Certificates that have every field, and names of single attributes, so that a change of an
/// attribute leaves no SET out of order.
fn certificates_with_every_field() -> Vec<Certificate> {
    let mut random = Random::for_purpose("certificates with every field");
    let mut certificates = Vec::new();
    for profile in ALL {
        let plain = plain(*profile);
        let mut varied = correct(*profile, &mut random).certificate;
        varied.issuer = plain.certificate.issuer.clone();
        varied.subject = plain.certificate.subject.clone();
        certificates.extend([plain.certificate, plain.issuer, varied].map(with_every_field));
    }
    certificates
}

fn malformed_certificates() -> Vec<Question> {
    let mut questions = Vec::new();
    for certificate in certificates_with_every_field() {
        questions.extend(malformed(&certificate).iter().map(|item| marked_certificate(&item.tree)));
    }
    questions
}

fn spoiled_times() -> impl Iterator<Item = Question> {
    let mut random = Random::for_purpose("spoiled times");
    std::iter::repeat_with(move || marked_certificate(&with_a_broken_time(&shortest(), &mut random)))
}

/// Each time in a certificate, by turns as its first and as its second.
fn times() -> Vec<Question> {
    let mut questions = Vec::new();
    for (number, time) in times_at_their_edges().into_iter().enumerate() {
        let mut certificate = shortest();
        let is_first = number % 2 == 0;
        let (name, field) = match is_first {
            true => (node::NOT_BEFORE, &mut certificate.not_before),
            false => (node::NOT_AFTER, &mut certificate.not_after),
        };
        *field = time.element;
        let encoded = certificate.element().encode();
        let place = encoded.place_of(name).start;
        let due = time.is_real.map(|is_real| match is_real {
            true => "certificate".to_string(),
            false => format!("departs at {place}"),
        });
        questions.push(Question { frame: Frame::of_kind(CERTIFICATE, encoded.octets), due });
    }
    questions
}

fn correct_certificates() -> impl Iterator<Item = Question> {
    let mut random = Random::for_purpose("correct certificates as grammar");
    let short = [shortest(), shortest_with_every_field()];
    let pairs = (0..).flat_map(move |number: usize| {
        let pair = correct(ALL[number % ALL.len()], &mut random);
        [pair.certificate, pair.issuer]
    });
    short.into_iter().chain(pairs).map(|certificate| good_certificate(&certificate))
}

/// Every fault of the catalogue in every profile that has it. No single fault is refused.
fn faulty_certificates() -> impl Iterator<Item = Question> {
    let mut random = Random::for_purpose("single faults as grammar");
    let faults = catalogue();
    let rounds = cases(6_000).div_ceil(ALL.len() * faults.len());
    (0..rounds).flat_map(move |_| {
        let mut questions = Vec::new();
        for profile in ALL {
            for fault in faults.iter().filter(|fault| fault.exists_in(*profile)) {
                let mut pair = correct(*profile, &mut random);
                fault.apply(&mut pair, &mut random);
                questions.push(good_certificate(&pair.certificate));
            }
        }
        questions
    })
}

fn certificates_at_limits() -> Vec<Question> {
    let mut long = shortest_with_every_field();
    long.signature = Element::bit_string(0, &[0; 5000]);
    let missing = MOST_OCTETS - long.element().octets().len();
    long.signature = Element::bit_string(0, &vec![0; 5000 + missing]);
    assert_eq!(long.element().octets().len(), MOST_OCTETS);
    let mut unfit = long.element();
    refuse(unfit.find(node::SIGNATURE), |element| element.identifier = 0x04);
    vec![good_certificate(&long), marked_certificate(&unfit), good_certificate(&as_deep_as_allowed())]
}

/// Parameters of an algorithm are any element: here as deep a one as is sound.
fn as_deep_as_allowed() -> Certificate {
    let mut deep = shortest();
    // The parameters stand at depth 4: certificate, TBS, algorithm, parameters.
    deep.inner_algorithm.push(comparison::malformed::nested(4, 16, Element::null()));
    deep
}

fn short_with_octets_changed() -> Vec<Vec<u8>> {
    let short = [shortest(), shortest_with_every_field()];
    short.iter().flat_map(|certificate| every_change_of_an_octet(&certificate.element().octets())).collect()
}

fn short_with_elements_changed() -> Vec<Vec<u8>> {
    let short = [shortest(), shortest_with_every_field()];
    let changed = short.iter().flat_map(|certificate| every_change_of_an_element(&certificate.element()));
    changed.map(|tree| tree.octets()).collect()
}

/// Certificates of every length with a few elements replaced or changed.
fn replaced_elements() -> impl Iterator<Item = Vec<u8>> {
    let mut random = Random::for_purpose("replaced elements");
    std::iter::repeat_with(move || {
        let mut tree = match random.below(4) {
            0 => correct(*random.choose(ALL), &mut random).certificate.element(),
            1 => shortest().element(),
            _ => shortest_with_every_field().element(),
        };
        for _ in 0..random.between(1, 3) {
            if random.once_in(2) {
                replace_element(&mut tree, &mut random);
            } else {
                mutate_element(&mut tree, &mut random);
            }
        }
        tree.octets()
    })
}

fn trees_as_certificates() -> impl Iterator<Item = Vec<u8>> {
    let mut random = Random::for_purpose("trees as certificates");
    std::iter::repeat_with(move || {
        let depth = random.between(1, 6);
        if random.once_in(2) {
            value_like(depth, &mut random).octets()
        } else {
            tree(depth, &mut random).octets()
        }
    })
}
