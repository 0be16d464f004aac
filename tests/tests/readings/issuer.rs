//! What counts of the issuer.

use super::*;

#[test]
fn the_issuers_key_identifier_may_have_any_length() {
    for length in [0, 1, 19, 20, 21, 200] {
        in_every(ALL, "an identifier of any length", |pair| {
            let identifier = vec![0xA5; length];
            let of_issuer = pair.issuer.extension(&oid::subject_key_identifier());
            of_issuer.set_value(Element::octet_string(&identifier));
            pair.extension(1).set_value(Element::sequence(vec![Element::primitive(0x80, &identifier)]));
        });
    }
}

#[test]
fn of_repeated_key_identifiers_of_the_issuer_the_first_counts() {
    let bad = || {
        let mut extension = Extension::new(oid::subject_key_identifier(), false, Element::null());
        extension.value = vec![Part::Octets(vec![4, 3, 1])];
        extension
    };
    in_every(ALL, "a good one first", |pair| pair.issuer.extensions.push(bad()));
    in_every(ALL, "a bad one first", |pair| {
        pair.issuer.extensions.insert(0, bad());
        pair.extension(1).breaks_at_value(401);
    });
    in_every(ALL, "another good one first", |pair| {
        let other = Extension::new(oid::subject_key_identifier(), true, Element::octet_string(&[1]));
        pair.issuer.extensions.insert(0, other);
        pair.extension(1).breaks_at_value(401);
    });
}

#[test]
fn the_issuer_counts_by_its_subject_and_key_identifier_alone() {
    let mut random = Random::for_purpose("two issuers");
    let mut linters = Linters::of("pairs of issuers that agree in what counts");
    for _ in 0..300 {
        let profile = *random.choose(ALL);
        let mut pair = correct(profile, &mut random);
        let first = pair.encode();
        let mut other = correct(*random.choose(ALL), &mut random).issuer;
        other.subject = pair.issuer.subject.clone();
        let identifier = pair.issuer.extension(&oid::subject_key_identifier()).value.clone();
        other.extension(&oid::subject_key_identifier()).value = identifier;
        other.serial = Element::integer(&[0xFF]);
        other.key_bits = Element::bit_string(0, &[]);
        other.extension(&oid::basic_constraints()).value = vec![Part::Octets(vec![1, 2, 3])];
        pair.issuer = other;
        let second = pair.encode();
        assert_ne!(first.issuer, second.issuer);
        linters.hold("another issuer", &second);
    }
    linters.finish();
}
