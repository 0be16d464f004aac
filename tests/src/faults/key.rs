//! Faults of the key, rules 201 to 208.

use super::Aspect::*;
use super::Catalogue;
use crate::certificate::{algorithm, node, KeyKind};
use crate::correct::{plain_value, Pair};
use crate::element::{tag, Element, LengthForm, Mark, Part};
use crate::keys::*;
use crate::object_identifiers as oid;
use crate::profile::{ALL, AUTHORITY, END_ENTITY, RESPONDER, SERVER, WITH_RSA_ONLY};
use crate::random::Random;

pub(super) fn add(faults: &mut Catalogue) {
    add_algorithm(faults);
    add_parameters(faults);
    add_rsa_bits(faults);
    add_modulus(faults);
    add_exponent(faults);
}

/// A usage that is good with every kind of key, for faults that change the kind.
fn plain_usage(pair: &mut Pair) {
    let usage = plain_value(4, pair.profile);
    pair.extension(4).set_value(usage);
}

fn add_algorithm(faults: &mut Catalogue) {
    let mut faults = faults.touching(&[Key, Extension(4)]);
    faults.add("a key of another algorithm", &[201], ALL, |pair, random, _| {
        let identifier = random.choose(&[oid::ed25519, oid::sha256_with_rsa, oid::curve_p256])();
        use_other_key(&mut pair.certificate, identifier, random);
        pair.certificate.key_algorithm.marks.push(Mark::Breaks(201));
        plain_usage(pair);
    });
    faults.add("an EC key where RSA belongs", &[201], WITH_RSA_ONLY, |pair, random, _| {
        let good_curve = random.once_in(2);
        let curve = if good_curve { oid::curve_p256() } else { oid::curve_k256() };
        use_elliptic_curve(&mut pair.certificate, Some(Element::object_identifier(&curve)), random);
        pair.certificate.key_algorithm.marks.push(Mark::Breaks(201));
        plain_usage(pair);
    });
    faults.add("another algorithm with the bits of a bad RSA key", &[201], ALL, |pair, _, _| {
        // Only an RSA key is judged by 204 to 208.
        use_rsa(&mut pair.certificate, &[15], &[2]);
        pair.certificate.key_kind = KeyKind::Other;
        pair.certificate.key_algorithm = algorithm(oid::ed25519(), Some(Element::null())).breaking(201);
        plain_usage(pair);
    });
}

fn add_parameters(faults: &mut Catalogue) {
    let mut faults = faults.touching(&[Key, Extension(4)]);
    faults.add("RSA parameters not NULL", &[202], END_ENTITY, |pair, random, _| {
        use_good_rsa(&mut pair.certificate, random);
        let parameters = match random.below(4) {
            0 => None,
            1 => Some(Element::octet_string(&[])),
            2 => Some(Element::sequence(vec![])),
            _ => Some(Element::object_identifier(&oid::curve_p256())),
        };
        pair.certificate.key_algorithm = algorithm(oid::rsa_encryption(), parameters).breaking(202);
        plain_usage(pair);
    });
    faults.add("EC parameters no allowed curve", &[203], SERVER, |pair, random, _| {
        let parameters = match random.below(6) {
            0 => None,
            1 => Some(Element::null()),
            2 => Some(Element::sequence(vec![Element::integer(&[1])])),
            3 => Some(Element::object_identifier(&oid::curve_p224())),
            4 => Some(Element::octet_string(&oid::curve_p256())),
            _ => Some(Element::object_identifier(&oid::curve_k256())),
        };
        use_elliptic_curve(&mut pair.certificate, parameters, random);
        pair.certificate.key_algorithm.marks.push(Mark::Breaks(203));
        plain_usage(pair);
    });
}

fn add_rsa_bits(faults: &mut Catalogue) {
    let mut faults = faults.touching(&[Key, Extension(4)]);
    faults.add("RSA bits not two positive INTEGERs", &[204], ALL, |pair, random, _| {
        use_good_rsa(&mut pair.certificate, random);
        let kind = random.below(BAD_RSA_BITS);
        let modulus = good_modulus(2048, random);
        pair.certificate.key_bits = bad_rsa_bits(kind, &modulus).breaking(204);
        plain_usage(pair);
    });
}

const BAD_RSA_BITS: usize = 19;

/// The ways in which the bits of an RSA key can be wrong.
fn bad_rsa_bits(kind: usize, modulus: &[u8]) -> Element {
    let modulus = || Element::unsigned(modulus);
    let exponent = || Element::integer(&[1, 0, 1]);
    let key = |members| rsa_bits_of(Element::sequence(members));
    match kind {
        0 => Element::bit_string(0, &[]),
        1 => with_unused_bits(key(vec![modulus(), Element::integer(&[1, 0, 2])])),
        2 => key(vec![modulus()]),
        3 => key(vec![]),
        4 => key(vec![modulus(), exponent(), exponent()]),
        5 => key(vec![Element::integer(&[0]), exponent()]),
        6 => key(vec![modulus(), Element::integer(&[0])]),
        7 => key(vec![Element::integer(&[0x80; 256]), exponent()]),
        8 => key(vec![modulus(), Element::integer(&[0x81, 0, 1])]),
        9 => key(vec![modulus(), Element::integer(&[0, 1, 0, 1])]),
        10 => key(vec![modulus(), Element::integer(&[])]),
        11 => key(vec![modulus(), Element::octet_string(&[1, 0, 1])]),
        12 => rsa_bits_of(Element::constructed(tag::context_constructed(0), vec![modulus(), exponent()])),
        13 => rsa_bits_of(Element::set_of(vec![modulus(), exponent()])),
        14 => followed_by(key(vec![modulus(), exponent()]), &[0]),
        15 => followed_by(key(vec![modulus(), exponent()]), &[5, 0]),
        16 => key(vec![modulus(), exponent().with_length_form(LengthForm::Long(1))]),
        17 => key(vec![modulus(), exponent().with_length_form(LengthForm::Claimed(4))]),
        _ => Element::bit_string(0, &[0x30]),
    }
}

fn with_unused_bits(mut bits: Element) -> Element {
    bits.contents[0] = Part::Octets(vec![1]);
    bits
}

fn followed_by(mut bits: Element, octets: &[u8]) -> Element {
    bits.contents.push(Part::Octets(octets.to_vec()));
    bits
}

fn add_modulus(faults: &mut Catalogue) {
    let mut faults = faults.touching(&[Key, Extension(4)]);
    faults.add("a modulus of another size", &[205], END_ENTITY, |pair, random, _| {
        let sizes = [1024, 2040, 2047, 2049, 2056, 3071, 3073, 4095, 4097, 8192];
        let modulus = new_modulus(*random.choose(&sizes), random);
        use_rsa(&mut pair.certificate, &modulus, &[1, 0, 1]);
        break_at(pair, node::MODULUS, 205);
        plain_usage(pair);
    });
    faults.add("a modulus with a small factor", &[207], RESPONDER, |pair, random, _| {
        use_good_rsa(&mut pair.certificate, random);
        let bits = *random.choose(&GOOD_SIZES);
        let prime = match random.below(4) {
            0 => 2,
            1 => 3,
            2 => 751,
            _ => *random.choose(small_primes()),
        };
        let modulus = multiple_below(&good_modulus(bits, random), prime);
        use_rsa(&mut pair.certificate, &modulus, &[1, 0, 1]);
        break_at(pair, node::MODULUS, 207);
        plain_usage(pair);
    });
    faults.add("a modulus under 2048 bits", &[208], AUTHORITY, |pair, random, _| {
        let moduli: [&[u8]; 5] = [&[1], &[15], &[0x80; 128], &[0xFF; 255], &[0x7F; 256]];
        let exponents: [&[u8]; 4] = [&[1], &[3], &[1, 0, 1], &[0xFF; 300]];
        let (modulus, exponent) = (*random.choose(&moduli), *random.choose(&exponents));
        use_rsa(&mut pair.certificate, modulus, exponent);
        break_at(pair, node::MODULUS, 208);
    });
    faults.add("a tiny modulus", &[205, 207], RESPONDER, |pair, _, _| {
        use_rsa(&mut pair.certificate, &[15], &[1, 0, 1]);
        break_at(pair, node::MODULUS, 205);
        break_at(pair, node::MODULUS, 207);
        plain_usage(pair);
    });
}

fn add_exponent(faults: &mut Catalogue) {
    let mut faults = faults.touching(&[Key, Extension(4)]);
    faults.add("an exponent that is even or out of range", &[206], END_ENTITY, |pair, random, _| {
        let modulus = good_modulus(2048, random);
        let exponent = bad_exponent(random);
        use_rsa(&mut pair.certificate, &modulus, &exponent);
        break_at(pair, node::EXPONENT, 206);
        plain_usage(pair);
    });
    faults.add("an exponent of 3 with a modulus of 1024 bits", &[205, 206], END_ENTITY, |pair, random, _| {
        let modulus = new_modulus(1024, random);
        use_rsa(&mut pair.certificate, &modulus, &[3]);
        break_at(pair, node::MODULUS, 205);
        break_at(pair, node::EXPONENT, 206);
        plain_usage(pair);
    });
}

fn bad_exponent(random: &mut Random) -> Vec<u8> {
    match random.below(8) {
        0 => vec![1],
        1 => vec![3],
        2 => vec![0xFF, 0xFF],
        3 => vec![1, 0, 0],
        4 => vec![1, 0, 2],
        5 => vec![0xFF; 32],
        6 => [vec![1], vec![0; 31], vec![1]].concat(),
        _ => [vec![0xFF; 31], vec![0xFE]].concat(),
    }
}

fn break_at(pair: &mut Pair, name: &'static str, rule: u16) {
    pair.certificate.key_bits.find(name).marks.push(Mark::Breaks(rule));
}

/// The faults of the RSA bits one by one, for a test that leaves none to chance.
pub fn every_bad_rsa_bits(random: &mut Random) -> Vec<Element> {
    let modulus = good_modulus(2048, random);
    (0..BAD_RSA_BITS).map(|kind| bad_rsa_bits(kind, &modulus).breaking(204)).collect()
}
