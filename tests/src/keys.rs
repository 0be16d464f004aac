//! Public keys: moduli of a wanted size without small factors, and the ways to write a key.

use std::sync::OnceLock;

use crate::certificate::{algorithm, node, Certificate, KeyKind};
use crate::element::{tag, Element, Part};
use crate::object_identifiers as oid;
use crate::random::Random;

pub const GOOD_SIZES: [usize; 3] = [2048, 3072, 4096];

/// The 133 primes below 752.
pub fn small_primes() -> &'static [u32] {
    static PRIMES: OnceLock<Vec<u32>> = OnceLock::new();
    PRIMES
        .get_or_init(|| (2..752).filter(|number| (2..*number).all(|smaller| number % smaller != 0)).collect())
}

/// What is left when a number, high octet first, is divided by a small one.
pub fn remainder(number: &[u8], divisor: u32) -> u32 {
    number.iter().fold(0, |rest, octet| (rest * 256 + u32::from(*octet)) % divisor)
}

fn add(number: &mut [u8], addend: u32) {
    let mut carry = addend;
    for octet in number.iter_mut().rev() {
        let sum = u32::from(*octet) + carry;
        *octet = sum as u8;
        carry = sum >> 8;
    }
    assert_eq!(carry, 0, "the number grew by an octet");
}

fn subtract(number: &mut [u8], subtrahend: u32) {
    let mut borrow = i64::from(subtrahend);
    for octet in number.iter_mut().rev() {
        let difference = i64::from(*octet) - (borrow & 0xFF);
        *octet = difference as u8;
        borrow = (borrow >> 8) + i64::from(difference < 0);
    }
    assert_eq!(borrow, 0, "the number fell below zero");
}

/// An odd number of exactly this many bits, its two highest bits set and the next clear, so that
/// adding or taking away a little does not change its size.
fn odd_number(bits: usize, random: &mut Random) -> Vec<u8> {
    let mut number = random.octets(bits.div_ceil(8));
    let last = number.len() - 1;
    let mut write = |bit: usize, set: bool| {
        let octet = &mut number[last - bit / 8];
        *octet = if set { *octet | 1 << (bit % 8) } else { *octet & !(1 << (bit % 8)) };
    };
    for above in bits..bits.next_multiple_of(8) {
        write(above, false);
    }
    write(bits - 3, false);
    write(bits - 2, true);
    write(bits - 1, true);
    write(0, true);
    number
}

/// A modulus of exactly this many bits that no prime below 752 divides.
pub fn new_modulus(bits: usize, random: &mut Random) -> Vec<u8> {
    let mut number = odd_number(bits, random);
    let mut rests: Vec<u32> = small_primes().iter().map(|prime| remainder(&number, *prime)).collect();
    let mut steps = 0;
    while rests.contains(&0) {
        steps += 2;
        for (rest, prime) in rests.iter_mut().zip(small_primes()) {
            *rest = (*rest + 2) % prime;
        }
    }
    add(&mut number, steps);
    number
}

/// A good modulus of an allowed size, out of a store that is filled once: finding one takes time.
pub fn good_modulus(bits: usize, random: &mut Random) -> Vec<u8> {
    static STORE: OnceLock<Vec<(usize, Vec<u8>)>> = OnceLock::new();
    let store = STORE.get_or_init(|| {
        let mut random = Random::for_purpose("moduli");
        let sizes = GOOD_SIZES.iter().flat_map(|bits| std::iter::repeat(*bits).take(8));
        sizes.map(|bits| (bits, new_modulus(bits, &mut random))).collect()
    });
    let fitting: Vec<_> = store.iter().filter(|(size, _)| *size == bits).collect();
    random.choose(&fitting).1.clone()
}

/// The multiple of `prime` next below `modulus`.
pub fn multiple_below(modulus: &[u8], prime: u32) -> Vec<u8> {
    let mut number = modulus.to_vec();
    let rest = remainder(&number, prime);
    subtract(&mut number, rest);
    number
}

/// The bits of an RSA key.
pub fn rsa_bits(modulus: &[u8], exponent: &[u8]) -> Element {
    rsa_bits_of(Element::sequence(vec![
        Element::unsigned(modulus).named(node::MODULUS),
        Element::unsigned(exponent).named(node::EXPONENT),
    ]))
}

/// A BIT STRING without unused bits that holds one element.
pub fn rsa_bits_of(key: Element) -> Element {
    Element::of_parts(tag::BIT_STRING, vec![Part::Octets(vec![0]), Part::Element(key)])
}

pub fn use_rsa(certificate: &mut Certificate, modulus: &[u8], exponent: &[u8]) {
    certificate.key_kind = KeyKind::Rsa;
    certificate.key_algorithm = algorithm(oid::rsa_encryption(), Some(Element::null()));
    certificate.key_bits = rsa_bits(modulus, exponent);
}

pub fn use_good_rsa(certificate: &mut Certificate, random: &mut Random) {
    let bits = *random.choose(&GOOD_SIZES);
    let modulus = good_modulus(bits, random);
    let exponent = good_exponent(random);
    use_rsa(certificate, &modulus, &exponent);
}

/// RSA of 2048 bits or more, with whatever no rule of a subordinate CA asks about: any factors, exponent and parameters.
pub fn use_any_long_rsa(certificate: &mut Certificate, random: &mut Random) {
    let mut modulus = odd_number(*random.choose(&[2048, 2049, 2055, 2056, 3072, 4095, 4097, 6000]), random);
    if random.once_in(2) {
        subtract(&mut modulus, 1);
    }
    let exponents: [&[u8]; 5] = [&[1], &[2], &[3], &[1, 0, 1], &[0xFF; 40]];
    let exponent = *random.choose(&exponents);
    use_rsa(certificate, &modulus, exponent);
    let parameters = match random.below(4) {
        0 => None,
        1 => Some(Element::octet_string(&[])),
        2 => Some(Element::object_identifier(&oid::curve_p256())),
        _ => Some(Element::null()),
    };
    certificate.key_algorithm = algorithm(oid::rsa_encryption(), parameters);
}

/// 65,537, the largest exponent that is allowed, or an odd number between.
pub fn good_exponent(random: &mut Random) -> Vec<u8> {
    match random.below(4) {
        0 | 1 => vec![1, 0, 1],
        2 => largest_exponent(),
        _ => {
            let bits = random.between(18, 255);
            odd_number(bits, random)
        }
    }
}

/// The largest odd number below 2^256 - 1.
pub fn largest_exponent() -> Vec<u8> {
    let mut exponent = vec![0xFF; 32];
    exponent[31] = 0xFD;
    exponent
}

pub fn use_elliptic_curve(certificate: &mut Certificate, parameters: Option<Element>, random: &mut Random) {
    certificate.key_kind = KeyKind::EllipticCurve;
    certificate.key_algorithm = algorithm(oid::elliptic_curve_key(), parameters);
    let mut point = random.octets(65);
    point[0] = 4;
    certificate.key_bits = Element::bit_string(0, &point);
}

pub fn use_good_elliptic_curve(certificate: &mut Certificate, random: &mut Random) {
    let curve = random.choose(&[oid::curve_p256, oid::curve_p384, oid::curve_p521])();
    use_elliptic_curve(certificate, Some(Element::object_identifier(&curve)), random);
}

pub fn use_other_key(certificate: &mut Certificate, identifier: Vec<u8>, random: &mut Random) {
    certificate.key_kind = KeyKind::Other;
    certificate.key_algorithm = algorithm(identifier, None);
    certificate.key_bits = Element::bit_string(0, &random.octets(32));
}
