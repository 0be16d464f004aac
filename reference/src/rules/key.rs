//! Rules 201 to 208: the public key.

use super::Case;
use crate::certificate::PublicKey;
use crate::der::{Element, INTEGER, OBJECT_IDENTIFIER, SEQUENCE};
use crate::number::{
    bits, is_divisible_by_no_small_prime, is_from_65537_to_below_2_to_256_less_1, is_odd,
    is_positive,
};
use crate::object_identifiers::{
    CURVE_P256, CURVE_P384, CURVE_P521, EC_PUBLIC_KEY, RSA_ENCRYPTION,
};
use crate::report::Report;
use crate::soundness::sound_element;
use crate::structure::{expect, Members, Misfit};

/// What a key is, by its algorithm identifier alone.
#[derive(Clone, Copy, Debug, PartialEq, Eq)]
pub enum KeyKind {
    Rsa,
    EllipticCurve,
    Another,
}

pub fn kind_of(key: &PublicKey) -> KeyKind {
    match key.algorithm.identifier {
        RSA_ENCRYPTION => KeyKind::Rsa,
        EC_PUBLIC_KEY => KeyKind::EllipticCurve,
        _ => KeyKind::Another,
    }
}

/// "(201 to 203 at the key's algorithm.)"
pub fn judge(case: Case, report: &mut Report) {
    let key = &case.certificate.key;
    rule_201(case, key, report);
    match kind_of(key) {
        KeyKind::Rsa => {
            rule_202(case, key, report);
            rules_204_to_208(case, key, report);
        }
        KeyKind::EllipticCurve => rule_203(case, key, report),
        KeyKind::Another => (),
    }
}

/// "201 key is rsaEncryption, or (S) ecPublicKey." In profile 4 "201 RSA only".
fn rule_201(case: Case, key: &PublicKey, report: &mut Report) {
    let is_allowed = match kind_of(key) {
        KeyKind::Rsa => true,
        KeyKind::EllipticCurve => case.profile.is_server(),
        KeyKind::Another => false,
    };
    report.require(201, is_allowed, key.algorithm.element);
}

/// "202 RSA key: parameters NULL."
fn rule_202(case: Case, key: &PublicKey, report: &mut Report) {
    if case.profile.has_rule(202) {
        let algorithm = key.algorithm;
        report.require(202, algorithm.has_null_parameters(), algorithm.element);
    }
}

/// "203 (S) EC key: parameters one of the curves in 000."
fn rule_203(case: Case, key: &PublicKey, report: &mut Report) {
    const CURVES: [&[u8]; 3] = [CURVE_P256, CURVE_P384, CURVE_P521];
    if !case.profile.has_rule(203) {
        return;
    }
    let algorithm = key.algorithm;
    let is_curve = algorithm.parameters.is_some_and(|parameters| {
        parameters.identifier() == OBJECT_IDENTIFIER && CURVES.contains(&parameters.contents())
    });
    report.require(203, is_curve, algorithm.element);
}

/// "204 RSA bits are, with 0 unused, exactly a sound SEQUENCE of two positive INTEGERs (at the BIT STRING); else 205 to
/// 207 are not judged." "(205 to 207 at the INTEGER.)" In profile 4 "204, and new 208, modulus at least 2048 bits, else as
/// 205".
fn rules_204_to_208(case: Case, key: &PublicKey, report: &mut Report) {
    let Some(numbers) = RsaNumbers::read(key.bits) else {
        report.add(204, key.bits);
        return;
    };
    rule_205(case, &numbers, report);
    rule_206(case, &numbers, report);
    rule_207(case, &numbers, report);
    rule_208(case, &numbers, report);
}

/// The INTEGERs of an RSA key.
struct RsaNumbers<'a> {
    modulus: Element<'a>,
    exponent: Element<'a>,
}

impl<'a> RsaNumbers<'a> {
    fn read(bit_string: Element<'a>) -> Option<RsaNumbers<'a>> {
        let (&unused, octets) = bit_string.contents().split_first()?;
        if unused != 0 {
            return None;
        }
        let element = sound_element(octets, bit_string.contents_start() + 1)?;
        RsaNumbers::read_sequence(element).ok()
    }

    fn read_sequence(element: Element<'a>) -> Result<RsaNumbers<'a>, Misfit> {
        let mut members = Members::of(expect(element, SEQUENCE)?);
        let modulus = positive(members.required(INTEGER)?)?;
        let exponent = positive(members.required(INTEGER)?)?;
        members.end()?;
        Ok(RsaNumbers { modulus, exponent })
    }
}

fn positive(integer: Element<'_>) -> Result<Element<'_>, Misfit> {
    if is_positive(integer.contents()) {
        Ok(integer)
    } else {
        Err(Misfit::at(integer))
    }
}

/// "205 modulus 2048, 3072 or 4096 bits."
fn rule_205(case: Case, numbers: &RsaNumbers, report: &mut Report) {
    if case.profile.has_rule(205) {
        let is_good = matches!(bits(numbers.modulus.contents()), 2048 | 3072 | 4096);
        report.require(205, is_good, numbers.modulus);
    }
}

/// "206 exponent odd, from 65,537 to below 2^256−1."
fn rule_206(case: Case, numbers: &RsaNumbers, report: &mut Report) {
    if case.profile.has_rule(206) {
        let contents = numbers.exponent.contents();
        let is_good = is_odd(contents) && is_from_65537_to_below_2_to_256_less_1(contents);
        report.require(206, is_good, numbers.exponent);
    }
}

/// "207 O: modulus divisible by none of the 133 primes below 752."
fn rule_207(case: Case, numbers: &RsaNumbers, report: &mut Report) {
    if case.profile.has_rule(207) {
        let is_good = is_divisible_by_no_small_prime(numbers.modulus.contents());
        report.require(207, is_good, numbers.modulus);
    }
}

/// "208, modulus at least 2048 bits"
fn rule_208(case: Case, numbers: &RsaNumbers, report: &mut Report) {
    if case.profile.has_rule(208) {
        let is_good = bits(numbers.modulus.contents()) >= 2048;
        report.require(208, is_good, numbers.modulus);
    }
}
