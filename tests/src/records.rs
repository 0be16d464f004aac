//! Records of every kind: correct, faulty, refused, tiny or of the largest size, with the answers
//! that the rules call for.

use reference::{Answer, Refusal};

use crate::correct::{correct, Case};
use crate::deck::Record;
use crate::element::Element;
use crate::faults::catalogue;
use crate::profile::ALL;
use crate::random::Random;

/// "certificate has 0 or over 8,192 bytes"
pub const LONGEST_SIDE: usize = 8_192;

pub fn refused(number: u8, side: u8, place: usize) -> Answer {
    Answer::Refused(Refusal { number, side, place })
}

/// A record of any kind.
pub fn any_record(number: u32, random: &mut Random) -> Record {
    let case = match random.below(8) {
        0 => tiny(random),
        1 => largest(random),
        2 => unknown_profile(random),
        3 => empty_sides(random),
        _ => linted(random),
    };
    Record { number, case }
}

/// A pair that is accepted, with a fault or none.
pub fn linted(random: &mut Random) -> Case {
    let faults = catalogue();
    let profile = *random.choose(ALL);
    let mut pair = correct(profile, random);
    for _ in 0..random.below(3) {
        let fault = random.choose(&faults);
        if fault.exists_in(profile) {
            fault.apply(&mut pair, random);
            break;
        }
    }
    pair.encode()
}

pub fn tiny(random: &mut Random) -> Case {
    tiny_of(*random.choose(ALL))
}

/// A record of one block and a profile that there is.
pub fn tiny_of(profile: u8) -> Case {
    let empty = vec![0x30, 0];
    Case { profile, certificate: empty.clone(), issuer: empty, expected: refused(6, 1, 0) }
}

/// Two elements of the most octets that are allowed: a record of 33 blocks.
pub fn largest(random: &mut Random) -> Case {
    let element = Element::octet_string(&random.octets(LONGEST_SIDE - 4)).octets();
    assert_eq!(element.len(), LONGEST_SIDE);
    Case { profile: 2, certificate: element.clone(), issuer: element, expected: refused(6, 1, 0) }
}

/// The reader asks nothing of the profile octet; the linter refuses it.
pub fn unknown_profile(random: &mut Random) -> Case {
    let case = linted(random);
    Case { profile: *random.choose(&[0, 5, 6, 200, 255]), expected: refused(3, 0, 0), ..case }
}

/// Records that our writer would not write and that are well formed all the same.
pub fn empty_sides(random: &mut Random) -> Case {
    let case = linted(random);
    match random.below(3) {
        0 => Case { certificate: Vec::new(), issuer: Vec::new(), expected: refused(1, 1, 0), ..case },
        1 => Case { certificate: Vec::new(), expected: refused(1, 1, 0), ..case },
        _ => Case { issuer: Vec::new(), expected: refused(2, 2, 0), ..case },
    }
}

/// A record of two blocks.
pub fn of_two_blocks(random: &mut Random) -> Case {
    let certificate = Element::octet_string(&random.octets(600)).octets();
    Case { profile: 1, certificate, issuer: vec![0x30, 0], expected: refused(6, 1, 0) }
}

/// A record of this length N, from 5 to 16,387. Its certificate is one octet and no element, or more where
/// the issuer would be too long else.
pub fn of_length(length: usize) -> Case {
    let octets = length.checked_sub(3).expect("a record has three octets at least");
    let issuer = vec![0x55; octets.saturating_sub(1).min(LONGEST_SIDE)];
    let certificate = vec![0x30; octets - issuer.len()];
    assert!(!issuer.is_empty() && certificate.len() <= LONGEST_SIDE, "our writer writes such a record");
    Case { profile: 1, certificate, issuer, expected: refused(4, 1, 0) }
}
