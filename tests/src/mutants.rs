//! Pairs of certificates after chance changes: a stream of cases of which only the answers of two
//! linters are compared.

use crate::correct::correct;
use crate::element::Part;
use crate::faults::{catalogue, Fault};
use crate::mutation::{mutate_element, mutate_octets};
use crate::outside;
use crate::profile::{any_slot, identifier_of, ALL};
use crate::random::Random;

/// The octets of a pair of which nothing is expected.
#[derive(Clone, Debug)]
pub struct Mutant {
    pub profile: u8,
    pub certificate: Vec<u8>,
    pub issuer: Vec<u8>,
}

pub struct Mutants {
    random: Random,
    faults: Vec<Fault>,
    outside: Vec<Vec<u8>>,
}

impl Mutants {
    pub fn new(purpose: &str) -> Mutants {
        let outside = outside::certificates().into_iter().map(|item| item.octets).collect();
        Mutants { random: Random::for_purpose(purpose), faults: catalogue(), outside }
    }

    /// A generated pair with a fault perhaps, one side of it changed element by element and then
    /// octet by octet.
    fn generated(&mut self) -> Mutant {
        let random = &mut self.random;
        let profile = *random.choose(ALL);
        let mut pair = correct(profile, random);
        let fault = random.choose(&self.faults);
        if fault.exists_in(profile) && random.once_in(2) {
            fault.apply(&mut pair, random);
        }
        let (mut certificate, mut issuer) = (pair.certificate.element(), pair.issuer.element());
        let changed = if random.once_in(5) { &mut issuer } else { &mut certificate };
        let octets_too = random.once_in(3);
        let count = if octets_too { random.below(2) } else { random.between(1, 4) };
        for _ in 0..count {
            mutate_element(changed, random);
        }
        let mut mutant = Mutant { profile, certificate: certificate.octets(), issuer: issuer.octets() };
        if octets_too {
            mutate_octets(&mut mutant.certificate, random);
        }
        mutant
    }

    /// A generated pair whose extensions are changed inside their values, where nothing can be
    /// refused.
    fn with_changed_values(&mut self) -> Mutant {
        let random = &mut self.random;
        let profile = *random.choose(ALL);
        let mut pair = correct(profile, random);
        for _ in 0..random.between(1, 3) {
            let position = random.below(pair.certificate.extensions.len());
            let extension = &mut pair.certificate.extensions[position];
            match (random.below(8), extension.value.first_mut()) {
                (0, _) => extension.critical = !extension.critical,
                (1, _) => extension.identifier = identifier_of(any_slot(random)),
                (2, Some(Part::Octets(octets))) => mutate_octets(octets, random),
                (_, Some(Part::Element(value))) => mutate_element(value, random),
                (_, _) => {
                    let repeat = extension.clone();
                    pair.certificate.extensions.push(repeat);
                }
            }
        }
        let (certificate, issuer) = (pair.certificate.element(), pair.issuer.element());
        Mutant { profile, certificate: certificate.octets(), issuer: issuer.octets() }
    }

    /// An outside certificate with octets changed, under an issuer from outside.
    fn from_outside(&mut self) -> Mutant {
        let random = &mut self.random;
        let mut certificate = random.choose(&self.outside).clone();
        let issuer = random.choose(&self.outside).clone();
        mutate_octets(&mut certificate, random);
        Mutant { profile: *random.choose(ALL), certificate, issuer }
    }
}

impl Iterator for Mutants {
    type Item = Mutant;

    fn next(&mut self) -> Option<Mutant> {
        let mut mutant = match self.random.below(6) {
            0 => self.from_outside(),
            1 | 2 => self.generated(),
            _ => self.with_changed_values(),
        };
        mutant.certificate.truncate(u16::MAX.into());
        mutant.issuer.truncate(u16::MAX.into());
        Some(mutant)
    }
}

/// Generated certificates with a fault perhaps: as they are, with one element changed, and with
/// octets changed besides.
pub fn whole_and_mutated(purpose: &str) -> impl Iterator<Item = Vec<u8>> {
    let mut random = Random::for_purpose(purpose);
    let faults = catalogue();
    std::iter::repeat_with(move || {
        let profile = *random.choose(ALL);
        let mut pair = correct(profile, &mut random);
        let fault = random.choose(&faults);
        if fault.exists_in(profile) {
            fault.apply(&mut pair, &mut random);
        }
        let mut tree = pair.certificate.element();
        let change = random.below(3);
        if change > 0 {
            mutate_element(&mut tree, &mut random);
        }
        let mut octets = tree.octets();
        if change > 1 {
            mutate_octets(&mut octets, &mut random);
        }
        octets
    })
}

/// Everything from outside, each item as it is and three times with octets changed.
pub fn outside_whole_and_mutated(purpose: &str) -> Vec<Vec<u8>> {
    let mut random = Random::for_purpose(purpose);
    let mut items = Vec::new();
    let sources = [outside::certificates(), outside::revocation_lists(), outside::not_certificates()];
    for item in sources.into_iter().flatten() {
        items.push(item.octets.clone());
        for _ in 0..3 {
            let mut octets = item.octets.clone();
            mutate_octets(&mut octets, &mut random);
            items.push(octets);
        }
    }
    items
}
