//! Single faults: each makes a correct pair break known rules at known places, and no others.

mod extensions;
pub mod fields;
pub mod key;
pub mod values;

use crate::correct::{correct, plain, set_extension, Pair, HOST};
use crate::general_names::{dns, general_names};
use crate::profile::breaking_in;
use crate::random::Random;

/// What a fault changes or depends on. Faults that share nothing can be put into one certificate.
#[derive(Clone, Copy, Debug, PartialEq, Eq)]
pub enum Aspect {
    Version,
    Serial,
    Algorithms,
    IssuerName,
    Times,
    CommonName,
    Country,
    Organization,
    State,
    OtherAttributes,
    Key,
    /// Whether an extension of the table is there, and what it holds.
    Extension(u8),
    /// Whether an extension of the table is critical.
    Critical(u8),
    OtherExtensions,
}

#[derive(Clone)]
pub struct Fault {
    pub name: String,
    /// The rules that it breaks, each once or oftener.
    pub rules: Vec<u16>,
    pub profiles: Vec<u8>,
    pub touches: Vec<Aspect>,
    apply: fn(&mut Pair, &mut Random, u8),
    /// Handed to `apply`, so that one function serves every row of the table of extensions.
    slot: u8,
}

impl Fault {
    pub fn apply(&self, pair: &mut Pair, random: &mut Random) {
        (self.apply)(pair, random, self.slot);
    }

    pub fn exists_in(&self, profile: u8) -> bool {
        self.profiles.contains(&profile)
    }

    pub fn is_independent_of(&self, other: &Fault) -> bool {
        !self.touches.iter().any(|aspect| other.touches.contains(aspect))
    }
}

/// All faults there are.
pub fn catalogue() -> Vec<Fault> {
    let mut faults = Catalogue { faults: Vec::new() };
    fields::add(&mut faults);
    key::add(&mut faults);
    extensions::add(&mut faults);
    values::add(&mut faults);
    faults.faults
}

struct Catalogue {
    faults: Vec<Fault>,
}

impl Catalogue {
    /// The catalogue, for faults that all touch the same.
    fn touching<'a>(&'a mut self, touches: &'a [Aspect]) -> Addition<'a> {
        self.of_slot(0, touches)
    }

    /// The same for faults of one row of the table of extensions.
    fn of_slot<'a>(&'a mut self, slot: u8, touches: &'a [Aspect]) -> Addition<'a> {
        Addition { catalogue: self, slot, touches }
    }
}

struct Addition<'a> {
    catalogue: &'a mut Catalogue,
    slot: u8,
    touches: &'a [Aspect],
}

impl Addition<'_> {
    fn add(&mut self, name: &str, rules: &[u16], profiles: &[u8], apply: fn(&mut Pair, &mut Random, u8)) {
        self.catalogue.faults.push(Fault {
            name: name.to_string(),
            rules: rules.to_vec(),
            profiles: profiles.to_vec(),
            touches: self.touches.to_vec(),
            apply,
            slot: self.slot,
        });
    }
}

/// A correct certificate with some faults, no two of which touch the same thing.
pub fn mix(profile: u8, faults: &[Fault], random: &mut Random) -> Pair {
    let mut pair = correct(profile, random);
    let mut chosen: Vec<&Fault> = Vec::new();
    for _ in 0..random.between(2, 14) {
        let fault = random.choose(faults);
        if fault.exists_in(profile) && chosen.iter().all(|other| fault.is_independent_of(other)) {
            fault.apply(&mut pair, random);
            chosen.push(fault);
        }
    }
    pair
}

/// As many host names "_" as fit into a certificate: at a server two entries for three octets, because
/// they are one label, and an underscore is in it; else one.
pub fn densest(profile: u8) -> Pair {
    let mut pair = plain(profile);
    set_extension(&mut pair, 7, general_names(vec![dns(HOST)]));
    let name = breaking_in(profile, 413, breaking_in(profile, 414, dns("_")));
    let bare = pair.encode().certificate.len();
    for _ in 0..(8192 - bare - 20) / 3 {
        pair.extension(7).value().push(name.clone());
    }
    pair
}

/// Why a rule never is a certificate's only finding in a profile; `None` where it can be.
pub fn why_never_alone(profile: u8, rule: u16) -> Option<&'static str> {
    match (profile, rule) {
        (_, 105) => {
            Some("it differs from a right outer algorithm (107), or the outer one is wrong too (106)")
        }
        (_, 106) => {
            Some("it differs from a right inner algorithm (107), or the inner one is wrong too (105)")
        }
        (_, 107) => Some("two right algorithms are the same octets, so one is wrong (105 or 106)"),
        (3, 407) => Some("a list of purposes is not empty, and without OCSPSigning each is another (408)"),
        _ => None,
    }
}
