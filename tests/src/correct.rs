//! Pairs of a certificate and its issuer's with what is expected of them, and correct ones: a plain one for each profile,
//! and any other.

use reference::{Answer, Entry, Refusal};

use crate::calendar::{Moment, DAY};
use crate::certificate::{
    algorithm, signature_algorithm, version, Attribute, Certificate, Extension, KeyKind, Name, RelativeName,
};
use crate::element::{tag, Element, Encoded, Mark};
use crate::entries::entry;
use crate::general_names::*;
use crate::keys;
use crate::object_identifiers as oid;
use crate::profile::{identifier_of, is_authority, is_responder, is_server, standing, SLOTS};
use crate::random::Random;
use crate::variations::vary;

pub const HOST: &str = "www.agency.example";

/// What the CN of a subordinate CA says before its number, of production and of a test.
pub const AUTHORITY_NAMES: [&str; 2] = ["US Federal TLS CA ", "US Federal Test TLS CA "];

/// Key usage bits by their positions (RFC 5280, 4.2.1.3).
pub mod usage {
    pub const DIGITAL_SIGNATURE: usize = 0;
    pub const KEY_ENCIPHERMENT: usize = 2;
    pub const KEY_AGREEMENT: usize = 4;
    pub const KEY_CERTIFICATE_SIGN: usize = 5;
    pub const CRL_SIGN: usize = 6;
}

/// A certificate and its issuer's, to be judged under a profile.
#[derive(Clone, Debug)]
pub struct Pair {
    pub profile: u8,
    pub certificate: Certificate,
    pub issuer: Certificate,
}

/// The octets of a pair, and the answer that the paper calls for.
#[derive(Clone, Debug)]
pub struct Case {
    pub profile: u8,
    pub certificate: Vec<u8>,
    pub issuer: Vec<u8>,
    pub expected: Answer,
}

impl Pair {
    pub fn encode(&self) -> Case {
        let certificate = self.certificate.element().encode();
        Case {
            profile: self.profile,
            expected: Answer::Report(findings(&certificate)),
            certificate: certificate.octets,
            issuer: self.issuer.element().octets(),
        }
    }

    pub fn extension(&mut self, slot: u8) -> &mut Extension {
        self.certificate.extension(&identifier_of(slot))
    }

    pub fn is_server(&self) -> bool {
        is_server(self.profile)
    }

    pub fn is_responder(&self) -> bool {
        is_responder(self.profile)
    }

    pub fn is_authority(&self) -> bool {
        is_authority(self.profile)
    }
}

/// The entries that the marks of an encoding call for. "Entries rise by rule, then start", whatever their level.
pub fn findings(encoded: &Encoded) -> Vec<Entry> {
    let due = |(mark, place): &(Mark, crate::element::Place)| match mark {
        Mark::Breaks(rule) => Some(entry(*rule, place.start, place.length)),
        _ => None,
    };
    let mut entries: Vec<Entry> = encoded.marks.iter().filter_map(due).collect();
    entries.sort_by_key(|entry| (entry.rule, entry.start));
    entries
}

/// The refusal that the marks of an encoding call for, on the given side.
pub fn refusal(encoded: &Encoded, side: u8) -> Refusal {
    let refusal = |(mark, place): &(Mark, crate::element::Place)| match mark {
        Mark::Refused(number) => Some(Refusal { number: *number, side, place: place.start }),
        _ => None,
    };
    let refusals: Vec<Refusal> = encoded.marks.iter().filter_map(refusal).collect();
    assert_eq!(refusals.len(), 1, "one refusal is expected at one place");
    refusals[0]
}

/// The plainest correct pair of a profile; always the same.
pub fn plain(profile: u8) -> Pair {
    let mut random = Random::for_purpose("the plain certificate");
    let issuer = plain_issuer(profile, &mut random);
    let certificate = plain_certificate(profile, &issuer, &mut random);
    Pair { profile, certificate, issuer }
}

/// A correct pair of a profile, with everything varied that the rules leave free.
pub fn correct(profile: u8, random: &mut Random) -> Pair {
    let mut pair = plain(profile);
    vary(&mut pair, random);
    pair
}

/// As short a certificate as is not refused. It breaks many rules.
pub fn shortest() -> Certificate {
    let algorithm = || algorithm(vec![0x2A], None);
    Certificate {
        version: None,
        serial: Element::integer(&[1]),
        inner_algorithm: algorithm(),
        issuer: Name::default(),
        subject: Name::default(),
        key_algorithm: algorithm(),
        key_bits: Element::bit_string(0, &[]),
        extensions: Vec::new(),
        outer_algorithm: algorithm(),
        signature: Element::bit_string(0, &[]),
        ..plain(1).certificate
    }
}

/// As short a certificate as has every field, and two of what can be repeated.
pub fn shortest_with_every_field() -> Certificate {
    let attribute = |text: &str| Attribute::new(vec![0x2A], Element::utf8(text));
    let extension = |critical: bool| Extension::new(vec![0x2A], critical, Element::null());
    let algorithm = algorithm(vec![0x2A], Some(Element::null()));
    Certificate {
        version: Some(version(2)),
        inner_algorithm: algorithm.clone(),
        issuer: Name::of(vec![attribute("a")]),
        not_after: Moment::at(2050, 1, 1).generalized(),
        subject: Name {
            sets: vec![RelativeName::of(vec![attribute("a"), attribute("b")])],
            ..Name::default()
        },
        key_algorithm: algorithm.clone(),
        issuer_unique: Some(Element::primitive(tag::context(1), &[])),
        subject_unique: Some(Element::primitive(tag::context(2), &[0])),
        extensions: vec![extension(true), extension(false)],
        outer_algorithm: algorithm,
        ..shortest()
    }
}

pub const ISSUER_KEY_IDENTIFIER: [u8; 20] = *b"issuer's key, hashed";

fn federal_name(common_name: &str) -> Name {
    Name::of(vec![
        Attribute::new(oid::country(), Element::printable("US")),
        Attribute::new(oid::organization(), Element::printable("U.S. Government")),
        Attribute::new(oid::common_name(), Element::printable(common_name)),
    ])
}

/// A subordinate CA; the issuer of one is the root.
fn plain_issuer(profile: u8, random: &mut Random) -> Certificate {
    let root = || federal_name("US Federal Root CA");
    let own = if is_authority(profile) { root() } else { federal_name("US Federal TLS CA 1") };
    let mut constraints = vec![Element::boolean(true)];
    if !is_authority(profile) {
        constraints.push(Element::integer(&[0]));
    }
    let mut issuer = bare_certificate(root(), own, random);
    issuer.extensions = vec![
        Extension::new(oid::basic_constraints(), true, Element::sequence(constraints)),
        Extension::new(oid::key_usage(), true, named_bits(&AUTHORITY_USAGE)),
        Extension::new(oid::subject_key_identifier(), false, Element::octet_string(&ISSUER_KEY_IDENTIFIER)),
    ];
    issuer
}

fn plain_certificate(profile: u8, issuer: &Certificate, random: &mut Random) -> Certificate {
    let mut certificate = bare_certificate(issuer.subject.clone(), plain_subject(profile), random);
    for slot in SLOTS {
        let standing = standing(slot, profile);
        if standing.is_mandatory() {
            let value = plain_value(slot, profile);
            certificate.extensions.push(Extension::new(identifier_of(slot), standing.is_critical(), value));
        }
    }
    certificate
}

fn bare_certificate(issuer: Name, subject: Name, random: &mut Random) -> Certificate {
    let not_before = Moment::at(2024, 1, 1);
    let mut certificate = Certificate {
        version: Some(version(2)),
        serial: Element::integer(&[&[0x4D], random.octets(9).as_slice()].concat()),
        inner_algorithm: signature_algorithm(),
        issuer,
        not_before: not_before.utc(),
        not_after: not_before.later(30 * DAY).utc(),
        subject,
        key_kind: KeyKind::Rsa,
        key_algorithm: Element::null(),
        key_bits: Element::null(),
        issuer_unique: None,
        subject_unique: None,
        extensions: Vec::new(),
        outer_algorithm: signature_algorithm(),
        signature: Element::bit_string(0, &random.octets(256)),
        tbs_marks: Vec::new(),
        validity_marks: Vec::new(),
        list_marks: Vec::new(),
    };
    let modulus = keys::good_modulus(2048, random);
    keys::use_rsa(&mut certificate, &modulus, &[1, 0, 1]);
    certificate
}

fn plain_subject(profile: u8) -> Name {
    if is_authority(profile) {
        return federal_name("US Federal TLS CA 1");
    }
    let mut attributes = vec![Attribute::new(oid::country(), Element::printable("US"))];
    if profile >= 2 {
        attributes.push(Attribute::new(oid::organization(), Element::printable("U.S. Government")));
    }
    if profile == 2 {
        attributes.push(Attribute::new(oid::state(), Element::printable("District of Columbia")));
    }
    attributes.push(Attribute::new(oid::common_name(), Element::utf8(HOST)));
    Name::of(attributes)
}

/// A good value of an extension, without anything that could be left out.
pub fn plain_value(slot: u8, profile: u8) -> Element {
    match slot {
        1 => Element::sequence(vec![Element::primitive(tag::context(0), &ISSUER_KEY_IDENTIFIER)]),
        2 => plain_constraints(profile),
        3 => Element::octet_string(b"subject's key hashed"),
        4 => plain_usage(profile),
        5 => Element::sequence(vec![Element::object_identifier(&wanted_purpose(profile))]),
        6 => plain_policies(profile),
        7 => general_names(vec![dns(HOST)]),
        8 => plain_access(profile),
        9 => Element::sequence(vec![point(vec![full_name(vec![uri("http://crl.agency.example/list")])])]),
        10 => Element::null(),
        11 => plain_name_constraints(),
        _ => panic!("the table has no row {slot}"),
    }
}

/// The usages that an authority must name.
pub const AUTHORITY_USAGE: [usize; 2] = [usage::KEY_CERTIFICATE_SIGN, usage::CRL_SIGN];

fn plain_usage(profile: u8) -> Element {
    if is_authority(profile) {
        named_bits(&AUTHORITY_USAGE)
    } else {
        named_bits(&[usage::DIGITAL_SIGNATURE])
    }
}

fn plain_constraints(profile: u8) -> Element {
    if is_authority(profile) {
        Element::sequence(vec![Element::boolean(true), Element::integer(&[0])])
    } else {
        Element::sequence(vec![])
    }
}

fn plain_name_constraints() -> Element {
    let everywhere = subtree(internet_address(&[0; 8]), vec![]);
    name_constraints(vec![subtree(dns("agency.example"), vec![])], vec![everywhere])
}

pub fn wanted_purpose(profile: u8) -> Vec<u8> {
    if is_responder(profile) {
        oid::ocsp_signing()
    } else {
        oid::server_auth()
    }
}

/// The policies of the forum of which a profile wants one at least.
pub fn forum_policies(profile: u8) -> Vec<Vec<u8>> {
    match profile {
        1 => vec![oid::domain_validated()],
        2 => vec![oid::organization_validated()],
        4 => vec![oid::domain_validated(), oid::organization_validated()],
        _ => vec![],
    }
}

fn plain_policies(profile: u8) -> Element {
    let mut policies = vec![policy(oid::federal_policy(), vec![])];
    policies.extend(forum_policies(profile).into_iter().take(1).map(|identifier| policy(identifier, vec![])));
    Element::sequence(policies)
}

fn plain_access(profile: u8) -> Element {
    let mut entries = vec![access(oid::access_to_issuers(), uri("http://ca.agency.example/issuer.p7c"))];
    if !is_responder(profile) {
        entries.insert(0, access(oid::access_by_ocsp(), uri("http://ocsp.agency.example")));
    }
    Element::sequence(entries)
}

/// Gives an extension of the table this value, and the extension to the certificate if it had none.
pub fn set_extension(pair: &mut Pair, slot: u8, value: Element) {
    let identifier = identifier_of(slot);
    if pair.certificate.has_extension(&identifier) {
        pair.extension(slot).set_value(value);
    } else {
        let critical = standing(slot, pair.profile).is_critical();
        pair.certificate.extensions.push(Extension::new(identifier, critical, value));
    }
}
