//! Variations of a correct certificate that stay correct.

mod authority;

use crate::calendar::{Fields, Moment};
use crate::certificate::{Attribute, Extension, KeyKind, Name, RelativeName};
use crate::correct::*;
use crate::element::{tag, Element, Part};
use crate::general_names::*;
use crate::keys;
use crate::object_identifiers as oid;
use crate::profile::last_permitted_second;
use crate::random::Random;

/// Varies everything that the rules leave free.
pub fn vary(pair: &mut Pair, random: &mut Random) {
    vary_serial(pair, random);
    vary_names(pair, random);
    vary_validity(pair, random);
    vary_identifiers(pair, random);
    if pair.is_authority() {
        authority::vary(pair, random);
    } else {
        vary_end_entity(pair, random);
    }
    vary_the_unread(pair, random);
    random.shuffle(&mut pair.certificate.extensions);
}

fn vary_end_entity(pair: &mut Pair, random: &mut Random) {
    vary_key_and_usage(pair, random);
    vary_purposes(pair, random);
    vary_policies(pair, random);
    vary_host_names(pair, random);
    vary_access(pair, random);
    vary_points(pair, random);
    vary_other_extensions(pair, random);
}

fn vary_serial(pair: &mut Pair, random: &mut Random) {
    let least = if pair.is_responder() { 8 } else { 1 };
    pair.certificate.serial = Element::integer(&positive_contents(random.between(least, 20), random));
}

/// Contents octets of a positive INTEGER of exactly this length.
pub fn positive_contents(length: usize, random: &mut Random) -> Vec<u8> {
    let mut contents = random.octets(length);
    if length > 1 && random.once_in(3) {
        contents[0] = 0;
        contents[1] |= 0x80;
    } else {
        contents[0] = random.between(1, 0x7F) as u8;
    }
    contents
}

fn vary_names(pair: &mut Pair, random: &mut Random) {
    if random.once_in(3) {
        pair.issuer.subject = any_name(random);
        pair.certificate.issuer = pair.issuer.subject.clone();
    }
    let responder = pair.is_responder();
    let subject = &mut pair.certificate.subject;
    if pair.profile == 3 && random.once_in(2) {
        for _ in 0..random.between(1, 3) {
            subject.push(Attribute::new(oid::organizational_unit(), any_text(random)));
        }
    }
    if [2, 3].contains(&pair.profile) && random.once_in(2) {
        subject.attribute(&oid::organization()).value = Element::utf8("U.S. Government");
    }
    if pair.profile == 2 && random.once_in(2) {
        subject.attribute(&oid::state()).value = Element::utf8("District of Columbia");
    }
    random.shuffle(&mut subject.sets);
    if !responder && random.once_in(3) {
        join_two_sets(subject);
    }
    if responder {
        subject.attribute(&oid::common_name()).value = any_text(random);
    }
}

/// Puts the last two attributes into one set; only profile 3 forbids it.
fn join_two_sets(name: &mut Name) {
    let mut last = name.sets.pop().expect("a subject has sets");
    let before = name.sets.last_mut().expect("a subject has two sets or more");
    before.attributes.append(&mut last.attributes);
}

pub fn any_name(random: &mut Random) -> Name {
    let kinds =
        [oid::country(), oid::organization(), oid::common_name(), oid::locality(), oid::domain_component()];
    let sets = (0..random.below(6)).map(|_| {
        let count = if random.once_in(4) { random.between(2, 3) } else { 1 };
        RelativeName::of(
            (0..count).map(|_| Attribute::new(random.choose(&kinds).clone(), any_text(random))).collect(),
        )
    });
    Name { sets: sets.collect(), marks: Vec::new() }
}

fn any_text(random: &mut Random) -> Element {
    let kinds =
        [tag::UTF8_STRING, tag::PRINTABLE_STRING, tag::IA5_STRING, tag::BMP_STRING, tag::TELETEX_STRING];
    let length = random.below(20);
    let text: Vec<u8> = (0..length).map(|_| *random.choose(b"abcdefgh XYZ.-_0123456789")).collect();
    Element::primitive(*random.choose(&kinds), &text)
}

fn vary_validity(pair: &mut Pair, random: &mut Random) {
    let not_before = any_moment(random);
    let last = last_permitted_second(pair.profile, not_before).min(Moment::last());
    let not_after = match random.below(4) {
        0 => last,
        1 => not_before,
        _ => not_before.later(random.below((last.seconds - not_before.seconds) as usize + 1) as i64),
    };
    pair.certificate.not_before = not_before.due_form();
    pair.certificate.not_after = not_after.due_form();
}

/// A moment from 1950 to 9990, most often near today or near the change of form.
pub fn any_moment(random: &mut Random) -> Moment {
    let year = match random.below(5) {
        0 => 2049,
        1 => random.between(1950, 2049) as i64,
        2 => random.between(2050, 9990) as i64,
        _ => random.between(2020, 2030) as i64,
    };
    let month = random.between(1, 12) as i64;
    Moment::at_time(Fields {
        year,
        month,
        day: random.between(1, crate::calendar::days_of_month(year, month) as usize) as i64,
        hour: random.below(24) as i64,
        minute: random.below(60) as i64,
        second: random.below(60) as i64,
    })
}

fn vary_key_and_usage(pair: &mut Pair, random: &mut Random) {
    if pair.is_server() && random.once_in(3) {
        keys::use_good_elliptic_curve(&mut pair.certificate, random);
    } else {
        keys::use_good_rsa(&mut pair.certificate, random);
    }
    let mut bits = vec![usage::DIGITAL_SIGNATURE];
    if random.once_in(2) {
        bits.extend(second_usage(pair));
    }
    pair.extension(4).set_value(named_bits(&bits));
}

/// The one usage besides digitalSignature that this pair may name, if any.
pub fn second_usage(pair: &Pair) -> Option<usize> {
    match pair.certificate.key_kind {
        _ if !pair.is_server() => None,
        KeyKind::Rsa => Some(usage::KEY_ENCIPHERMENT),
        KeyKind::EllipticCurve => Some(usage::KEY_AGREEMENT),
        KeyKind::Other => None,
    }
}

fn vary_identifiers(pair: &mut Pair, random: &mut Random) {
    let length = if random.once_in(3) { random.below(40) } else { 20 };
    let identifier = random.octets(length);
    let of_issuer = pair.issuer.extension(&oid::subject_key_identifier());
    of_issuer.set_value(Element::octet_string(&identifier));
    let mut fields = vec![Element::primitive(tag::context(0), &identifier)];
    if random.once_in(3) {
        fields.push(Element::constructed(tag::context_constructed(1), any_general_names(random)));
    }
    if random.once_in(3) {
        fields.push(Element::primitive(tag::context(2), &positive_contents(5, random)));
    }
    pair.extension(1).set_value(Element::sequence(fields));
    let subject = random.octets(20);
    pair.extension(3).set_value(Element::octet_string(&subject));
}

/// One name or more of any form, each well formed.
pub fn any_general_names(random: &mut Random) -> Vec<Element> {
    (0..random.between(1, 4)).map(|_| any_general_name(random)).collect()
}

pub fn any_general_name(random: &mut Random) -> Element {
    match random.below(9) {
        0 => dns("host.agency.example"),
        1 => mail("desk@agency.example"),
        2 => internet_address(&random.octets(4)),
        3 => registered_identifier(&oid::private_extension()),
        4 => directory(&any_name(random)),
        5 => other_name(oid::private_extension(), Element::utf8("other")),
        6 => x400(vec![Element::sequence(vec![])]),
        7 => edi_party(vec![Element::constructed(
            tag::context_constructed(1),
            vec![Element::printable("party")],
        )]),
        _ => uri("ldap://directory.agency.example/o=list"),
    }
}

fn vary_purposes(pair: &mut Pair, random: &mut Random) {
    let mut purposes = vec![Element::object_identifier(&wanted_purpose(pair.profile))];
    if random.once_in(4) {
        purposes.push(purposes[0].clone());
    }
    if pair.is_server() && random.once_in(2) {
        purposes.push(Element::object_identifier(&oid::client_auth()));
    }
    random.shuffle(&mut purposes);
    pair.extension(5).set_value(Element::sequence(purposes));
}

fn vary_policies(pair: &mut Pair, random: &mut Random) {
    let federal = if random.once_in(2) { oid::federal_policy() } else { oid::federal_policy_long() };
    let mut policies = vec![policy(federal, any_qualifiers(random))];
    for identifier in forum_policies(pair.profile) {
        policies.push(policy(identifier, any_qualifiers(random)));
    }
    if random.once_in(3) {
        policies.push(policy(oid::any_policy(), vec![]));
    }
    random.shuffle(&mut policies);
    pair.extension(6).set_value(Element::sequence(policies));
}

fn any_qualifiers(random: &mut Random) -> Vec<Element> {
    let statement = || Element::primitive(tag::IA5_STRING, b"http://www.agency.example/cps");
    (0..random.below(3)).map(|_| qualifier(oid::practice_statement(), statement())).collect()
}

/// A host name that keeps every rule.
pub fn any_host(random: &mut Random) -> String {
    let letters = b"abcdefghijklmnopqrstuvwxyzABCDEFGHIJKLMNOPQRSTUVWXYZ0123456789";
    let label = |random: &mut Random| {
        let length = if random.once_in(6) { 63 } else { random.between(1, 12) };
        let mut label: Vec<u8> = (0..length).map(|_| *random.choose(letters)).collect();
        if length > 2 && random.once_in(3) {
            let position = random.between(1, length - 2);
            label[position] = b'-';
        }
        String::from_utf8(label).expect("a label is ASCII")
    };
    let labels: Vec<String> = (0..random.between(2, 4)).map(|_| label(random)).collect();
    let mut host = labels.join(".");
    // Four labels of 63 octets and three dots are two octets too many.
    while host.len() > 253 || host.ends_with('-') {
        host.pop();
    }
    host
}

fn vary_host_names(pair: &mut Pair, random: &mut Random) {
    if !pair.is_server() && random.once_in(2) {
        return;
    }
    let mut hosts: Vec<String> = (0..random.between(1, 10)).map(|_| any_host(random)).collect();
    if pair.is_server() {
        let chosen = random.choose(&hosts).clone();
        pair.certificate.subject.attribute(&oid::common_name()).value =
            Element::utf8(&swap_case(&chosen, random));
    } else if random.once_in(3) {
        // Profile 3 is not judged by 413, and an underscore passes 414.
        hosts.push("under_score.agency.example".to_string());
    }
    let names = general_names(hosts.iter().map(|host| dns(host)).collect());
    set_extension(pair, 7, names);
}

/// The same text with some letters in the other case.
fn swap_case(text: &str, random: &mut Random) -> String {
    let swap = |letter: char, random: &mut Random| match letter {
        _ if !random.once_in(3) => letter,
        'a'..='z' => letter.to_ascii_uppercase(),
        _ => letter.to_ascii_lowercase(),
    };
    text.chars().map(|letter| swap(letter, random)).collect()
}

fn vary_access(pair: &mut Pair, random: &mut Random) {
    let mut entries = Vec::new();
    if pair.is_server() {
        let address = random.choose(&["http://ocsp.agency.example", "ldap://any", "", "https://ocsp"]);
        entries.push(access(oid::access_by_ocsp(), uri(address)));
        let address = random.choose(&["http://ca.agency.example/i", "HTTP://x", "hTtP:///"]);
        entries.push(access(oid::access_to_issuers(), uri(address)));
    } else {
        let address = random.choose(&["http://ca.agency.example/i", "ldap://ca", "", "https://ca"]);
        entries.push(access(oid::access_to_issuers(), uri(address)));
        if random.once_in(2) {
            entries.push(access(oid::access_to_issuers(), any_general_name(random)));
        }
    }
    if random.once_in(2) {
        entries.push(access(oid::access_by_ocsp(), any_general_name(random)));
    }
    if random.once_in(3) {
        entries.push(access(oid::access_to_repository(), any_general_name(random)));
    }
    random.shuffle(&mut entries);
    pair.extension(8).set_value(Element::sequence(entries));
}

fn vary_points(pair: &mut Pair, random: &mut Random) {
    if random.once_in(2) {
        return;
    }
    let mut names = any_general_names(random);
    let address = random.choose(&["http://crl.agency.example/1", "HTTP://y", "http://?"]);
    names.push(uri(address));
    set_extension(pair, 9, any_points(names, random));
}

/// A point whose full name has these names, among others that name nothing or are relative.
fn any_points(mut names: Vec<Element>, random: &mut Random) -> Element {
    random.shuffle(&mut names);
    let mut points = vec![point(vec![full_name(names)])];
    if random.once_in(3) {
        points.push(point(vec![]));
    }
    if random.once_in(3) {
        let attribute = Attribute::new(oid::common_name(), any_text(random)).element();
        points.push(point(vec![relative_name(vec![attribute])]));
    }
    random.shuffle(&mut points);
    Element::sequence(points)
}

fn vary_other_extensions(pair: &mut Pair, random: &mut Random) {
    if pair.is_server() {
        let others = [
            oid::transparency_list(),
            oid::ocsp_nocheck(),
            oid::private_key_usage_period(),
            oid::name_constraints(),
        ];
        for identifier in others {
            if random.once_in(3) {
                add_other_extension(pair, identifier, false, random);
            }
        }
    } else if random.once_in(3) {
        let critical = random.once_in(2);
        add_other_extension(pair, oid::private_key_usage_period(), critical, random);
    }
}

/// What an extension outside the table holds is free, even if it is not DER.
fn add_other_extension(pair: &mut Pair, identifier: Vec<u8>, critical: bool, random: &mut Random) {
    let length = random.below(30);
    let mut extension = Extension::new(identifier, critical, Element::null());
    extension.value = vec![Part::Octets(random.octets(length))];
    pair.certificate.extensions.push(extension);
}

/// Fields that are read and never judged.
fn vary_the_unread(pair: &mut Pair, random: &mut Random) {
    let certificate = &mut pair.certificate;
    if random.once_in(4) {
        certificate.issuer_unique = Some(Element::primitive(tag::context(1), &random.octets(3)));
    }
    if random.once_in(4) {
        certificate.subject_unique = Some(Element::primitive(tag::context(2), &random.octets(3)));
    }
    let length = random.between(0, 300);
    certificate.signature = Element::bit_string(0, &random.octets(length));
    if random.once_in(4) {
        pair.issuer.version = None;
    }
}
