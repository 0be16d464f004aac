//! What the rules leave free at a subordinate CA: whatever document 02 does not name among them.

use super::{add_other_extension, any_general_name, any_general_names, any_points, any_qualifiers};
use crate::correct::*;
use crate::element::{tag, Element};
use crate::faults::values::malformed_hosts;
use crate::general_names::*;
use crate::keys;
use crate::object_identifiers as oid;
use crate::random::Random;

pub(super) fn vary(pair: &mut Pair, random: &mut Random) {
    let name = any_authority(random);
    pair.certificate.subject.attribute(&oid::common_name()).value = Element::printable(&name);
    keys::use_any_long_rsa(&mut pair.certificate, random);
    vary_usage(pair, random);
    vary_purposes(pair, random);
    vary_policies(pair, random);
    vary_alternative_names(pair, random);
    vary_access(pair, random);
    vary_points(pair, random);
    pair.extension(11).set_value(any_name_constraints(random));
    vary_other_extensions(pair, random);
}

/// The name of a subordinate CA, with a number of one digit or more.
fn any_authority(random: &mut Random) -> String {
    let mut name = random.choose(&AUTHORITY_NAMES).to_string();
    name.push(char::from(*random.choose(b"123456789")));
    let further = if random.once_in(8) { random.between(20, 100) } else { random.below(4) };
    for _ in 0..further {
        name.push(char::from(*random.choose(b"0123456789")));
    }
    name
}

/// The two usages that it must name, and any others.
fn vary_usage(pair: &mut Pair, random: &mut Random) {
    let mut bits = AUTHORITY_USAGE.to_vec();
    bits.extend((0..random.below(3)).map(|_| random.below(13)));
    pair.extension(4).set_value(named_bits(&bits));
}

fn vary_purposes(pair: &mut Pair, random: &mut Random) {
    let others = [oid::client_auth, oid::ocsp_signing, oid::code_signing, oid::any_purpose, oid::server_auth];
    let mut purposes = vec![Element::object_identifier(&wanted_purpose(pair.profile))];
    for _ in 0..random.below(4) {
        purposes.push(Element::object_identifier(&random.choose(&others)()));
    }
    random.shuffle(&mut purposes);
    pair.extension(5).set_value(Element::sequence(purposes));
}

fn vary_policies(pair: &mut Pair, random: &mut Random) {
    let mut forum = forum_policies(pair.profile);
    random.shuffle(&mut forum);
    forum.truncate(random.between(1, forum.len()));
    let mut policies = vec![policy(oid::federal_policy(), any_qualifiers(random))];
    for identifier in forum {
        let notice = qualifier(oid::user_notice(), Element::sequence(vec![]));
        let qualifiers = if random.once_in(2) { vec![notice] } else { any_qualifiers(random) };
        policies.push(policy(identifier, qualifiers));
    }
    random.shuffle(&mut policies);
    pair.extension(6).set_value(Element::sequence(policies));
}

/// Names of any form, and host names of any make without an underscore.
fn vary_alternative_names(pair: &mut Pair, random: &mut Random) {
    if random.once_in(2) {
        return;
    }
    let mut names = any_general_names(random);
    for _ in 0..random.below(3) {
        let host = random.choose(&malformed_hosts()).clone();
        names.push(Element::primitive(tag::context(2), &host));
    }
    random.shuffle(&mut names);
    set_extension(pair, 7, general_names(names));
}

fn any_http(random: &mut Random) -> Element {
    uri(random.choose::<&str>(&["http://agency.example/1", "HTTP://x", "hTtP:///", "http://?"]))
}

/// All entries for OCSP and for issuers are HTTP URIs; others are free.
fn vary_access(pair: &mut Pair, random: &mut Random) {
    let mut entries = Vec::new();
    for method in [oid::access_by_ocsp(), oid::access_to_issuers()] {
        for _ in 0..random.between(1, 2) {
            entries.push(access(method.clone(), any_http(random)));
        }
    }
    if random.once_in(2) {
        entries.push(access(oid::access_to_repository(), any_general_name(random)));
    }
    random.shuffle(&mut entries);
    pair.extension(8).set_value(Element::sequence(entries));
}

/// All URIs of full names are HTTP; names of other forms and relative names are free.
fn vary_points(pair: &mut Pair, random: &mut Random) {
    let mut names = any_general_names(random);
    names.retain(|name| name.identifier != uri("").identifier);
    names.extend((0..random.between(1, 3)).map(|_| any_http(random)));
    pair.extension(9).set_value(any_points(names, random));
}

/// "What the constraints name is not judged."
pub fn any_name_constraints(random: &mut Random) -> Element {
    let [permitted, excluded] = [(); 2].map(|()| {
        let count = random.below(4);
        (0..count).map(|_| any_subtree(random)).collect()
    });
    name_constraints(permitted, excluded)
}

fn any_subtree(random: &mut Random) -> Element {
    let far: [&[u8]; 5] = [&[1], &[0x7F], &[0, 0x80], &[1, 0], &[0x55; 30]];
    let mut distances = Vec::new();
    if random.once_in(4) {
        distances.push(minimum(random.choose::<&[u8]>(&far)));
    }
    if random.once_in(4) {
        let contents = if random.once_in(3) { &[0] } else { *random.choose(&far) };
        distances.push(maximum(contents));
    }
    subtree(any_general_name(random), distances)
}

/// Nocheck, and extensions that the table does not have, critical or not, each at most once.
fn vary_other_extensions(pair: &mut Pair, random: &mut Random) {
    let others = [oid::ocsp_nocheck(), oid::transparency_list(), oid::private_key_usage_period()];
    for identifier in others {
        if random.once_in(3) {
            let critical = random.once_in(2);
            add_other_extension(pair, identifier, critical, random);
        }
    }
}
