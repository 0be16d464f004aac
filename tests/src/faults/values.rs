//! Faults of what extensions say, rules 401 to 424.

use super::Aspect::*;
use super::Catalogue;
use crate::certificate::KeyKind;
use crate::correct::*;
use crate::element::{tag, Element, Part};
use crate::general_names::*;
use crate::object_identifiers as oid;
use crate::profile::*;
use crate::random::Random;
use crate::variations::{any_general_name, any_general_names, second_usage};

pub(super) fn add(faults: &mut Catalogue) {
    add_authority_key(faults);
    add_issuers_key(faults);
    add_basic_constraints(faults);
    add_subject_key(faults);
    add_usage(faults);
    add_usage_of_authority(faults);
    add_purposes(faults);
    add_policies(faults);
    add_host_names(faults);
    add_missing_access(faults);
    add_wrong_access(faults);
    add_access_of_authority(faults);
    add_points(faults);
    add_points_of_authority(faults);
}

fn add_authority_key(faults: &mut Catalogue) {
    let mut faults = faults.touching(&[Extension(1)]);
    faults.add("no key identifier of the authority", &[401], ALL, |pair, random, _| {
        let mut fields = Vec::new();
        if random.once_in(2) {
            fields.push(Element::constructed(tag::context_constructed(1), any_general_names(random)));
            fields.push(Element::primitive(tag::context(2), &[1]));
        }
        set_authority_key(pair, Element::sequence(fields));
    });
    faults.add("another key identifier of the authority", &[401], ALL, |pair, random, _| {
        let own = random.octets(20);
        let mut other = own.clone();
        match random.below(3) {
            0 => other[random.below(20)] ^= 1 << random.below(8),
            1 => other.push(0),
            _ => other.truncate(19),
        }
        pair.issuer.extension(&oid::subject_key_identifier()).set_value(Element::octet_string(&own));
        set_authority_key(pair, Element::sequence(vec![Element::primitive(tag::context(0), &other)]));
    });
}

fn add_issuers_key(faults: &mut Catalogue) {
    let mut faults = faults.touching(&[Extension(1)]);
    faults.add("no key identifier at the issuer", &[401], ALL, |pair, random, _| {
        if random.once_in(2) {
            pair.issuer.remove_extension(&oid::subject_key_identifier());
        } else {
            pair.issuer.extensions.clear();
        }
        pair.extension(1).breaks_at_value(401);
    });
    faults.add("a bad key identifier at the issuer", &[401], ALL, |pair, random, _| {
        let mut values = crate::bad_values::bad_values(3);
        let chosen = values.swap_remove(random.below(values.len()));
        pair.issuer.extension(&oid::subject_key_identifier()).value = chosen.parts;
        pair.extension(1).breaks_at_value(401);
    });
    faults.add("a bad key identifier before a good one at the issuer", &[401], ALL, |pair, _, _| {
        let identifier = oid::subject_key_identifier();
        let good = pair.issuer.extension(&identifier).clone();
        pair.issuer.extension(&identifier).value = vec![Part::Octets(vec![4, 5])];
        pair.issuer.extensions.push(good);
        pair.extension(1).breaks_at_value(401);
    });
}

fn set_authority_key(pair: &mut Pair, value: Element) {
    pair.extension(1).set_value(value);
    pair.extension(1).breaks_at_value(401);
}

fn add_basic_constraints(faults: &mut Catalogue) {
    let mut faults = faults.touching(&[Extension(2)]);
    faults.add("basic constraints not empty", &[402], SERVER, |pair, random, _| {
        let fields = match random.below(3) {
            0 => vec![Element::boolean(true)],
            1 => vec![Element::boolean(true), Element::integer(&[0])],
            _ => vec![Element::integer(&[3])],
        };
        pair.extension(2).set_value(Element::sequence(fields));
        pair.extension(2).breaks_at_value(402);
    });
    faults.add("not cA with path length 0", &[421], AUTHORITY, |pair, random, _| {
        let mut wrong = wrong_paths();
        let chosen = wrong.swap_remove(random.below(wrong.len()));
        pair.extension(2).set_value(chosen);
        pair.extension(2).breaks_at_value(421);
    });
}

/// Basic constraints that are not cA true with path length 0.
pub fn wrong_paths() -> Vec<Element> {
    let cases: [(bool, Option<&[u8]>); 7] = [
        (false, None),
        (false, Some(&[0])),
        (false, Some(&[1])),
        (true, None),
        (true, Some(&[1])),
        (true, Some(&[0, 0x80])),
        (true, Some(&[1, 0])),
    ];
    let fields = |(authority, path): (bool, Option<&[u8]>)| {
        let authority = authority.then(|| Element::boolean(true));
        Element::sequence(authority.into_iter().chain(path.map(Element::integer)).collect())
    };
    cases.map(fields).to_vec()
}

fn add_subject_key(faults: &mut Catalogue) {
    let mut faults = faults.touching(&[Extension(3)]);
    faults.add("a subject key identifier not of 20 octets", &[403], ALL, |pair, random, _| {
        let length = *random.choose(&[0, 1, 19, 21, 32, 127, 128]);
        let identifier = random.octets(length);
        pair.extension(3).set_value(Element::octet_string(&identifier));
        pair.extension(3).breaks_at_value(403);
    });
}

fn add_usage(faults: &mut Catalogue) {
    let mut faults = faults.touching(&[Extension(4), Key]);
    faults.add("no digitalSignature", &[404], END_ENTITY, |pair, random, _| {
        let second = second_usage(pair).filter(|_| random.once_in(2));
        let bits: Vec<usize> = second.into_iter().collect();
        pair.extension(4).set_value(named_bits(&bits));
        pair.extension(4).breaks_at_value(404);
    });
    faults.add("a usage too many", &[405], END_ENTITY, |pair, random, _| {
        let mut bits = vec![usage::DIGITAL_SIGNATURE];
        for _ in 0..random.between(1, 3) {
            bits.push(forbidden_usage(pair, random));
        }
        pair.extension(4).set_value(named_bits(&bits));
        pair.extension(4).breaks_at_value(405);
    });
    faults.add("another usage instead", &[404, 405], END_ENTITY, |pair, random, _| {
        let bit = forbidden_usage(pair, random);
        pair.extension(4).set_value(named_bits(&[bit]));
        pair.extension(4).breaks_at_value(404);
        pair.extension(4).breaks_at_value(405);
    });
    faults.add("key encipherment with another key", &[201, 405], SERVER, |pair, random, _| {
        crate::keys::use_other_key(&mut pair.certificate, oid::ed25519(), random);
        pair.certificate.key_algorithm.marks.push(crate::element::Mark::Breaks(201));
        let bit = *random.choose(&[usage::KEY_ENCIPHERMENT, usage::KEY_AGREEMENT]);
        pair.extension(4).set_value(named_bits(&[0, bit]));
        pair.extension(4).breaks_at_value(405);
    });
}

fn add_usage_of_authority(faults: &mut Catalogue) {
    let mut faults = faults.touching(&[Extension(4)]);
    faults.add("not both keyCertSign and cRLSign", &[422], AUTHORITY, |pair, random, _| {
        let mut bits: Vec<usize> = (0..random.below(4)).map(|_| random.below(13)).collect();
        bits.extend(AUTHORITY_USAGE);
        let missing = *random.choose(&AUTHORITY_USAGE);
        bits.retain(|bit| *bit != missing && (*bit == 0 || random.once_in(2)));
        pair.extension(4).set_value(named_bits(&bits));
        pair.extension(4).breaks_at_value(422);
    });
}

fn forbidden_usage(pair: &Pair, random: &mut Random) -> usize {
    let allowed = second_usage(pair);
    // The second usage of the other kind of key is the one that is mistaken most easily.
    let mistaken = match pair.certificate.key_kind {
        KeyKind::EllipticCurve => usage::KEY_ENCIPHERMENT,
        _ => usage::KEY_AGREEMENT,
    };
    let bits: Vec<usize> = (1..=12).filter(|bit| Some(*bit) != allowed).collect();
    if random.once_in(2) {
        mistaken
    } else {
        *random.choose(&bits)
    }
}

fn purpose(identifier: Vec<u8>) -> Element {
    Element::object_identifier(&identifier)
}

fn add_purposes(faults: &mut Catalogue) {
    let mut faults = faults.touching(&[Extension(5)]);
    faults.add("clientAuth without serverAuth", &[407], SERVER_AND_AUTHORITY, |pair, _, _| {
        pair.extension(5).set_value(Element::sequence(vec![purpose(oid::client_auth())]));
        pair.extension(5).breaks_at_value(407);
    });
    faults.add("other purposes without serverAuth", &[407], AUTHORITY, |pair, random, _| {
        let others = [oid::ocsp_signing, oid::client_auth, oid::any_purpose, oid::code_signing];
        let purposes = (0..random.between(1, 3)).map(|_| purpose(random.choose(&others)()));
        let purposes = Element::sequence(purposes.collect());
        pair.extension(5).set_value(purposes);
        pair.extension(5).breaks_at_value(407);
    });
    faults.add("another purpose instead", &[407, 408], END_ENTITY, |pair, random, _| {
        let other = other_purpose(pair.profile, random);
        pair.extension(5).set_value(Element::sequence(vec![purpose(other).breaking(408)]));
        pair.extension(5).breaks_at_value(407);
    });
    faults.add("one odd purpose", &[408], END_ENTITY, |pair, random, _| {
        add_odd_purposes(pair, 1, random);
    });
    faults.add("three odd purposes, two alike", &[408], END_ENTITY, |pair, random, _| {
        let other = other_purpose(pair.profile, random);
        pair.extension(5).value().push(purpose(other.clone()).breaking(408));
        pair.extension(5).value().push(purpose(other).breaking(408));
        add_odd_purposes(pair, 1, random);
    });
}

fn add_odd_purposes(pair: &mut Pair, count: usize, random: &mut Random) {
    for _ in 0..count {
        let other = other_purpose(pair.profile, random);
        let list = pair.extension(5).value();
        let position = random.below(list.contents.len() + 1);
        list.insert(position, purpose(other).breaking(408));
    }
}

fn other_purpose(profile: u8, random: &mut Random) -> Vec<u8> {
    let mut others = vec![oid::code_signing(), oid::email_protection(), oid::any_purpose()];
    others.push([oid::server_auth(), vec![1]].concat());
    others.push([oid::ocsp_signing(), vec![0]].concat());
    if is_server(profile) {
        others.push(oid::ocsp_signing());
    } else {
        others.push(oid::server_auth());
        others.push(oid::client_auth());
    }
    random.choose(&others).clone()
}

fn add_policies(faults: &mut Catalogue) {
    let mut faults = faults.touching(&[Extension(6)]);
    faults.add("no federal policy", &[409], ALL, |pair, random, _| {
        let mut policies: Vec<Element> = Vec::new();
        let forum = forum_policies(pair.profile);
        policies.extend(forum.into_iter().map(|identifier| policy(identifier, vec![])));
        let other = random.choose(&[oid::federal_policy_arc, oid::beside_federal_policy, oid::any_policy])();
        policies.push(policy(other, vec![]));
        set_policies(pair, policies, 409);
    });
    faults.add("no policy of the forum", &[410], SERVER_AND_AUTHORITY, |pair, random, _| {
        let mut policies = vec![policy(oid::federal_policy(), vec![])];
        let wanted = forum_policies(pair.profile);
        let mut others = vec![oid::domain_validated(), oid::organization_validated()];
        others.retain(|identifier| !wanted.contains(identifier));
        others.extend([oid::individual_validated(), [wanted[0].as_slice(), &[1]].concat()]);
        if !random.once_in(4) {
            policies.push(policy(random.choose(&others).clone(), vec![]));
        }
        set_policies(pair, policies, 410);
    });
    faults.add("neither policy", &[409, 410], SERVER_AND_AUTHORITY, |pair, _, _| {
        set_policies(pair, vec![policy(oid::any_policy(), vec![])], 409);
        pair.extension(6).breaks_at_value(410);
    });
    faults.add("one odd qualifier", &[411], END_ENTITY, |pair, random, _| {
        let qualifiers = vec![statement(), odd_qualifier(random), statement()];
        pair.extension(6).value().push(policy(oid::any_policy(), qualifiers));
    });
    faults.add("three odd qualifiers", &[411], END_ENTITY, |pair, random, _| {
        let first = policy(oid::any_policy(), vec![odd_qualifier(random)]);
        let second =
            policy(oid::private_extension(), vec![odd_qualifier(random), statement(), odd_qualifier(random)]);
        pair.extension(6).value().insert(0, first);
        pair.extension(6).value().push(second);
    });
}

fn set_policies(pair: &mut Pair, policies: Vec<Element>, rule: u16) {
    pair.extension(6).set_value(Element::sequence(policies));
    pair.extension(6).breaks_at_value(rule);
}

fn statement() -> Element {
    qualifier(oid::practice_statement(), Element::primitive(tag::IA5_STRING, b"http://a"))
}

fn odd_qualifier(random: &mut Random) -> Element {
    let identifier = random.choose(&[oid::user_notice, oid::private_extension, oid::any_policy])();
    let value = if random.once_in(2) { Element::sequence(vec![]) } else { Element::utf8("notice") };
    qualifier(identifier, value).breaking(411)
}

fn names_of(pair: &mut Pair) -> &mut Element {
    if !pair.certificate.has_extension(&oid::subject_alternative_name()) {
        set_extension(pair, 7, plain_value(7, 3));
    }
    pair.extension(7).value()
}

/// Adds names at chance positions, so that the first, the last and one between are all met.
fn add_names(pair: &mut Pair, names: Vec<Element>, random: &mut Random) {
    let list = names_of(pair);
    for name in names {
        let position = random.below(list.contents.len() + 1);
        list.insert(position, name);
    }
}

fn add_host_names(faults: &mut Catalogue) {
    let mut faults = faults.touching(&[Extension(7)]);
    faults.add("a name that is no host name", &[412], END_ENTITY, |pair, random, _| {
        let name = odd_name(random).breaking(412);
        add_names(pair, vec![name], random);
    });
    faults.add("four names that are no host names", &[412], END_ENTITY, |pair, random, _| {
        let names = (0..4).map(|_| odd_name(random).breaking(412)).collect();
        add_names(pair, names, random);
    });
    faults.add("an underscore in a host name", &[413], SERVER_AND_AUTHORITY, |pair, random, _| {
        let host =
            random.choose(&["_dns.agency.example", "under_score.agency.example", "a.b_", "_._", "a._"]);
        add_names(pair, vec![dns(host).breaking(413)], random);
    });
    faults.add("an underscore in two host names", &[413], SERVER_AND_AUTHORITY, |pair, random, _| {
        add_names(pair, vec![dns("a_.example").breaking(413), dns("a_.example").breaking(413)], random);
    });
    faults.add("a malformed host name", &[414], END_ENTITY, |pair, random, _| {
        let host = random.choose(&malformed_hosts()).clone();
        add_names(pair, vec![Element::primitive(tag::context(2), &host).breaking(414)], random);
    });
    faults.add("three malformed host names", &[414], END_ENTITY, |pair, random, _| {
        let host = |random: &mut Random| random.choose(&malformed_hosts()).clone();
        let names =
            (0..3).map(|_| Element::primitive(tag::context(2), &host(random)).breaking(414)).collect();
        add_names(pair, names, random);
    });
    faults.add("an underscore alone", &[413, 414], SERVER, |pair, random, _| {
        add_names(pair, vec![dns("_").breaking(413).breaking(414)], random);
    });
    faults.add("underscores in malformed host names", &[413], AUTHORITY, |pair, random, _| {
        add_names(pair, vec![dns("_").breaking(413), dns("-a_.").breaking(413)], random);
    });
}

fn odd_name(random: &mut Random) -> Element {
    loop {
        let name = any_general_name(random);
        if name.identifier != tag::context(2) {
            return name;
        }
    }
}

/// Host names that break 414 and have no underscore.
pub fn malformed_hosts() -> Vec<Vec<u8>> {
    let texts = [
        "",
        "localhost",
        ".",
        "a.",
        ".a",
        "a..b",
        "a.b.",
        "-a.b",
        "a-.b",
        "a.-b",
        "a.b-",
        "-.b",
        "a.-",
        "*.agency.example",
        "a b.c",
        "a.b:80",
        "a/b.c",
        "a@b.c",
        "[a.b",
        "`a.b",
        "{a.b",
        "a.b\r",
        "a\0.b",
    ];
    let mut hosts: Vec<Vec<u8>> = texts.iter().map(|text| text.as_bytes().to_vec()).collect();
    hosts.push("\u{e9}cole.example".as_bytes().to_vec());
    hosts.push(vec![b'a', 0xE9, b'.', b'b']);
    hosts.push(format!("{}.b", "a".repeat(64)).into_bytes());
    hosts.push(format!("b.{}", "a".repeat(64)).into_bytes());
    hosts.push(long_host(254));
    hosts.push(long_host(300));
    hosts
}

/// A host name of good labels with exactly this many octets.
pub fn long_host(length: usize) -> Vec<u8> {
    let mut host: Vec<u8> =
        (0..length).map(|position| if position % 50 == 49 { b'.' } else { b'a' }).collect();
    *host.last_mut().expect("a long host name has octets") = b'z';
    host
}

fn add_missing_access(faults: &mut Catalogue) {
    let mut faults = faults.touching(&[Extension(8)]);
    faults.add("no OCSP address", &[415], SERVER, |pair, random, _| {
        let mut entries = vec![http_issuers()];
        match random.below(3) {
            0 => entries.push(access(oid::access_by_ocsp(), dns("ocsp.agency.example"))),
            1 => entries.push(access(oid::access_to_repository(), uri("http://ocsp.agency.example"))),
            _ => {}
        }
        set_access(pair, entries, 415);
    });
    faults.add("no caIssuers entry", &[416], SERVER_AND_AUTHORITY, |pair, _, _| {
        set_access(pair, vec![access(oid::access_by_ocsp(), uri("http://ocsp"))], 416);
    });
    faults.add("no caIssuers address at a responder", &[416], RESPONDER, |pair, random, _| {
        let mut entries = vec![access(oid::access_by_ocsp(), uri("http://ocsp"))];
        if random.once_in(2) {
            entries.push(access(oid::access_to_issuers(), odd_location()));
        }
        set_access(pair, entries, 416);
    });
    faults.add("caIssuers only a directory name", &[416, 417], SERVER_AND_AUTHORITY, |pair, _, _| {
        let entries = vec![
            access(oid::access_to_issuers(), odd_location()).breaking(417),
            access(oid::access_by_ocsp(), uri("http://ocsp")),
        ];
        set_access(pair, entries, 416);
    });
}

fn add_wrong_access(faults: &mut Catalogue) {
    let mut faults = faults.touching(&[Extension(8)]);
    faults.add("a caIssuers entry not an HTTP URI", &[417], SERVER_AND_AUTHORITY, |pair, random, _| {
        let location = not_http(random);
        pair.extension(8).value().push(access(oid::access_to_issuers(), location).breaking(417));
    });
    faults.add("three caIssuers entries not HTTP URIs", &[417], SERVER_AND_AUTHORITY, |pair, random, _| {
        for _ in 0..3 {
            insert_not_http(pair, oid::access_to_issuers(), 417, random);
        }
    });
}

/// An entry of this method, anywhere among the others, that is not an HTTP URI.
fn insert_not_http(pair: &mut Pair, method: Vec<u8>, rule: u16, random: &mut Random) {
    let entry = access(method, not_http(random)).breaking(rule);
    let list = pair.extension(8).value();
    list.insert(random.below(list.contents.len() + 1), entry);
}

fn add_access_of_authority(faults: &mut Catalogue) {
    let mut faults = faults.touching(&[Extension(8)]);
    faults.add("no OCSP entry", &[415], AUTHORITY, |pair, random, _| {
        let mut entries = vec![http_issuers()];
        if random.once_in(2) {
            entries.push(access(oid::access_to_repository(), uri("http://ocsp.agency.example")));
        }
        set_access(pair, entries, 415);
    });
    faults.add("an OCSP entry without a URI", &[415, 423], AUTHORITY, |pair, random, _| {
        let location = random.choose(&[odd_location(), dns("http://a.b/c"), mail("http://a")]).clone();
        let entries = vec![access(oid::access_by_ocsp(), location).breaking(423), http_issuers()];
        set_access(pair, entries, 415);
    });
    faults.add("an OCSP entry whose only URI is not HTTP", &[423], AUTHORITY, |pair, random, _| {
        let address = random.choose::<&str>(&NOT_HTTP);
        let entries = vec![http_issuers(), access(oid::access_by_ocsp(), uri(address)).breaking(423)];
        pair.extension(8).set_value(Element::sequence(entries));
    });
    faults.add("three OCSP entries not HTTP URIs", &[423], AUTHORITY, |pair, random, _| {
        for _ in 0..3 {
            insert_not_http(pair, oid::access_by_ocsp(), 423, random);
        }
    });
}

fn http_issuers() -> Element {
    access(oid::access_to_issuers(), uri("http://a/b"))
}

fn set_access(pair: &mut Pair, entries: Vec<Element>, rule: u16) {
    pair.extension(8).set_value(Element::sequence(entries));
    pair.extension(8).breaks_at_value(rule);
}

fn odd_location() -> Element {
    directory(&crate::certificate::Name::default())
}

/// A location that is no URI, or a URI that is not "http://" and something after it.
fn not_http(random: &mut Random) -> Element {
    match random.below(4) {
        0 => odd_location(),
        1 => dns("http://a.b/c"),
        _ => uri(random.choose::<&str>(&NOT_HTTP)),
    }
}

pub const NOT_HTTP: [&str; 8] =
    ["", "http://", "HTTP://", "http:/", "https://a/b", "ftp://a/b", " http://a/b", "http:\\\\a"];

fn add_points(faults: &mut Catalogue) {
    let mut faults = faults.touching(&[Extension(9)]);
    faults.add("no HTTP address in any point", &[418], END_ENTITY, |pair, random, _| {
        let mut names = vec![not_http(random), mail("http://a")];
        random.shuffle(&mut names);
        let mut points = vec![point(vec![full_name(names)])];
        if random.once_in(2) {
            points.push(point(vec![]));
        }
        set_points(pair, points);
        pair.extension(9).breaks_at_value(418);
    });
    faults.add("only a relative name", &[418], ALL, |pair, _, _| {
        let value = Element::primitive(tag::IA5_STRING, b"http://crl.agency.example/");
        let attribute = crate::certificate::Attribute::new(oid::common_name(), value).element();
        set_points(pair, vec![point(vec![relative_name(vec![attribute])])]);
        pair.extension(9).breaks_at_value(418);
    });
    faults.add("an HTTP address only as the list's issuer", &[418, 419], ALL, |pair, _, _| {
        set_points(pair, vec![point(vec![list_issuer(vec![uri("http://a")])]).breaking(419)]);
        pair.extension(9).breaks_at_value(418);
    });
    faults.add("a point with reasons or its own issuer", &[419], ALL, |pair, random, _| {
        let odd = odd_point(random);
        let mut points = vec![http_point(), odd];
        random.shuffle(&mut points);
        set_points(pair, points);
    });
    faults.add("three points with reasons or their own issuers", &[419], ALL, |pair, random, _| {
        let points = vec![odd_point(random), odd_point(random), http_point(), odd_point(random)];
        set_points(pair, points);
    });
}

fn add_points_of_authority(faults: &mut Catalogue) {
    let mut faults = faults.touching(&[Extension(9)]);
    faults.add("no URI in any point", &[418], AUTHORITY, |pair, random, _| {
        let names = vec![odd_location(), mail("http://a"), dns("http://a")];
        let points =
            if random.once_in(2) { vec![point(vec![full_name(names)])] } else { vec![point(vec![])] };
        set_points(pair, points);
        pair.extension(9).breaks_at_value(418);
    });
    faults.add("no URI of a point is HTTP", &[418, 424], AUTHORITY, |pair, random, _| {
        let names = vec![odd_uri(random), dns("http://a"), odd_uri(random)];
        set_points(pair, vec![point(vec![full_name(names)])]);
        pair.extension(9).breaks_at_value(418);
    });
    faults.add("a URI of a point not HTTP", &[424], AUTHORITY, |pair, random, _| {
        let mut names = vec![uri("http://a"), odd_uri(random), mail("ldap://a")];
        random.shuffle(&mut names);
        set_points(pair, vec![point(vec![full_name(names)])]);
    });
    faults.add("three URIs of two points not HTTP", &[424], AUTHORITY, |pair, random, _| {
        let first = point(vec![full_name(vec![odd_uri(random), odd_uri(random)])]);
        let mut points = vec![first, http_point(), point(vec![full_name(vec![odd_uri(random)])])];
        random.shuffle(&mut points);
        set_points(pair, points);
    });
}

/// A URI in a full name that is not HTTP.
fn odd_uri(random: &mut Random) -> Element {
    uri(random.choose::<&str>(&NOT_HTTP)).breaking(424)
}

fn set_points(pair: &mut Pair, points: Vec<Element>) {
    set_extension(pair, 9, Element::sequence(points));
}

fn http_point() -> Element {
    point(vec![full_name(vec![uri("http://crl.agency.example/1")])])
}

/// One entry even where a point has both fields.
fn odd_point(random: &mut Random) -> Element {
    let mut fields = Vec::new();
    if random.once_in(2) {
        fields.push(full_name(vec![uri("http://crl.agency.example/2")]));
    }
    let which = random.below(3);
    if which != 1 {
        let (unused, octets): (u8, &[u8]) =
            *random.choose(&[(6, &[0x40][..]), (0, &[]), (7, &[0x7F, 0x80]), (0, &[1, 1])]);
        fields.push(reasons(unused, octets));
    }
    if which != 0 {
        fields.push(list_issuer(any_general_names(random)));
    }
    point(fields).breaking(419)
}
