//! Profile 4, subordinate CAs: what the values of extensions are and say.

use comparison::bad_values::{bad_values, edge_values};
use comparison::faults::values::wrong_paths;

use super::*;

fn with_value(what: &str, slot: u8, value: &Element, rules: &[u16]) {
    in_every(AUTHORITY, what, |pair| {
        set_extension(pair, slot, value.clone());
        for rule in rules {
            pair.extension(slot).breaks_at_value(*rule);
        }
    });
}

#[test]
fn rule_421_wants_ca_true_and_a_path_length_of_0() {
    for value in wrong_paths() {
        with_value("one entry at the OCTET STRING", 2, &value, &[421]);
    }
    let good = Element::sequence(vec![Element::boolean(true), Element::integer(&[0])]);
    with_value("cA true with path length 0", 2, &good, &[]);
    let false_written = Element::sequence(vec![Element::boolean(false), Element::integer(&[0])]);
    with_value("342 leaves 421 out", 2, &false_written, &[342]);
}

#[test]
fn rule_422_wants_both_bits_and_forbids_none() {
    let (sign, list) = (usage::KEY_CERTIFICATE_SIGN, usage::CRL_SIGN);
    for bits in [&[sign, list][..], &[0, sign, list], &[0, 1, 2, 3, 4, sign, list, 7, 8], &[sign, list, 99]] {
        with_value("both are set", 4, &named_bits(bits), &[]);
    }
    for bits in [&[][..], &[sign], &[list], &[0, sign], &[0, list], &[0], &[sign + 8, list + 8]] {
        with_value("one entry at the OCTET STRING", 4, &named_bits(bits), &[422]);
    }
    with_value("344 leaves 422 out", 4, &Element::bit_string(0, &[0x80]), &[344]);
}

#[test]
fn server_auth_must_be_there_and_any_other_purpose_may() {
    let list = |purposes: &[Vec<u8>]| {
        Element::sequence(purposes.iter().map(|purpose| Element::object_identifier(purpose)).collect())
    };
    let others = [oid::ocsp_signing(), oid::client_auth(), oid::any_purpose(), oid::code_signing()];
    with_value("408 is not judged", 5, &list(&[&others[..], &[oid::server_auth()]].concat()), &[]);
    with_value("OCSPSigning is not enough", 5, &list(&others[..1]), &[407]);
    with_value("no other is", 5, &list(&others), &[407]);
}

#[test]
fn either_policy_of_the_forum_is_enough() {
    let list = |identifiers: &[Vec<u8>]| {
        Element::sequence(identifiers.iter().map(|identifier| policy(identifier.clone(), vec![])).collect())
    };
    let federal = oid::federal_policy();
    let (domain, organization) = (oid::domain_validated(), oid::organization_validated());
    with_value("the one", 6, &list(&[federal.clone(), domain.clone()]), &[]);
    with_value("the other", 6, &list(&[organization.clone(), federal.clone()]), &[]);
    with_value("both", 6, &list(&[domain.clone(), organization, federal.clone()]), &[]);
    with_value("neither", 6, &list(&[federal, oid::individual_validated()]), &[410]);
    with_value("no federal one", 6, &list(&[domain, oid::federal_policy_arc()]), &[409]);
    in_every(AUTHORITY, "411 is not judged", |pair| {
        let notice = qualifier(oid::user_notice(), Element::null());
        pair.extension(6).value().push(policy(oid::any_policy(), vec![notice]));
    });
}

#[test]
fn of_alternative_names_only_underscores_are_judged() {
    in_every(AUTHORITY, "412 and 414 are not judged", |pair| {
        let names = [mail("a_b@c"), uri("a_b"), internet_address(&[]), dns(""), dns("-"), dns("*.a")];
        set_extension(pair, 7, general_names(names.to_vec()));
    });
    in_every(AUTHORITY, "413 at each dNSName", |pair| {
        let underscored = |host: &str| dns(host).breaking(413);
        let names = vec![underscored("_"), dns("a.b"), underscored("a_.b"), underscored("_")];
        set_extension(pair, 7, general_names(names));
    });
    in_every(AUTHORITY, "120 is not judged", |pair| {
        set_extension(pair, 7, general_names(vec![dns("elsewhere.example")]));
    });
}

#[test]
fn rule_423_is_placed_at_each_ocsp_entry_that_is_not_an_http_uri() {
    let ocsp = |location: Element| access(oid::access_by_ocsp(), location);
    in_every(AUTHORITY, "three bad ones are three entries", |pair| {
        for location in [uri("https://a"), uri("https://a"), uri("http://")] {
            pair.extension(8).value().push(ocsp(location).breaking(423));
        }
    });
    let forms = [
        mail("http://a"),
        dns("http://a"),
        internet_address(b"http://a"),
        directory(&Name::default()),
        registered_identifier(&oid::any_policy()),
        other_name(oid::any_policy(), Element::utf8("http://a")),
        x400(vec![]),
        edi_party(vec![]),
    ];
    for location in forms {
        in_every(AUTHORITY, "another form of name", |pair| {
            pair.extension(8).value().push(ocsp(location.clone()).breaking(423));
        });
        in_every(AUTHORITY, "415 besides where it is the only one", |pair| {
            let entries =
                vec![ocsp(location.clone()).breaking(423), access(oid::access_to_issuers(), uri("http://a"))];
            pair.extension(8).set_value(Element::sequence(entries));
            pair.extension(8).breaks_at_value(415);
        });
    }
    in_every(AUTHORITY, "another method is free", |pair| {
        pair.extension(8).value().push(access(oid::access_to_repository(), uri("ftp://a")));
    });
    in_every(SERVER, "a server's OCSP entry is free", |pair| {
        pair.extension(8).value().push(ocsp(uri("https://a")));
    });
    in_every(AUTHORITY, "348 leaves 415 to 417 and 423 out", |pair| {
        let odd = Element::sequence(vec![ocsp(uri("ldap://a")), ocsp(context_9())]);
        pair.extension(8).set_value(odd);
        pair.extension(8).breaks_at_value(348);
    });
}

/// A name of a form that there is not.
fn context_9() -> Element {
    Element::primitive(tag::context(9), &[])
}

#[test]
fn rule_424_is_placed_at_each_uri_of_a_full_name_that_is_not_http() {
    let named = |names: Vec<Element>| point(vec![full_name(names)]);
    let bad = |address: &str| uri(address).breaking(424);
    in_every(AUTHORITY, "three bad ones in two points, 418 kept", |pair| {
        let points =
            vec![named(vec![bad(""), uri("http://a"), bad("ldap://a")]), named(vec![bad("http:/a")])];
        set_extension(pair, 9, Element::sequence(points));
    });
    in_every(AUTHORITY, "418 besides where no URI is HTTP", |pair| {
        set_extension(pair, 9, Element::sequence(vec![named(vec![bad("https://a")])]));
        pair.extension(9).breaks_at_value(418);
    });
    in_every(AUTHORITY, "418 alone where there is no URI", |pair| {
        set_extension(pair, 9, Element::sequence(vec![named(vec![dns("https://a"), mail("ldap://a")])]));
        pair.extension(9).breaks_at_value(418);
    });
    in_every(AUTHORITY, "other forms, relative names and issuers pass", |pair| {
        let attribute = Attribute::new(oid::common_name(), Element::utf8("ldap://a")).element();
        let issued = point(vec![full_name(vec![dns("x")]), list_issuer(vec![uri("ldap://a")])]).breaking(419);
        let points = vec![
            named(vec![mail("ldap://a"), x400(vec![]), uri("HTTP://a")]),
            point(vec![relative_name(vec![attribute])]),
            issued,
        ];
        set_extension(pair, 9, Element::sequence(points));
    });
    in_every(END_ENTITY, "elsewhere they are free", |pair| {
        set_extension(pair, 9, Element::sequence(vec![named(vec![uri("http://a"), uri("ldap://a")])]));
    });
    in_every(AUTHORITY, "349 leaves 418, 419 and 424 out", |pair| {
        set_extension(pair, 9, Element::sequence(vec![named(vec![uri("ldap://a"), context_9()])]));
        pair.extension(9).breaks_at_value(349);
    });
}

#[test]
fn rule_351_is_the_asn1_alone() {
    let mut linters = Linters::of("name constraints good and bad");
    for (value, rules) in edge_values(11) {
        assert!(rules.is_empty(), "what the constraints name is not judged");
        hold_in_every(&mut linters, AUTHORITY, &value.what, |pair| {
            pair.extension(11).value = value.parts.clone()
        });
    }
    for value in bad_values(11) {
        hold_in_every(&mut linters, AUTHORITY, &value.what, |pair| {
            pair.extension(11).value = value.parts.clone();
            pair.extension(11).breaks_at_value(351);
        });
    }
    linters.finish();
}

#[test]
fn distances_of_name_constraints() {
    let constraints = |distances: Vec<Element>| name_constraints(vec![], vec![subtree(dns("_"), distances)]);
    with_value("30 00", 11, &Element::sequence(vec![]), &[]);
    with_value("a written minimum of 0", 11, &constraints(vec![minimum(&[0])]), &[351]);
    with_value("a minimum of 1", 11, &constraints(vec![minimum(&[1])]), &[]);
    for contents in [&[0][..], &[1], &[0x7F], &[0, 0xFF], &[1, 0], &[0x55; 200]] {
        with_value("any maximum", 11, &constraints(vec![maximum(contents)]), &[]);
        with_value("any maximum", 11, &constraints(vec![minimum(&[1]), maximum(contents)]), &[]);
    }
    with_value("a negative maximum", 11, &constraints(vec![maximum(&[0xFF])]), &[351]);
}

#[test]
fn what_the_constraints_name_is_not_judged() {
    let names = [dns("_"), uri("ldap://a"), mail("\u{e9}"), internet_address(&[7; 3]), dns("")];
    let subtrees: Vec<Element> = names.into_iter().map(|name| subtree(name, vec![])).collect();
    with_value("any names", 11, &name_constraints(subtrees.clone(), subtrees), &[]);
}

#[test]
fn entries_of_an_authority_rise_by_rule_and_then_by_start() {
    in_every(AUTHORITY, "the new rules stand by their numbers", |pair| {
        pair.certificate.subject.attribute(&oid::common_name()).value = Element::utf8("x");
        pair.certificate.subject.attribute(&oid::common_name()).marks.push(Mark::Breaks(122));
        use_rsa(&mut pair.certificate, &[15], &[3]);
        pair.certificate.key_bits.find(node::MODULUS).marks.push(Mark::Breaks(208));
        pair.extension(2).set_value(Element::sequence(vec![]));
        pair.extension(2).breaks_at_value(421);
        pair.extension(4).set_value(named_bits(&[0]));
        pair.extension(4).breaks_at_value(422);
        pair.extension(8).value().push(access(oid::access_by_ocsp(), uri("a")).breaking(423));
        pair.extension(8).value().push(access(oid::access_to_issuers(), uri("a")).breaking(417));
        let points = vec![point(vec![full_name(vec![uri("a").breaking(424)])]).breaking(419)];
        let mut points = Element::sequence(points);
        let point = points.members_mut().next().expect("there is a point");
        point.push(reasons(6, &[0x40]));
        pair.extension(9).set_value(points);
        pair.extension(9).breaks_at_value(418);
        pair.extension(11).critical = false;
        pair.extension(11).breaks_at_extension(331);
        pair.certificate.extensions.reverse();
    });
}
