//! What is refused, and where.

use super::*;

#[test]
fn the_certificate_is_refused_before_the_issuer() {
    let unsound = hex::octets("30 80 00 00");
    let unordered = hex::octets("31 06 02 01 02 02 01 01");
    let no_certificate = hex::octets("30 00");
    for (number, certificate) in [(4, &unsound), (5, &unordered), (6, &no_certificate)] {
        for issuer in [&unsound, &unordered, &no_certificate] {
            let (certificate, issuer) = (certificate.clone(), issuer.clone());
            let case = Case { profile: 1, certificate, issuer, expected: refused(number, 1, 0) };
            hold_at_once("both sides are refused", &case);
        }
    }
}

#[test]
fn tag_number_31_is_every_identifier_octet_with_five_low_bits_set() {
    for identifier in [0x1F, 0x3F, 0x5F, 0x7F, 0x9F, 0xBF, 0xDF, 0xFF] {
        // What would be a long tag number is faulty whatever follows.
        for rest in ["00", "01 00", "1F 00", "81 00 00", "85 01 00"] {
            let octets = [vec![identifier], hex::octets(rest)].concat();
            assert_eq!(soundness(&octets), Soundness::Unsound(0), "{}", hex::text(&octets));
        }
    }
}

#[test]
fn a_wrong_version_is_refused_at_its_integer() {
    for number in [0, 3, 0x7F, 0x80, 0xFF] {
        hold_refusal("a wrong version", |tree| {
            tree.find(node::VERSION_NUMBER).set_octets(&[number]);
            refuse(tree.find(node::VERSION_NUMBER), 6);
        });
    }
}

#[test]
fn an_empty_version_is_refused_at_its_tag() {
    hold_refusal("an empty [0]", |tree| {
        tree.find(node::VERSION).contents.clear();
        refuse(tree.find(node::VERSION), 6);
    });
}

#[test]
fn critical_false_is_refused_at_the_boolean() {
    hold_refusal("critical FALSE", |tree| {
        let extension = tree.find(node::EXTENSION);
        let identifier = extension.remove(node::EXTENSION_IDENTIFIER);
        let value = extension.remove(node::EXTENSION_VALUE);
        let written = Element::boolean(false).refused(6);
        *extension = Element::sequence(vec![identifier, written, value]);
    });
}

#[test]
fn a_time_that_is_no_date_is_refused_at_the_time() {
    for text in ["240230000000Z", "230229000000Z", "240101240000Z"] {
        hold_refusal("no date", |tree| {
            tree.find(node::NOT_AFTER).set_octets(text.as_bytes());
            refuse(tree.find(node::NOT_AFTER), 6);
        });
    }
}

#[test]
fn an_empty_extension_list_is_refused_at_the_list_and_an_empty_tag_at_the_tag() {
    hold_refusal("an empty list", |tree| {
        tree.find(node::EXTENSION_LIST).contents.clear();
        refuse(tree.find(node::EXTENSION_LIST), 6);
    });
    hold_refusal("an empty [3]", |tree| {
        tree.find(node::EXTENSIONS).contents.clear();
        refuse(tree.find(node::EXTENSIONS), 6);
    });
}

#[test]
fn an_empty_set_in_a_name_is_refused_at_the_set() {
    for name in [node::ISSUER, node::SUBJECT] {
        hold_refusal("an empty SET", |tree| {
            tree.find(name).push(Element::set_of(vec![]).refused(6));
        });
    }
}

#[test]
fn an_extra_element_is_refused_at_itself_and_a_missing_one_at_the_enclosing() {
    hold_refusal("an extra element", |tree| tree.push(Element::null().refused(6)));
    hold_refusal("a missing element", |tree| {
        tree.remove(node::SIGNATURE);
        refuse(tree, 6);
    });
}

#[test]
fn years_go_from_0000_to_9999_by_the_leap_rule_of_today() {
    let time = |text: &str| Element::primitive(tag::GENERALIZED_TIME, text.as_bytes());
    for (not_before, not_after) in [
        ("00000229000000Z", "00000301000000Z"),
        ("00000101000000Z", "00000131235959Z"),
        ("04000229000000Z", "04000229000001Z"),
        ("16000229000000Z", "16000301000000Z"),
    ] {
        in_every(ALL, "an early year", |pair| {
            pair.certificate.not_before = time(not_before).breaking(109);
            pair.certificate.not_after = time(not_after).breaking(109);
        });
    }
    in_every(ALL, "the last second", |pair| {
        pair.certificate.not_before = time("99991201000000Z");
        pair.certificate.not_after = time("99991231235959Z");
    });
    for text in ["01000229000000Z", "00010229000000Z", "99990229000000Z"] {
        hold_refusal("no leap year", |tree| {
            let marks = tree.find(node::NOT_BEFORE).marks.clone();
            *tree.find(node::NOT_BEFORE) = Element { marks, ..time(text) };
            refuse(tree.find(node::NOT_BEFORE), 6);
        });
    }
}

#[test]
fn an_attribute_value_is_any_element() {
    for value in [
        Element::null(),
        Element::sequence(vec![Element::boolean(true)]),
        Element::set_of(vec![]),
        Element::primitive(0xC5, &[1]),
    ] {
        in_every(ALL, "any value", |pair| {
            pair.certificate.subject.push(Attribute::new(oid::locality(), value.clone()).breaking(112));
        });
    }
}

#[test]
fn a_name_may_be_empty() {
    in_every(ALL, "an empty issuer name", |pair| {
        pair.issuer.subject = Name::default();
        pair.certificate.issuer = Name::default();
    });
    in_every(DOMAIN, "an empty subject", |pair| {
        pair.certificate.subject = Name::default();
        pair.certificate.subject.breaks(113);
        pair.certificate.subject.breaks(114);
    });
}

#[test]
fn unique_identifiers_have_the_tags_81_and_82_alone() {
    in_every(ALL, "any contents", |pair| {
        pair.certificate.issuer_unique = Some(Element::primitive(0x81, &[]));
        pair.certificate.subject_unique = Some(Element::primitive(0x82, &[0xFF; 5]));
        pair.issuer.subject_unique = Some(Element::primitive(0x82, &[]));
    });
    for identifier in [0xA1, 0xA2, 0x80, 0x83, 0x03] {
        hold_refusal("another tag", |tree| {
            let tbs = tree.find(node::TBS);
            let position = tbs.contents.len() - 1;
            let contents: &[u8] = if identifier == 0x03 { &[0] } else { &[] };
            tbs.insert(position, Element::primitive(identifier, contents).refused(6));
        });
    }
}

#[test]
fn a_version_rules_out_no_field() {
    in_every(ALL, "v2 with extensions and unique identifiers", |pair| {
        pair.certificate.version = Some(version(1).breaking(101));
        pair.certificate.issuer_unique = Some(Element::primitive(0x81, &[0]));
        pair.issuer.version = None;
    });
}
