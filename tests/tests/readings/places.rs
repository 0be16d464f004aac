//! Where a finding is placed.

use comparison::holding::AMPLE_ROOM;
use reference::lint;

use super::*;

#[test]
fn rule_101_is_placed_at_the_version_or_at_the_tbs_structure() {
    let mut pair = plain(1);
    pair.certificate.version = Some(version(1));
    let place = pair.certificate.element().encode().place_of(node::VERSION);
    let case = pair.encode();
    let Answer::Report(entries) = lint(&case.certificate, &case.issuer, 1, AMPLE_ROOM) else {
        panic!("refused")
    };
    assert_eq!((entries.len(), entries[0].rule), (1, 101));
    assert_eq!((usize::from(entries[0].start), usize::from(entries[0].length)), (place.start, place.length));
    pair.certificate.version = None;
    let place = pair.certificate.element().encode().place_of(node::TBS);
    let case = pair.encode();
    let Answer::Report(entries) = lint(&case.certificate, &case.issuer, 1, AMPLE_ROOM) else {
        panic!("refused")
    };
    assert_eq!((usize::from(entries[0].start), usize::from(entries[0].length)), (place.start, place.length));
}

#[test]
fn rule_107_is_placed_at_the_outer_algorithm() {
    in_every(ALL, "the inner algorithm is wrong", |pair| {
        pair.certificate.inner_algorithm =
            algorithm(oid::sha1_with_rsa(), Some(Element::null())).breaking(105);
        pair.certificate.outer_algorithm.marks.push(Mark::Breaks(107));
    });
}

#[test]
fn rule_108_is_placed_at_the_certificates_issuer_name() {
    in_every(ALL, "another issuer", |pair| {
        pair.certificate.issuer.push(Attribute::new(oid::locality(), Element::utf8("x")));
        pair.certificate.issuer.breaks(108);
    });
}

#[test]
fn an_attribute_is_the_sequence_of_type_and_value() {
    let mut pair = plain(1);
    pair.certificate.subject = Name::of(vec![Attribute::new(oid::country(), Element::utf8("US"))]);
    let encoded = pair.certificate.element().encode();
    let subject = encoded.place_of(node::SUBJECT);
    let Answer::Report(entries) = lint(&encoded.octets, &pair.encode().issuer, 1, AMPLE_ROOM) else {
        panic!("refused")
    };
    // The name's header, the set's header, and then 30 09 06 03 55 04 06 0C 02 55 53.
    let found: Vec<_> =
        entries.iter().map(|entry| (entry.rule, usize::from(entry.start), entry.length)).collect();
    assert_eq!(found, [(113, subject.start, subject.length as u16), (115, subject.start + 4, 11)]);
}

#[test]
fn rule_120_is_placed_at_the_first_common_name() {
    in_every(SERVER, "the first CN is elsewhere, the second is right", |pair| {
        let subject = &mut pair.certificate.subject;
        let first = Attribute::new(oid::common_name(), Element::utf8("elsewhere.example")).breaking(120);
        subject.sets.insert(0, RelativeName::of(vec![first]));
        subject.sets.last_mut().expect("the CN is last").attributes[0].marks.push(Mark::Breaks(113));
    });
}

#[test]
fn a_missing_extension_is_placed_at_the_inner_sequence_or_at_the_tbs_structure() {
    in_every(ALL, "one missing", |pair| {
        pair.certificate.remove_extension(&oid::key_usage());
        pair.certificate.list_marks.push(Mark::Breaks(304));
    });
    in_every(ALL, "none there", |pair| {
        pair.certificate.extensions.clear();
        for slot in SLOTS.filter(|slot| standing(*slot, pair.profile).is_mandatory()) {
            pair.certificate.tbs_marks.push(Mark::Breaks(300 + u16::from(slot)));
        }
    });
    in_every(ALL, "none of the table there", |pair| {
        let profile = pair.profile;
        pair.certificate.extensions =
            vec![Extension::new(oid::private_key_usage_period(), false, Element::null())];
        for slot in SLOTS.filter(|slot| standing(*slot, profile).is_mandatory()) {
            pair.certificate.list_marks.push(Mark::Breaks(300 + u16::from(slot)));
        }
    });
}

#[test]
fn items_are_placed_at_the_element_that_is_the_item() {
    in_every(END_ENTITY, "a purpose is its OBJECT IDENTIFIER", |pair| {
        pair.extension(5).value().push(Element::object_identifier(&oid::any_purpose()).breaking(408));
    });
    in_every(END_ENTITY, "a qualifier is the PolicyQualifierInfo", |pair| {
        let odd = qualifier(oid::user_notice(), Element::sequence(vec![])).breaking(411);
        pair.extension(6).value().push(policy(oid::any_policy(), vec![odd]));
    });
    in_every(SERVER, "a name is the GeneralName", |pair| {
        let names = pair.extension(7).value();
        names.push(mail("a@b").breaking(412));
        names.push(dns("a_b.c").breaking(413));
        names.push(dns("a b.c").breaking(414));
    });
    in_every(SERVER_AND_AUTHORITY, "an access is the AccessDescription", |pair| {
        pair.extension(8).value().push(access(oid::access_to_issuers(), uri("ftp://a")).breaking(417));
    });
    in_every(ALL, "a point is the DistributionPoint, once with both fields", |pair| {
        let both = vec![reasons(6, &[0x40]), list_issuer(vec![uri("http://a")])];
        let points = vec![point(vec![full_name(vec![uri("http://a")])]), point(both).breaking(419)];
        set_extension(pair, 9, Element::sequence(points));
    });
}
