//! What an extension's value may be.

use super::*;

#[test]
fn soundness_and_set_order_hold_inside_any_and_free_forms() {
    let unsound = || Element::primitive(tag::BOOLEAN, &[1]);
    let unordered = || Element::constructed(tag::SET, vec![Element::integer(&[2]), Element::integer(&[1])]);
    for bad in [unsound(), unordered()] {
        for name in [
            other_name(oid::private_extension(), bad.clone()),
            x400(vec![bad.clone()]),
            edi_party(vec![bad.clone()]),
        ] {
            in_every(SERVER, "bad inside a free form", |pair| {
                pair.extension(7).value().push(name.clone());
                pair.extension(7).breaks_at_value(347);
            });
        }
        in_every(ALL, "bad inside a qualifier", |pair| {
            let odd = qualifier(oid::practice_statement(), bad.clone());
            pair.extension(6).value().push(policy(oid::any_policy(), vec![odd]));
            pair.extension(6).breaks_at_value(346);
        });
    }
    in_every(SERVER, "a SET under an implicit tag is not known inside free forms", |pair| {
        let descending = Element::constructed(0xA9, vec![Element::integer(&[2]), Element::integer(&[1])]);
        pair.extension(7).value().push(x400(vec![descending]).breaking(412));
    });
}

#[test]
fn x400_address_and_edi_party_name_are_constructed_and_free() {
    for number in [3, 5] {
        in_every(SERVER, "constructed", |pair| {
            let free = Element::constructed(
                tag::context_constructed(number),
                vec![Element::null(), Element::utf8("x")],
            );
            pair.extension(7).value().push(free.breaking(412));
        });
        in_every(SERVER, "primitive", |pair| {
            pair.extension(7).value().push(Element::primitive(tag::context(number), &[]));
            pair.extension(7).breaks_at_value(347);
        });
    }
}

#[test]
fn a_directory_name_and_a_points_name_are_explicit() {
    in_every(SERVER, "explicit", |pair| {
        let name = Name::of(vec![Attribute::new(oid::common_name(), Element::utf8("x"))]);
        pair.extension(7).value().push(directory(&name).breaking(412));
    });
    in_every(SERVER, "implicit", |pair| {
        let set = RelativeName::of(vec![Attribute::new(oid::common_name(), Element::utf8("x"))]).element();
        pair.extension(7).value().push(Element::constructed(0xA4, vec![set]));
        pair.extension(7).breaks_at_value(347);
    });
    in_every(ALL, "a point's name implicit", |pair| {
        let implicit = Element::constructed(0xA0, vec![uri("http://a")]);
        set_extension(pair, 9, Element::sequence(vec![point(vec![implicit])]));
        pair.extension(9).breaks_at_value(349);
    });
}

#[test]
fn a_relative_name_is_a_set_and_must_ascend() {
    let attribute = |text: &str| Attribute::new(oid::common_name(), Element::utf8(text)).element();
    let points = |first: &str, second: &str| {
        let set = Element::constructed(0xA1, vec![attribute(first), attribute(second)]);
        let relative = point(vec![Element::constructed(0xA0, vec![set])]);
        Element::sequence(vec![point(vec![full_name(vec![uri("http://a")])]), relative])
    };
    in_every(ALL, "ascending", |pair| set_extension(pair, 9, points("a", "b")));
    in_every(ALL, "equal", |pair| set_extension(pair, 9, points("a", "a")));
    in_every(ALL, "descending", |pair| {
        set_extension(pair, 9, points("b", "a"));
        pair.extension(9).breaks_at_value(349);
    });
}

#[test]
fn implicit_tags_are_judged_as_their_type() {
    let key = || Element::primitive(0x80, &ISSUER_KEY_IDENTIFIER);
    for contents in [&[][..], &[0, 1], &[0xFF, 0xFF]] {
        in_every(ALL, "a serial that is no INTEGER", |pair| {
            pair.extension(1).set_value(Element::sequence(vec![key(), Element::primitive(0x82, contents)]));
            pair.extension(1).breaks_at_value(341);
        });
    }
    in_every(ALL, "a serial of -1", |pair| {
        pair.extension(1).set_value(Element::sequence(vec![key(), Element::primitive(0x82, &[0xFF])]));
    });
    for contents in [&[][..], &[0x80], &[0x2A, 0x80, 0x01], &[0x2A, 0x81]] {
        in_every(SERVER, "a registered identifier that is no OBJECT IDENTIFIER", |pair| {
            pair.extension(7).value().push(registered_identifier(contents));
            pair.extension(7).breaks_at_value(347);
        });
    }
    for (unused, octets) in [(0, &[0x40][..]), (8, &[0x40]), (6, &[0x60]), (1, &[])] {
        in_every(ALL, "reasons that are no named bit list", |pair| {
            let odd = point(vec![full_name(vec![uri("http://a")]), reasons(unused, octets)]);
            set_extension(pair, 9, Element::sequence(vec![odd]));
            pair.extension(9).breaks_at_value(349);
        });
    }
}

#[test]
fn bits_past_the_named_ones_are_allowed_and_break_405() {
    in_every(END_ENTITY, "bit 9", |pair| {
        pair.extension(4).set_value(named_bits(&[0, 9]));
        pair.extension(4).breaks_at_value(405);
    });
    in_every(ALL, "bit 40 of the reasons", |pair| {
        let bits = [0, 0, 0, 0, 0, 0x80];
        let odd = point(vec![full_name(vec![uri("http://a")]), reasons(7, &bits)]).breaking(419);
        set_extension(pair, 9, Element::sequence(vec![odd]));
    });
}

#[test]
fn only_the_asn1_counts_and_not_its_comments() {
    in_every(ALL, "an empty point breaks 418 and not 349", |pair| {
        set_extension(pair, 9, Element::sequence(vec![point(vec![])]));
        pair.extension(9).breaks_at_value(418);
    });
    in_every(SERVER, "a path length without cA breaks 402 and not 342", |pair| {
        pair.extension(2).set_value(Element::sequence(vec![Element::integer(&[0])]));
        pair.extension(2).breaks_at_value(402);
    });
    in_every(SERVER, "an address of any length", |pair| {
        for length in [0, 1, 4, 5, 16, 17] {
            pair.extension(7).value().push(internet_address(&vec![1; length]).breaking(412));
        }
    });
    in_every(SERVER, "an IA5String of any octets", |pair| {
        pair.extension(7).value().push(Element::primitive(0x81, &[0xFF, 0x00]).breaking(412));
    });
    in_every(ALL, "issuers without a serial", |pair| {
        let issuers = Element::constructed(0xA1, vec![uri("")]);
        pair.extension(1)
            .set_value(Element::sequence(vec![Element::primitive(0x80, &ISSUER_KEY_IDENTIFIER), issuers]));
    });
}

#[test]
fn a_qualifier_holds_anything_and_has_any_identifier() {
    in_every(ALL, "a statement that is no text", |pair| {
        let odd = qualifier(oid::practice_statement(), Element::sequence(vec![Element::null()]));
        pair.extension(6).value().push(policy(oid::any_policy(), vec![odd]));
    });
    in_every(ALL, "an unknown qualifier", |pair| {
        let odd = breaking_in(pair.profile, 411, qualifier(oid::any_policy(), Element::null()));
        pair.extension(6).value().push(policy(oid::any_policy(), vec![odd]));
    });
}

#[test]
fn nocheck_is_null() {
    in_every(RESPONDER, "05 00", |pair| pair.extension(10).value = vec![Part::Octets(vec![5, 0])]);
    for octets in [&[][..], &[5], &[5, 0, 0], &[5, 1, 0], &[0x30, 0], &[4, 0], &[5, 0, 5, 0]] {
        in_every(RESPONDER, "not 05 00", |pair| {
            pair.extension(10).value = vec![Part::Octets(octets.to_vec())];
            pair.extension(10).breaks_at_value(350);
        });
    }
}

#[test]
fn ca_false_written_breaks_342() {
    in_every(SERVER, "cA FALSE", |pair| {
        pair.extension(2).set_value(Element::sequence(vec![Element::boolean(false)]));
        pair.extension(2).breaks_at_value(342);
    });
}

#[test]
fn depth_starts_afresh_in_a_value_and_in_the_key_bits() {
    in_every(SERVER, "sixteen deep", |pair| {
        let mut names = nested_other_name(16);
        let other = names.members_mut().nth(1).expect("the other name is second");
        other.marks.push(Mark::Breaks(412));
        pair.extension(7).set_value(names);
    });
    in_every(SERVER, "seventeen deep", |pair| {
        pair.extension(7).set_value(nested_other_name(17));
        pair.extension(7).breaks_at_value(347);
    });
    in_every(ALL, "an attribute's value down to depth 16 of the certificate", |pair| {
        let deep = nested(6, 16, Element::null());
        pair.certificate.subject.push(Attribute::new(oid::locality(), deep).breaking(112));
    });
}
