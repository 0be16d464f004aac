//! Profile 4, subordinate CAs (document 02, the first request): the fields but for the validity, the subject name and
//! the key.

use comparison::faults::fields::wrong_authorities;

use super::*;

#[test]
fn the_names_of_subordinate_authorities() {
    let mut linters = Linters::of("CNs of subordinate CAs");
    let long = "9".repeat(300);
    let numbers =
        ["1", "2", "9", "10", "12", "100", "101", "65536", "4294967296", "18446744073709551616", &long];
    for words in AUTHORITY_NAMES {
        for number in numbers {
            hold_in_every(&mut linters, AUTHORITY, "a good CN", |pair| {
                let name = format!("{words}{number}");
                pair.certificate.subject.attribute(&oid::common_name()).value = Element::printable(&name);
            });
        }
    }
    for value in wrong_authorities() {
        hold_in_every(&mut linters, AUTHORITY, "a wrong CN", |pair| {
            let attribute = pair.certificate.subject.attribute(&oid::common_name());
            attribute.value = value.clone();
            attribute.marks.push(Mark::Breaks(122));
        });
    }
    linters.finish();
}

#[test]
fn rule_122_judges_each_common_name_and_none_where_there_is_none() {
    let common_name = |text: &str| Attribute::new(oid::common_name(), Element::printable(text));
    in_every(AUTHORITY, "the first is good, two further ones are not", |pair| {
        let subject = &mut pair.certificate.subject;
        subject.push(common_name("US Federal TLS CA 0").breaking(113).breaking(122));
        subject.push(common_name("US Federal TLS CA 2").breaking(113));
        subject.push(common_name("www.agency.example").breaking(113).breaking(122));
    });
    in_every(AUTHORITY, "the first is wrong, the further one is good", |pair| {
        let first = RelativeName::of(vec![common_name("Root").breaking(122)]);
        pair.certificate.subject.attribute(&oid::common_name()).marks.push(Mark::Breaks(113));
        pair.certificate.subject.sets.insert(0, first);
    });
    in_every(AUTHORITY, "no CN", |pair| {
        pair.certificate.subject.remove(&oid::common_name());
        pair.certificate.subject.breaks(113);
    });
    in_every(AUTHORITY, "an empty subject", |pair| {
        pair.certificate.subject = Name::default();
        for rule in [113, 114, 116] {
            pair.certificate.subject.breaks(rule);
        }
    });
}

#[test]
fn other_profiles_ask_nothing_of_the_name_of_an_authority() {
    in_every(&[3], "a responder's CN", |pair| {
        pair.certificate.subject.attribute(&oid::common_name()).value = Element::utf8("us federal tls ca 01");
    });
}

#[test]
fn the_organization_is_a_printable_string() {
    let organization = |value: Element| Attribute::new(oid::organization(), value);
    in_every(AUTHORITY, "a UTF8String", |pair| {
        pair.certificate.subject.attribute(&oid::organization()).value = Element::utf8("U.S. Government");
        pair.certificate.subject.attribute(&oid::organization()).marks.push(Mark::Breaks(117));
    });
    in_every(AUTHORITY, "two further ones", |pair| {
        let subject = &mut pair.certificate.subject;
        subject.push(organization(Element::utf8("U.S. Government")).breaking(116).breaking(117));
        subject.push(organization(Element::printable("U.S. Government")).breaking(116));
    });
    in_every(&[2, 3], "a UTF8String elsewhere", |pair| {
        pair.certificate.subject.attribute(&oid::organization()).value = Element::utf8("U.S. Government");
    });
}

#[test]
fn the_subject_has_a_common_name_a_country_and_an_organization_alone() {
    for kind in [oid::organizational_unit(), oid::state(), oid::locality(), oid::domain_component()] {
        in_every(AUTHORITY, "another attribute", |pair| {
            for text in ["District of Columbia", "District of Columbia"] {
                let other = Attribute::new(kind.clone(), Element::printable(text)).breaking(112);
                pair.certificate.subject.push(other);
            }
        });
    }
}

#[test]
fn what_is_judged_at_responders_alone() {
    in_every(AUTHORITY, "104: a serial of one octet", |pair| {
        pair.certificate.serial = Element::integer(&[1]);
    });
    in_every(AUTHORITY, "121: all attributes in one set", |pair| {
        let sets = std::mem::take(&mut pair.certificate.subject.sets);
        let attributes = sets.into_iter().flat_map(|set| set.attributes).collect();
        pair.certificate.subject.sets = vec![RelativeName::of(attributes)];
    });
    in_every(AUTHORITY, "207: a modulus that 2 and 3 divide", |pair| {
        let modulus = [vec![0xC0], vec![0; 255]].concat();
        use_rsa(&mut pair.certificate, &modulus, &[1, 0, 1]);
    });
}

#[test]
fn the_key_is_rsa_of_2048_bits_or_more() {
    let power = |octets: usize| [vec![0x80], vec![0; octets - 1]].concat();
    let less_one = |octets: usize| [vec![0x7F], vec![0xFF; octets - 1]].concat();
    for modulus in [power(256), power(300), vec![1; 257], vec![0xFF; 1024]] {
        in_every(AUTHORITY, "long enough", |pair| use_rsa(&mut pair.certificate, &modulus, &[3]));
    }
    for modulus in [vec![1], vec![15], power(255), vec![0xFF; 255], less_one(256)] {
        in_every(AUTHORITY, "208 at the INTEGER", |pair| {
            use_rsa(&mut pair.certificate, &modulus, &[1, 0, 1]);
            pair.certificate.key_bits.find(node::MODULUS).marks.push(Mark::Breaks(208));
        });
    }
    for exponent in [vec![1], vec![2], vec![0xFF; 33]] {
        in_every(AUTHORITY, "206 is not judged", |pair| {
            use_rsa(&mut pair.certificate, &power(256), &exponent);
        });
    }
}

#[test]
fn rule_208_is_not_judged_where_204_is_broken() {
    let short = || Element::integer(&[15]);
    let keys = [vec![short()], vec![short(), Element::integer(&[0])], vec![short(), short(), short()]];
    for members in keys {
        in_every(AUTHORITY, "204 alone", |pair| {
            pair.certificate.key_bits = rsa_bits_of(Element::sequence(members.clone())).breaking(204);
        });
    }
}

#[test]
fn parameters_of_the_key_are_not_judged() {
    let curve = || Element::object_identifier(&oid::curve_p224());
    for parameters in [None, Some(Element::octet_string(&[])), Some(curve())] {
        in_every(AUTHORITY, "202 is not judged", |pair| {
            pair.certificate.key_algorithm = algorithm(oid::rsa_encryption(), parameters.clone());
        });
    }
    for curve in [oid::curve_p256(), oid::curve_p224()] {
        in_every(AUTHORITY, "an EC key breaks 201, and 203 is not judged", |pair| {
            let parameters = Element::object_identifier(&curve);
            use_elliptic_curve(&mut pair.certificate, Some(parameters), &mut Random::for_purpose("a point"));
            pair.certificate.key_algorithm.marks.push(Mark::Breaks(201));
        });
    }
}
