//! What a rule asks.

use super::*;

#[test]
fn a_later_repeat_gets_361_alone() {
    in_every(ALL, "a repeat that is bad in every way", |pair| {
        for slot in SLOTS.filter(|slot| standing(*slot, pair.profile).is_mandatory()) {
            let critical = !standing(slot, pair.profile).is_critical();
            let mut repeat = Extension::new(identifier_of(slot), critical, Element::null()).breaking(361);
            repeat.value = vec![Part::Octets(vec![0xFF])];
            pair.certificate.extensions.push(repeat);
        }
    });
    in_every(RESPONDER, "what is forbidden twice", |pair| {
        let constraints = || Extension::new(oid::basic_constraints(), true, Element::sequence(vec![]));
        pair.certificate.extensions.push(constraints().breaking(362));
        pair.certificate.extensions.push(constraints().breaking(361));
    });
    in_every(SERVER, "a repeat is critical, the first is not", |pair| {
        let strange = |critical| Extension::new(oid::private_extension(), critical, Element::null());
        pair.certificate.extensions.push(strange(false));
        pair.certificate.extensions.push(strange(true).breaking(361));
    });
}

#[test]
fn the_private_key_usage_period_is_excepted_from_362_only() {
    for critical in [false, true] {
        in_every(RESPONDER, "at a responder", |pair| {
            pair.certificate.extensions.push(Extension::new(
                oid::private_key_usage_period(),
                critical,
                Element::null(),
            ));
        });
    }
    in_every(SERVER, "critical at a server", |pair| {
        let period = Extension::new(oid::private_key_usage_period(), true, Element::null()).breaking(363);
        pair.certificate.extensions.push(period);
    });
}

#[test]
fn extensions_marked_no_or_other_get_neither_320_nor_340() {
    in_every(RESPONDER, "bad basic constraints", |pair| {
        let mut constraints = Extension::new(oid::basic_constraints(), false, Element::null()).breaking(362);
        constraints.value = vec![];
        pair.certificate.extensions.push(constraints);
    });
    in_every(SERVER, "a bad nocheck", |pair| {
        let mut nocheck = Extension::new(oid::ocsp_nocheck(), false, Element::null());
        nocheck.value = vec![Part::Octets(vec![0xFF])];
        pair.certificate.extensions.push(nocheck);
    });
}

#[test]
fn rule_120_compares_contents_whatever_the_type() {
    for kind in [
        tag::PRINTABLE_STRING,
        tag::IA5_STRING,
        tag::BMP_STRING,
        tag::OCTET_STRING,
        tag::TELETEX_STRING,
        0x81,
    ] {
        in_every(SERVER, "another type", |pair| {
            pair.certificate.subject.attribute(&oid::common_name()).value =
                Element::primitive(kind, HOST.as_bytes());
        });
    }
    in_every(SERVER, "ASCII case alone is ignored", |pair| {
        pair.extension(7).value().push(Element::primitive(0x82, &[0xE9, b'.', b'b']).breaking(414));
        let attribute = pair.certificate.subject.attribute(&oid::common_name());
        attribute.value = Element::primitive(tag::UTF8_STRING, &[0xC9, b'.', b'b']);
        attribute.marks.push(Mark::Breaks(120));
    });
    in_every(SERVER, "another form of name does not count", |pair| {
        pair.extension(7).value().push(mail("other.example").breaking(412));
        let attribute = pair.certificate.subject.attribute(&oid::common_name());
        attribute.value = Element::utf8("other.example");
        attribute.marks.push(Mark::Breaks(120));
    });
}

#[test]
fn rule_120_is_not_judged_without_a_good_alternative_name() {
    in_every(SERVER, "a bad one", |pair| {
        pair.certificate.subject.attribute(&oid::common_name()).value = Element::utf8("elsewhere");
        pair.extension(7).value = vec![Part::Octets(vec![0x30, 0])];
        pair.extension(7).breaks_at_value(347);
    });
    in_every(SERVER, "none", |pair| {
        pair.certificate.subject.attribute(&oid::common_name()).value = Element::utf8("elsewhere");
        pair.certificate.remove_extension(&oid::subject_alternative_name());
        pair.certificate.list_marks.push(Mark::Breaks(307));
    });
}

#[test]
fn further_attributes_go_in_the_order_of_the_encoding_inside_sets_too() {
    in_every(SERVER, "two CNs in one set", |pair| {
        pair.certificate.subject.remove(&oid::common_name());
        // The shorter one is encoded first, so it is the first CN.
        let longer =
            Attribute::new(oid::common_name(), Element::utf8("elsewhere.agency.example")).breaking(113);
        let shorter = Attribute::new(oid::common_name(), Element::utf8(HOST));
        pair.certificate.subject.sets.push(RelativeName::of(vec![longer, shorter]));
    });
    in_every(SERVER, "the wrong CN first", |pair| {
        pair.certificate.subject.remove(&oid::common_name());
        let shorter = Attribute::new(oid::common_name(), Element::utf8("a.b")).breaking(120);
        let longer = Attribute::new(oid::common_name(), Element::utf8(HOST)).breaking(113);
        pair.certificate.subject.sets.push(RelativeName::of(vec![longer, shorter]));
    });
    in_every(RESPONDER, "two equal Cs in one set", |pair| {
        let country = || Attribute::new(oid::country(), Element::printable("US"));
        pair.certificate.subject.remove(&oid::country());
        let set = RelativeName {
            attributes: vec![country(), country().breaking(114)],
            marks: vec![Mark::Breaks(121)],
        };
        pair.certificate.subject.sets.push(set);
    });
}

#[test]
fn further_attributes_are_judged_like_the_first() {
    in_every(ALL, "a further wrong C", |pair| {
        let wrong = Attribute::new(oid::country(), Element::utf8("US"));
        pair.certificate.subject.push(wrong.breaking(114).breaking(115));
    });
    in_every(WITH_ORGANIZATION, "a further wrong O", |pair| {
        let wrong = Attribute::new(oid::organization(), Element::utf8("Bureau"));
        pair.certificate.subject.push(wrong.breaking(116).breaking(117));
    });
    in_every(ORGANIZATION, "a further wrong ST", |pair| {
        let wrong = Attribute::new(oid::state(), Element::utf8("DC"));
        pair.certificate.subject.push(wrong.breaking(118).breaking(119));
    });
}

#[test]
fn the_kind_of_a_key_goes_by_its_algorithm_identifier_alone() {
    let mut random = Random::for_purpose("kinds of keys");
    let modulus = good_modulus(2048, &mut random);
    in_every(SERVER, "EC with the bits of a bad RSA key", |pair| {
        use_rsa(&mut pair.certificate, &[15], &[2]);
        pair.certificate.key_algorithm =
            algorithm(oid::elliptic_curve_key(), Some(Element::object_identifier(&oid::curve_p384())));
        pair.extension(4).set_value(named_bits(&[0, usage::KEY_AGREEMENT]));
    });
    in_every(END_ENTITY, "RSA without NULL is RSA", |pair| {
        use_rsa(&mut pair.certificate, &modulus, &[3]);
        pair.certificate.key_algorithm = algorithm(oid::rsa_encryption(), None).breaking(202);
        pair.certificate.key_bits.find(node::EXPONENT).marks.push(Mark::Breaks(206));
    });
    in_every(SERVER, "EC on a wrong curve takes keyAgreement", |pair| {
        pair.certificate.key_algorithm = algorithm(oid::elliptic_curve_key(), None).breaking(203);
        pair.certificate.key_bits = Element::bit_string(0, &[4]);
        pair.extension(4).set_value(named_bits(&[0, usage::KEY_AGREEMENT]));
    });
    in_every(SERVER, "RSA of bad bits takes keyEncipherment", |pair| {
        pair.certificate.key_bits = Element::bit_string(0, &[]).breaking(204);
        pair.extension(4).set_value(named_bits(&[0, usage::KEY_ENCIPHERMENT]));
    });
    in_every(RESPONDER, "an EC key at a responder is not judged by 203", |pair| {
        pair.certificate.key_algorithm = algorithm(oid::elliptic_curve_key(), None).breaking(201);
        pair.certificate.key_bits = Element::bit_string(0, &[4]);
    });
}

#[test]
fn rule_205_counts_the_bits_of_the_number() {
    let mut random = Random::for_purpose("bits of a modulus");
    for bits in [2041, 2047, 2048, 2049, 3072, 4096, 4097] {
        let modulus = new_modulus(bits, &mut random);
        in_every(END_ENTITY, "a modulus", |pair| {
            use_rsa(&mut pair.certificate, &modulus, &[1, 0, 1]);
            if !GOOD_SIZES.contains(&bits) {
                pair.certificate.key_bits.find(node::MODULUS).marks.push(Mark::Breaks(205));
            }
        });
        in_every(AUTHORITY, "208 counts them too", |pair| {
            use_rsa(&mut pair.certificate, &modulus, &[1, 0, 1]);
            if bits < 2048 {
                pair.certificate.key_bits.find(node::MODULUS).marks.push(Mark::Breaks(208));
            }
        });
    }
}

#[test]
fn rule_206_goes_from_65537_to_below_the_power() {
    let mut random = Random::for_purpose("exponents");
    let modulus = good_modulus(2048, &mut random);
    let power_less_one = vec![0xFF; 32];
    for (exponent, good) in [
        (vec![1, 0, 1], true),
        (vec![1, 0, 3], true),
        (largest_exponent(), true),
        (vec![1, 0, 0], false),
        (vec![0xFF, 0xFF], false),
        (power_less_one, false),
        ([vec![1], vec![0; 31], vec![1]].concat(), false),
    ] {
        in_every(END_ENTITY, "an exponent", |pair| {
            use_rsa(&mut pair.certificate, &modulus, &exponent);
            if !good {
                pair.certificate.key_bits.find(node::EXPONENT).marks.push(Mark::Breaks(206));
            }
        });
    }
}

#[test]
fn rule_207_knows_every_prime_below_752() {
    assert_eq!(small_primes().len(), 133);
    assert_eq!(small_primes().last(), Some(&751));
    let mut random = Random::for_purpose("small factors");
    let mut linters = Linters::of("small factors");
    for prime in small_primes() {
        let modulus = multiple_below(&good_modulus(2048, &mut random), *prime);
        hold_in_every(&mut linters, RESPONDER, "a small factor", |pair| {
            use_rsa(&mut pair.certificate, &modulus, &[1, 0, 1]);
            pair.certificate.key_bits.find(node::MODULUS).marks.push(Mark::Breaks(207));
        });
        hold_in_every(&mut linters, SERVER, "a small factor is no fault at a server", |pair| {
            use_rsa(&mut pair.certificate, &modulus, &[1, 0, 1]);
        });
    }
    linters.settle();
}

#[test]
fn an_http_uri_is_http_in_any_case_and_something_more() {
    for address in ["http://a", "HTTP://a", "hTTp:// ", "http:///", "http://\u{e9}"] {
        in_every(SERVER_AND_AUTHORITY, "HTTP", |pair| {
            pair.extension(8).value().push(access(oid::access_to_issuers(), uri(address)));
        });
        in_every(ALL, "HTTP", |pair| {
            set_extension(pair, 9, Element::sequence(vec![point(vec![full_name(vec![uri(address)])])]));
        });
    }
    for address in NOT_HTTP {
        in_every(SERVER_AND_AUTHORITY, "not HTTP", |pair| {
            pair.extension(8).value().push(access(oid::access_to_issuers(), uri(address)).breaking(417));
        });
        in_every(ALL, "not HTTP", |pair| {
            let odd = breaking_in(pair.profile, 424, uri(address));
            set_extension(pair, 9, Element::sequence(vec![point(vec![full_name(vec![odd])])]));
            pair.extension(9).breaks_at_value(418);
        });
    }
}

#[test]
fn a_uri_is_the_name_form_6() {
    in_every(SERVER, "an OCSP address as a host name", |pair| {
        let entries = vec![
            access(oid::access_by_ocsp(), dns("http://ocsp")),
            access(oid::access_to_issuers(), uri("http://a")),
        ];
        pair.extension(8).set_value(Element::sequence(entries));
        pair.extension(8).breaks_at_value(415);
    });
    in_every(ALL, "any URI serves 415 and 416", |pair| {
        let ocsp = breaking_in(pair.profile, 423, access(oid::access_by_ocsp(), uri("")));
        let issuers = breaking_in(pair.profile, 417, access(oid::access_to_issuers(), uri("x")));
        pair.extension(8).set_value(Element::sequence(vec![ocsp, issuers]));
    });
}

#[test]
fn rule_418_looks_at_full_names_only() {
    in_every(ALL, "HTTP as the list's issuer", |pair| {
        let odd = point(vec![full_name(vec![dns("a.b")]), list_issuer(vec![uri("http://a")])]).breaking(419);
        set_extension(pair, 9, Element::sequence(vec![odd]));
        pair.extension(9).breaks_at_value(418);
    });
    in_every(ALL, "HTTP in the last of three points", |pair| {
        let points = vec![
            point(vec![]),
            point(vec![full_name(vec![breaking_in(pair.profile, 424, uri("ldap://a"))])]),
            point(vec![full_name(vec![dns("a.b"), uri("http://a")])]),
        ];
        set_extension(pair, 9, Element::sequence(points));
    });
}

#[test]
fn a_dot_at_the_end_of_a_host_name_leaves_an_empty_label() {
    in_every(END_ENTITY, "a dot at the end", |pair| {
        set_extension(pair, 7, Element::sequence(vec![dns(HOST), dns("www.agency.example.").breaking(414)]));
    });
}

#[test]
fn host_names_at_the_edge_of_their_lengths() {
    in_every(END_ENTITY, "253 octets and a label of 63", |pair| {
        let long = Element::primitive(0x82, &long_host(253));
        let label = dns(&format!("{}.b", "a".repeat(63)));
        set_extension(
            pair,
            7,
            Element::sequence(vec![dns(HOST), long, label, dns("a.b"), dns("1.2"), dns("a--b.c")]),
        );
    });
    in_every(END_ENTITY, "254 octets and a label of 64", |pair| {
        let long = Element::primitive(0x82, &long_host(254)).breaking(414);
        let label = dns(&format!("{}.b", "a".repeat(64))).breaking(414);
        set_extension(pair, 7, Element::sequence(vec![dns(HOST), long, label]));
    });
}

#[test]
fn a_wanted_purpose_twice_is_not_another_purpose() {
    in_every(ALL, "twice", |pair| {
        let wanted = Element::object_identifier(&wanted_purpose(pair.profile));
        pair.extension(5).value().push(wanted);
    });
}

#[test]
fn client_auth_is_excepted_for_servers_alone() {
    in_every(SERVER, "at a server", |pair| {
        pair.extension(5).value().push(Element::object_identifier(&oid::client_auth()));
    });
    in_every(RESPONDER, "at a responder", |pair| {
        pair.extension(5).value().push(Element::object_identifier(&oid::client_auth()).breaking(408));
    });
}

#[test]
fn rules_without_a_letter_hold_for_all_three_profiles_of_document_01() {
    in_every(END_ENTITY, "412 and 414", |pair| {
        let names = vec![dns(HOST), mail("a@b").breaking(412), dns("a").breaking(414)];
        set_extension(pair, 7, Element::sequence(names));
    });
    in_every(RESPONDER, "an underscore is no fault at a responder", |pair| {
        set_extension(pair, 7, Element::sequence(vec![dns("a_b.c")]));
    });
}
