//! What changes of extensions and their values break.

use super::*;

#[test]
fn extension_table() {
    for profile in 1..=4 {
        let draft = good(profile);
        for position in 0..draft.extensions.len() {
            let mut draft = draft.clone();
            let removed = draft.extensions.remove(position);
            let entries = report(&draft.encoded(), profile);
            let is_alternative_name = removed[4..7] == [0x55, 0x1D, 0x11];
            let is_optional = profile >= 3 && is_alternative_name;
            assert_eq!(entries.len(), usize::from(!is_optional));
            assert!(entries
                .iter()
                .all(|entry| (301..=311).contains(&entry.rule)));
        }
    }
    let unknown = extension("1.2.3", true, &[]);
    let later = extension("1.2.3", false, &[1]);
    let change = |draft: &mut Draft| draft.extensions.extend([unknown.clone(), later.clone()]);
    expect(1, change, &[(361, &later), (363, &unknown)]);
    expect(3, change, &[(361, &later), (362, &unknown)]);

    let period = extension("2.5.29.16", true, &[]);
    let change = |draft: &mut Draft| draft.extensions.push(period.clone());
    expect(3, change, &[]);
    expect(1, change, &[(363, &period)]);

    let nocheck = extension(NOCHECK, false, &[]);
    let change = |draft: &mut Draft| draft.extensions.push(nocheck.clone());
    expect(1, change, &[]);
    let constraints = extension("2.5.29.19", false, &[]);
    let change = |draft: &mut Draft| draft.extensions.push(constraints.clone());
    expect(3, change, &[(362, &constraints)]);

    let loose = extension("2.5.29.15", false, &[3, 2, 7, 0x80]);
    let change = |draft: &mut Draft| draft.replace("2.5.29.15", false, &[3, 2, 7, 0x80]);
    expect(2, change, &[(324, &loose)]);
}

/// One extension gets another value: the findings named by rule, at its OCTET STRING.
#[track_caller]
pub fn expect_value(profile: u8, dotted: &str, value: &[u8], rules: &[u16]) {
    let mut draft = good(profile);
    let identifier = object_identifier(dotted);
    let position = draft
        .extensions
        .iter()
        .position(|extension| extension[2..].starts_with(&identifier));
    let is_critical = position.is_some_and(|position| {
        draft.extensions[position][2 + identifier.len()..].starts_with(&[1, 1, 0xFF])
    });
    match position {
        Some(position) => draft.extensions[position] = extension(dotted, is_critical, value),
        None => draft.extensions.push(extension(dotted, false, value)),
    }
    let certificate = draft.encoded();
    let whole = extension(dotted, is_critical, value);
    let place = place_of(&whole, &certificate) + whole.len() - element(4, value).len();
    let wanted: Vec<Entry> = rules
        .iter()
        .map(|&rule| finding(rule, place, element(4, value).len()))
        .collect();
    assert_eq!(report(&certificate, profile), wanted);
}

#[test]
fn authority_key_identifiers() {
    let identifier = element(0x80, &KEY_IDENTIFIER);
    let names = |names: &[Vec<u8>]| joined(0xA1, names);
    let authority = |parts: &[Vec<u8>], rules: &[u16]| {
        expect_value(1, "2.5.29.35", &sequence(parts), rules);
    };
    authority(&[], &[401]);
    authority(&[element(0x80, &[1])], &[401]);
    authority(&[identifier.clone(), names(&[dns("")])], &[]);
    authority(&[identifier.clone(), names(&[])], &[341]);
    authority(&[identifier.clone(), element(0x82, &[0xFF])], &[]);
    authority(&[identifier.clone(), element(0x82, &[])], &[341]);
    authority(&[identifier.clone(), element(0x82, &[0, 1])], &[341]);
    authority(&[element(0x82, &[1]), identifier.clone()], &[341]);
    authority(&[joined(0xA0, &[identifier.clone()])], &[341]);
}

#[test]
fn basic_constraints_and_subject_key_identifiers() {
    let constraints = |value: &[u8], rules: &[u16]| expect_value(2, "2.5.29.19", value, rules);
    constraints(&[0x30, 3, 1, 1, 0xFF], &[402]);
    constraints(&[0x30, 3, 1, 1, 0], &[342]);
    constraints(&[0x30, 3, 2, 1, 0], &[402]);
    constraints(&[0x30, 3, 2, 1, 0xFF], &[342]);
    constraints(&[0x30, 0, 0x30, 0], &[342]);
    constraints(&[], &[342]);

    expect_value(3, "2.5.29.14", &element(4, &[1; 19]), &[403]);
    expect_value(3, "2.5.29.14", &[1; 20], &[343]);
}

#[test]
fn usages_and_nocheck() {
    let usage = |profile: u8, value: &[u8], rules: &[u16]| {
        expect_value(profile, "2.5.29.15", value, rules);
    };
    usage(1, &[3, 2, 5, 0xA0], &[]);
    usage(3, &[3, 2, 5, 0xA0], &[405]);
    usage(1, &[3, 2, 3, 0x88], &[405]);
    usage(1, &[3, 2, 0, 0x80], &[344]);
    usage(1, &[3, 1, 0], &[404]);
    usage(1, &[3, 2, 5, 0x20], &[404]);
    usage(1, &[3, 3, 7, 0x80, 0x80], &[405]);

    expect_value(3, NOCHECK, &[], &[350]);
    expect_value(3, NOCHECK, &[0x30, 0], &[350]);
    expect_value(1, "2.5.29.37", &[0x30, 0], &[345]);
    expect_value(
        1,
        "2.5.29.37",
        &sequence(&[object_identifier("1.3.6.1.5.5.7.3.2")]),
        &[407],
    );
}

#[test]
fn three_bad_purposes_get_three_entries() {
    let purposes = ["1.3.6.1.5.5.7.3.9", "2.5.29.37.0", "1.3.6.1.5.5.7.3.3"];
    let purposes = purposes.map(object_identifier);
    let good = object_identifier("1.3.6.1.5.5.7.3.1");
    let value = sequence(&[&[good.clone()], &purposes[..], &[good]].concat());
    let findings: Vec<(u16, &[u8])> = purposes.iter().map(|item| (408, item.as_slice())).collect();
    expect(
        1,
        |draft| draft.replace("2.5.29.37", false, &value),
        &findings,
    );
}

#[test]
fn policies() {
    let policy = |dotted: &str| sequence(&[object_identifier(dotted)]);
    let forum = policy("2.23.140.1.2.2");
    let arc = policy("2.16.840.1.101.3.2.1.3");
    expect_value(2, "2.5.29.32", &sequence(&[arc, forum.clone()]), &[409]);
    expect_value(
        1,
        "2.5.29.32",
        &sequence(&[policy(FEDERAL_POLICY), forum.clone()]),
        &[410],
    );
    expect_value(3, "2.5.29.32", &sequence(&[policy(FEDERAL_POLICY)]), &[]);
    expect_value(3, "2.5.29.32", &sequence(&[]), &[346]);

    let qualified = |qualifiers: &[Vec<u8>]| {
        sequence(&[sequence(&[
            object_identifier(FEDERAL_POLICY),
            sequence(qualifiers),
        ])])
    };
    expect_value(3, "2.5.29.32", &qualified(&[]), &[346]);
    let statement = access("1.3.6.1.5.5.7.2.1", element(0x16, b"cps"));
    let notice = access("1.3.6.1.5.5.7.2.2", sequence(&[]));
    let value = qualified(&[statement, notice.clone()]);
    expect(
        3,
        |draft| draft.replace("2.5.29.32", false, &value),
        &[(411, &notice)],
    );
    let bare = sequence(&[object_identifier("1.3.6.1.5.5.7.2.1")]);
    expect_value(3, "2.5.29.32", &qualified(&[bare]), &[346]);
}

/// The names of a host and of this form.
fn behind_a_host(name: &[u8]) -> Vec<u8> {
    sequence(&[dns("www.example.gov"), name.to_vec()])
}

/// The alternative name has this name besides: the findings named by rule, at the name.
#[track_caller]
fn expect_name(profile: u8, name: &[u8], rules: &[u16]) {
    let value = behind_a_host(name);
    let findings: Vec<(u16, &[u8])> = rules.iter().map(|&rule| (rule, name)).collect();
    expect(
        profile,
        |draft| draft.replace("2.5.29.17", false, &value),
        &findings,
    );
}

#[test]
fn alternative_names() {
    expect_name(1, &dns("a_.gov"), &[413]);
    expect_name(3, &dns("a_.gov"), &[]);
    expect_name(1, &dns("_"), &[413, 414]);
    expect_name(1, &dns("localhost"), &[414]);
    expect_name(1, &dns("q.gov."), &[414]);
    let directory = joined(0xA4, &[name("A")]);
    let other = joined(
        0xA0,
        &[object_identifier("1.2.3"), joined(0xA0, &[NULL.to_vec()])],
    );
    let good_forms: [&[u8]; 9] = [
        &other,
        &element(0x81, b"\xFF"),
        &element(0xA3, &[]),
        &directory,
        &joined(0xA4, &[sequence(&[])]),
        &element(0xA5, &[0x05, 0x00]),
        &uri("http://x"),
        &element(0x87, &[1, 2, 3]),
        &element(0x88, &[0x2A, 3]),
    ];
    for name in good_forms {
        expect_name(1, name, &[412]);
    }
}

#[test]
fn alternative_names_of_no_form() {
    let bad_forms: [&[u8]; 14] = [
        &element(0x80, b"a"),
        &element(0xA0, &[]),
        &joined(0xA0, &[object_identifier("1.2.3")]),
        &joined(0xA0, &[object_identifier("1.2.3"), element(0xA0, &[])]),
        &joined(
            0xA0,
            &[object_identifier("1.2.3"), element(0xA0, &[5, 0, 5, 0])],
        ),
        &element(0xA2, &[]),
        &element(0x83, &[]),
        &element(0xA3, &[1]),
        &element(0xA4, &[0x31, 0]),
        &joined(0xA4, &[sequence(&[element(0x31, &[])])]),
        &element(0xA4, &[]),
        &element(0x88, &[0x80, 1]),
        &element(0x88, &[]),
        &element(0x89, &[]),
    ];
    for name in bad_forms {
        expect_value(1, "2.5.29.17", &behind_a_host(name), &[347]);
    }
}

#[test]
fn access_descriptions() {
    let ocsp = access(OCSP, uri("x"));
    let ca = access(CA_ISSUERS, uri("http://y"));
    expect_value(1, ACCESS, &sequence(&[ocsp.clone()]), &[416]);
    expect_value(1, ACCESS, &sequence(&[ca.clone()]), &[415]);
    expect_value(3, ACCESS, &sequence(&[ca.clone()]), &[]);
    expect_value(3, ACCESS, &sequence(&[]), &[348]);
    let empty_address = access(CA_ISSUERS, uri("http://"));
    let value = sequence(&[ocsp, ca, empty_address.clone()]);
    expect(
        1,
        |draft| draft.replace(ACCESS, false, &value),
        &[(417, &empty_address)],
    );
    expect(3, |draft| draft.replace(ACCESS, false, &value), &[]);
}

#[test]
fn distribution_points() {
    let points = |points: &[Vec<u8>], rules: &[u16]| {
        expect_value(1, "2.5.29.31", &sequence(points), rules);
    };
    let full = |names: &[Vec<u8>]| joined(0xA0, &[joined(0xA0, names)]);
    let http = || full(&[dns("a"), uri("hTTp://z")]);
    let relative = |members: &[Vec<u8>]| joined(0xA0, &[joined(0xA1, members)]);
    let (a, b) = (
        attribute("2.5.4.3", 0x13, "A"),
        attribute("2.5.4.3", 0x13, "B"),
    );
    points(&[], &[349]);
    points(&[sequence(&[])], &[418]);
    points(&[sequence(&[]), sequence(&[http()])], &[]);
    points(&[sequence(&[full(&[uri("https://z")])])], &[418]);
    points(&[sequence(&[full(&[])])], &[349]);
    points(&[sequence(&[element(0xA0, &[])])], &[349]);
    points(&[sequence(&[relative(&[a.clone(), b.clone()])])], &[418]);
    points(&[sequence(&[relative(&[b, a])])], &[349]);
    points(&[sequence(&[relative(&[])])], &[349]);
    points(&[sequence(&[http(), element(0x81, &[0, 0x80])])], &[349]);
    points(&[sequence(&[http(), element(0x81, &[])])], &[349]);
    points(&[sequence(&[http(), element(0xA2, &[])])], &[349]);
    let segmented = sequence(&[element(0x81, &[7, 0x80]), joined(0xA2, &[dns("a")])]);
    let value = sequence(&[sequence(&[http()]), segmented.clone()]);
    let change = |draft: &mut Draft| draft.extensions.push(extension("2.5.29.31", false, &value));
    expect(1, change, &[(419, &segmented)]);
}

#[test]
fn depth_starts_afresh_in_a_value() {
    let nested = |levels: usize| (0..levels).fold(NULL.to_vec(), |inner, _| element(0x30, &inner));
    let other = |levels: usize| {
        let value = joined(0xA0, &[nested(levels)]);
        sequence(&[
            dns("www.example.gov"),
            joined(0xA0, &[object_identifier("1.2.3"), value]),
        ])
    };
    // the list, the name, its value, the nested SEQUENCEs, NULL
    let deepest = other(12);
    let mut draft = good(3);
    draft.replace("2.5.29.17", false, &deepest);
    let rules = |draft: &Draft| report(&draft.encoded(), 3)[0].rule;
    assert_eq!(rules(&draft), 412);
    expect_value(3, "2.5.29.17", &other(13), &[347]);
}
