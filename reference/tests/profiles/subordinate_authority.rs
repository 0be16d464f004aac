//! What only profile 4 judges, and what it does not judge.

use super::values::expect_value;
use super::*;

#[test]
fn common_names() {
    let change = |common_name: &[u8]| {
        let set = element(0x31, common_name);
        move |draft: &mut Draft| draft.subject[1] = set
    };
    let test_name = attribute("2.5.4.3", 0x13, "US Federal Test TLS CA 12");
    expect(4, change(&test_name), &[]);
    let zero = attribute("2.5.4.3", 0x13, "US Federal TLS CA 0");
    expect(4, change(&zero), &[(122, &zero)]);
    let in_utf8 = attribute("2.5.4.3", 0x0C, "US Federal TLS CA 1");
    expect(4, change(&in_utf8), &[(122, &in_utf8)]);

    let further = attribute("2.5.4.3", 0x13, "a.gov");
    let change = |draft: &mut Draft| draft.subject.push(element(0x31, &further));
    expect(4, change, &[(113, &further), (122, &further)]);
}

#[test]
fn organizations_in_printable_strings_only() {
    let organization = attribute("2.5.4.10", 0x0C, "U.S. Government");
    let change = |draft: &mut Draft| draft.subject[2] = element(0x31, &organization);
    expect(4, change, &[(117, &organization)]);
    let unit = attribute("2.5.4.11", 0x13, "Unit");
    let change = |draft: &mut Draft| draft.subject.push(element(0x31, &unit));
    expect(4, change, &[(112, &unit)]);
}

#[test]
fn moduli() {
    let with_modulus = |modulus: &[u8]| {
        let key = rsa_key(modulus, &[3]);
        move |draft: &mut Draft| draft.key = key
    };
    let mut long = vec![0x01; 258];
    long[257] = 0;
    expect(4, with_modulus(&long), &[]);
    let mut short = modulus()[1..].to_vec();
    short[0] = 0x7F;
    expect(4, with_modulus(&short), &[(208, &element(2, &short))]);
    let no_number = sequence(&[element(2, &[0]), element(2, &[3])]);
    let bits = element(3, &[&[0], no_number.as_slice()].concat());
    expect(4, with_modulus(&[0]), &[(204, &bits)]);
    let curve = algorithm("1.2.840.10045.2.1", &object_identifier("1.3.132.0.34"));
    let change = |draft: &mut Draft| draft.key = ec_key("1.3.132.0.34");
    expect(4, change, &[(201, &curve)]);
}

#[test]
fn constraints_of_the_path() {
    let constraints = |value: &[u8], rules: &[u16]| expect_value(4, "2.5.29.19", value, rules);
    constraints(&[0x30, 6, 1, 1, 0xFF, 2, 1, 0], &[]);
    constraints(&[0x30, 6, 1, 1, 0xFF, 2, 1, 1], &[421]);
    constraints(&[0x30, 7, 1, 1, 0xFF, 2, 2, 1, 0], &[421]);
    constraints(&[0x30, 3, 1, 1, 0xFF], &[421]);
    constraints(&[0x30, 3, 2, 1, 0], &[421]);
    constraints(&[0x30, 0], &[421]);
    constraints(&[0x30, 3, 1, 1, 0], &[342]);
}

#[test]
fn usages() {
    let usage = |value: &[u8], rules: &[u16]| expect_value(4, "2.5.29.15", value, rules);
    usage(&[3, 2, 1, 0x86], &[]);
    usage(&[3, 3, 7, 0xFF, 0x80], &[]);
    usage(&[3, 2, 2, 0x04], &[422]);
    usage(&[3, 2, 1, 0x02], &[422]);
    usage(&[3, 3, 1, 0x00, 0x06], &[422]);
    usage(&[3, 1, 0], &[422]);
    usage(&[3, 2, 0, 0x06], &[344]);
}

#[test]
fn either_policy_of_the_forum() {
    let policies = |identifiers: &[&str], rules: &[u16]| {
        let policies = identifiers.iter().map(|dotted| object_identifier(dotted));
        let policies: Vec<_> = policies.map(|policy| sequence(&[policy])).collect();
        expect_value(4, "2.5.29.32", &sequence(&policies), rules);
    };
    policies(&[FEDERAL_POLICY, "2.23.140.1.2.1"], &[]);
    policies(&["2.23.140.1.2.2", "2.23.140.1.2.1", FEDERAL_POLICY], &[]);
    policies(&[FEDERAL_POLICY, "2.23.140.1.2.3"], &[410]);
    policies(&["2.23.140.1.2.1"], &[409]);
}

#[test]
fn addresses_of_responders_and_lists() {
    let good = [
        access(OCSP, uri("http://a")),
        access(CA_ISSUERS, uri("http://b")),
    ];
    let bad = [
        access(OCSP, uri("https://a")),
        access(OCSP, dns("http://a")),
        access(OCSP, uri("http://")),
    ];
    let value = sequence(&[&good[..], &bad[..]].concat());
    let findings: Vec<(u16, &[u8])> = bad.iter().map(|entry| (423, entry.as_slice())).collect();
    expect(4, |draft| draft.replace(ACCESS, false, &value), &findings);

    let bad = [uri("ldap://c"), uri("http:/c"), uri("")];
    let names = [&bad[..2], &[uri("http://c"), dns("c")]].concat();
    let value = sequence(&[full_name(&names), full_name(&bad[2..])]);
    let findings: Vec<(u16, &[u8])> = bad.iter().map(|name| (424, name.as_slice())).collect();
    let change = |draft: &mut Draft| draft.replace("2.5.29.31", false, &value);
    expect(4, change, &findings);
}

#[test]
fn name_constraints() {
    let constraints = |value: &[u8], rules: &[u16]| expect_value(4, CONSTRAINTS, value, rules);
    let minimum = |contents: &[u8]| element(0x80, contents);
    let maximum = |contents: &[u8]| element(0x81, contents);
    constraints(&[0x30, 0], &[]);
    constraints(&permitted(&[dns(""), minimum(&[1]), maximum(&[0])]), &[]);
    constraints(&permitted(&[dns(""), maximum(&[0, 0x80])]), &[]);
    constraints(&permitted(&[dns(""), minimum(&[0])]), &[351]);
    constraints(&permitted(&[dns(""), minimum(&[0xFF])]), &[351]);
    constraints(&permitted(&[dns(""), minimum(&[0, 1])]), &[351]);
    constraints(&permitted(&[dns(""), maximum(&[0x80])]), &[351]);
    constraints(&permitted(&[dns(""), maximum(&[])]), &[351]);
    constraints(&permitted(&[dns(""), maximum(&[1]), minimum(&[1])]), &[351]);
    constraints(&permitted(&[]), &[351]);
    constraints(&permitted(&[minimum(&[1])]), &[351]);
    let subtree = sequence(&[element(0x87, &[1, 2, 3])]);
    let lists = [0xA0, 0xA1].map(|identifier| joined(identifier, &[subtree.clone()]));
    constraints(&sequence(&lists), &[]);
    constraints(&sequence(&lists[1..]), &[]);
    constraints(&sequence(&[lists[1].clone(), lists[0].clone()]), &[351]);
    constraints(&sequence(&[element(0xA0, &[])]), &[351]);
    constraints(&sequence(&[joined(0xA2, &[subtree])]), &[351]);
}

#[test]
fn name_constraints_of_other_profiles() {
    let loose = extension(CONSTRAINTS, false, &[]);
    let change = |draft: &mut Draft| draft.extensions.push(loose.clone());
    expect(1, change, &[]);
    expect(2, change, &[]);
    expect(3, change, &[(362, &loose)]);
    let critical = extension(CONSTRAINTS, true, &[]);
    let change = |draft: &mut Draft| draft.extensions.push(critical.clone());
    expect(1, change, &[(363, &critical)]);
    expect(3, change, &[(362, &critical)]);
}

#[test]
fn what_is_not_judged() {
    let short = element(2, &[0x7B; 7]);
    expect(4, |draft| draft.serial_number = short.clone(), &[]);
    let country = attribute("2.5.4.6", 0x13, "US");
    let common_name = attribute("2.5.4.3", 0x13, "US Federal TLS CA 7");
    let both = joined(0x31, &[country, common_name]);
    let change = |draft: &mut Draft| {
        draft.subject.drain(..2);
        draft.subject.push(both.clone());
    };
    expect(4, change, &[]);
    let unknown = extension("1.2.3", true, &[]);
    let nocheck = extension(NOCHECK, true, &[]);
    let change = |draft: &mut Draft| draft.extensions.extend([unknown.clone(), nocheck.clone()]);
    expect(4, change, &[]);
    let purposes = ["1.3.6.1.5.5.7.3.9", "1.3.6.1.5.5.7.3.1"].map(object_identifier);
    expect_value(4, "2.5.29.37", &sequence(&purposes), &[]);
    expect_value(4, "2.5.29.37", &sequence(&purposes[..1]), &[407]);
    expect_value(
        4,
        "2.5.29.17",
        &sequence(&[uri("x"), dns("localhost")]),
        &[],
    );
}
