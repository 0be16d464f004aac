//! What changes of fields and keys break.

use super::*;

#[test]
fn version_and_serial_number() {
    let to_be_signed = |draft: &Draft| draft.encoded()[4..].to_vec();
    let mut draft = good(1);
    draft.version = vec![];
    let place = to_be_signed(&draft);
    let length = 4 + (usize::from(place[2]) << 8 | usize::from(place[3]));
    expect(
        1,
        |draft| draft.version = vec![],
        &[(101, &place[..length])],
    );
    let v2 = [0xA0, 3, 2, 1, 1];
    expect(1, |draft| draft.version = v2.to_vec(), &[(101, &v2)]);

    let negative = element(2, &[0x80, 0x44, 0x45]);
    expect(
        1,
        |draft| draft.serial_number = negative.clone(),
        &[(102, &negative)],
    );
    let short = element(2, &[0x7B; 7]);
    expect(1, |draft| draft.serial_number = short.clone(), &[]);
    expect(
        3,
        |draft| draft.serial_number = short.clone(),
        &[(104, &short)],
    );
    let long = element(2, &[0x7B; 21]);
    expect(
        3,
        |draft| draft.serial_number = long.clone(),
        &[(103, &long)],
    );
}

#[test]
fn algorithms_and_issuer() {
    let without_null = algorithm(SIGNATURE, &[]);
    let findings: &[(u16, &[u8])] = &[(106, &without_null), (107, &without_null)];
    expect(1, |draft| draft.outer = without_null.clone(), findings);
    let another = name("AC");
    expect(
        2,
        |draft| draft.issuer = another.clone(),
        &[(108, &another)],
    );
}

#[test]
fn subjects() {
    let unit = attribute("2.5.4.11", 0x13, "Unit");
    let unit_set = joined(0x31, &[unit.clone()]);
    expect(
        1,
        |draft| draft.subject.push(unit_set.clone()),
        &[(112, &unit)],
    );
    expect(3, |draft| draft.subject.push(unit_set.clone()), &[]);

    let further = attribute("2.5.4.6", 0x0C, "US");
    let findings: &[(u16, &[u8])] = &[(114, &further), (115, &further)];
    expect(
        1,
        |draft| draft.subject.push(joined(0x31, &[further.clone()])),
        findings,
    );
}

#[test]
fn an_empty_subject() {
    let empty = [0x30, 0x00];
    let mut draft = good(2);
    draft.subject.clear();
    draft
        .extensions
        .retain(|extension| !extension.ends_with(&[4, 2, 0x30, 0]));
    let rules: Vec<u16> = report(&draft.encoded(), 2)
        .iter()
        .map(|entry| entry.rule)
        .collect();
    assert_eq!(rules, [113, 114, 116, 118, 302]);
    let name_place = report(&draft.encoded(), 2)[0];
    assert_eq!(usize::from(name_place.length), empty.len());
}

#[test]
fn values_in_subjects() {
    let state = attribute("2.5.4.8", 0x16, "District of Columbia");
    let change = |draft: &mut Draft| draft.subject[3] = joined(0x31, &[state.clone()]);
    expect(2, change, &[(119, &state)]);

    let organization = attribute("2.5.4.10", 0x13, "US Government");
    let change = |draft: &mut Draft| draft.subject[2] = joined(0x31, &[organization.clone()]);
    expect(3, change, &[(117, &organization)]);

    let common_name = attribute("2.5.4.3", 0x13, "b.example.gov");
    let change = |draft: &mut Draft| draft.subject[1] = joined(0x31, &[common_name.clone()]);
    expect(1, change, &[(120, &common_name)]);
    expect(3, change, &[]);
}

#[test]
fn sets_of_two_in_subjects() {
    let unit = attribute("2.5.4.11", 0x13, "Unit");
    let unit_too = joined(0x31, &[unit.clone(), attribute("2.5.4.11", 0x13, "Unix")]);
    expect(
        3,
        |draft| draft.subject.push(unit_too.clone()),
        &[(121, &unit_too)],
    );
}

#[test]
fn curves() {
    let curve = "1.3.132.0.33";
    let change = |draft: &mut Draft| draft.key = ec_key(curve);
    let place = algorithm("1.2.840.10045.2.1", &object_identifier(curve));
    expect(1, change, &[(203, &place)]);
    expect(3, change, &[(201, &place)]);
}

#[test]
fn exponents() {
    let low = element(2, &[3]);
    let with_low = sequence(&[element(2, &modulus()), low]);
    let mut draft = good(1);
    draft.key = rsa_key(&modulus(), &[3]);
    let entries = report(&draft.encoded(), 1);
    let start = place_of(&with_low, &draft.encoded()) + with_low.len() - 3;
    assert_eq!(entries, [finding(206, start, 3)]);
}

#[test]
fn moduli() {
    let change = |modulus: &[u8]| {
        let key = rsa_key(modulus, &[1, 0, 1]);
        move |draft: &mut Draft| draft.key = key
    };
    let mut even = modulus();
    even[256] ^= 1;
    expect(1, change(&even), &[]);
    expect(3, change(&even), &[(207, &element(2, &even))]);
    let mut short = modulus()[1..].to_vec();
    short[0] = 0x7F;
    expect(1, change(&short), &[(205, &element(2, &short))]);
    let no_number = [
        &[0],
        sequence(&[element(2, &[0]), element(2, &[1, 0, 1])]).as_slice(),
    ]
    .concat();
    expect(1, change(&[0]), &[(204, &element(3, &no_number))]);
}
