//! What is refused, and where.

use super::*;

/// The certificate is refused with 6 at these octets.
#[track_caller]
fn expect_refusal_6(change: impl FnOnce(&mut Draft), item: &[u8]) {
    let mut draft = good(1);
    change(&mut draft);
    let certificate = draft.encoded();
    let wanted = Refusal {
        number: 6,
        side: 1,
        place: place_of(item, &certificate),
    };
    assert_eq!(refused(&certificate, 1), wanted);
}

#[test]
fn refusals_at_versions_and_algorithms() {
    let version = |octets: &[u8], item: &[u8]| {
        let octets = octets.to_vec();
        expect_refusal_6(|draft| draft.version = octets, item);
    };
    version(&[0xA0, 4, 2, 2, 0, 0xFE], &[2, 2, 0, 0xFE]);
    version(&[0xA0, 0], &[0xA0, 0]);
    version(&[0xA0, 6, 2, 1, 2, 0x16, 1, 0xEE], &[0x16, 1, 0xEE]);
    version(&[0x80, 2, 0xEE, 0xEE], &[0x80, 2, 0xEE, 0xEE]);

    let long = sequence(&[
        object_identifier(SIGNATURE),
        NULL.to_vec(),
        vec![0x16, 1, 0xEE],
    ]);
    expect_refusal_6(|draft| draft.outer = long.clone(), &[0x16, 1, 0xEE]);
    expect_refusal_6(
        |draft| draft.outer = vec![0x30, 0],
        &[0x30, 0, 3, 2, 0, 0x55],
    );
}

#[test]
fn refusals_at_times_names_and_extensions() {
    let one_time = sequence(&[element(0x17, b"240101000000Z")]);
    expect_refusal_6(|draft| draft.validity = one_time.clone(), &one_time);
    let no_date = element(0x17, b"240230000000Z");
    let validity = times("240101000000Z", "240230000000Z");
    expect_refusal_6(|draft| draft.validity = validity.clone(), &no_date);

    let empty_set = vec![0x31, 0, 0x31];
    let change = |draft: &mut Draft| draft.subject.insert(1, vec![0x31, 0]);
    expect_refusal_6(change, &empty_set);

    expect_refusal_6(|draft| draft.unique = vec![0xA1, 0], &[0xA1, 0]);
    expect_refusal_6(
        |draft| draft.unique = vec![0x82, 0, 0x81, 1, 0xEE],
        &[0x81, 1, 0xEE],
    );
    expect_refusal_6(|draft| draft.unique = vec![0xA3, 0], &[0xA3, 0]);
    expect_refusal_6(
        |draft| draft.unique = vec![0xA3, 2, 0x30, 0],
        &[0x30, 0, 0xA3],
    );

    let written_false = [0x30, 8, 6, 1, 0x2A, 1, 1, 0, 4, 0];
    let change = |draft: &mut Draft| draft.extensions.push(written_false.to_vec());
    expect_refusal_6(change, &written_false[5..]);
    let no_value = [0x30, 3, 6, 1, 0x2B];
    let change = |draft: &mut Draft| draft.extensions.push(no_value.to_vec());
    expect_refusal_6(change, &no_value);
}

#[test]
fn refusals_in_their_order() {
    let number = |certificate: &[u8], issuer: &[u8], profile: u8, room: usize| match lint(
        certificate,
        issuer,
        profile,
        room,
    ) {
        Answer::Refused(refusal) => (refusal.number, refusal.side, refusal.place),
        Answer::Report(entries) => panic!("{entries:?}"),
    };
    let sound = [0x30, 0];
    let faulty = [0x30, 2, 0x30, 1];
    let unordered = [0x30, 8, 0x31, 6, 2, 1, 2, 2, 1, 1];
    let good_one = good(1).encoded();
    assert_eq!(number(&[], &[], 0, 0), (1, 1, 0));
    assert_eq!(number(&[0; 8193], &[], 0, 0), (1, 1, 0));
    assert_eq!(number(&sound, &[0; 8193], 0, 0), (2, 2, 0));
    for profile in [0, 5, 255] {
        assert_eq!(number(&sound, &sound, profile, 0), (3, 0, 0));
    }
    assert_eq!(number(&sound, &sound, 4, 0), (6, 1, 0));
    assert_eq!(number(&[0; 8192], &[0; 8192], 1, 0), (4, 1, 0));
    assert_eq!(number(&faulty, &faulty, 1, 0), (4, 1, 2));
    assert_eq!(number(&unordered, &faulty, 1, 0), (5, 1, 2));
    assert_eq!(number(&sound, &faulty, 1, 0), (6, 1, 0));
    assert_eq!(number(&good_one, &faulty, 1, 0), (4, 2, 2));
    assert_eq!(number(&good_one, &unordered, 1, 0), (5, 2, 2));
    assert_eq!(number(&good_one, &sound, 1, 0), (6, 2, 0));

    // The certificate as its own issuer breaks 108 and 401.
    for room in 0..16 {
        assert_eq!(number(&good_one, &good_one, 1, room), (7, 0, 0));
    }
    let Answer::Report(entries) = lint(&good_one, &good_one, 1, 16) else {
        panic!("two findings fit into 16 octets");
    };
    assert_eq!([108, 401], [entries[0].rule, entries[1].rule]);
    assert_eq!(lint(&good_one, &issuer(), 1, 0), Answer::Report(vec![]));
}
