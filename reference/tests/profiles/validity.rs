//! Rules 109 to 111: the form of the times, their order, and the last second that counts.

use super::*;

/// A validity with these two times breaks exactly these rules, each at the validity.
#[track_caller]
fn expect_validity(profile: u8, (not_before, not_after): (&str, &str), rules: &[u16]) {
    let validity = times(not_before, not_after);
    let findings: Vec<(u16, &[u8])> = rules.iter().map(|rule| (*rule, &validity[..])).collect();
    expect(
        profile,
        |draft| draft.validity = validity.clone(),
        &findings,
    );
}

/// The first time and the second are within the limit, the first and the third are not.
#[track_caller]
fn expect_last_second(profile: u8, edges: &[(&str, &str, &str)]) {
    for &(not_before, last, next) in edges {
        expect_validity(profile, (not_before, last), &[]);
        expect_validity(profile, (not_before, next), &[111]);
    }
}

#[test]
fn three_hundred_and_ninety_five_days() {
    for profile in [1, 2] {
        expect_last_second(
            profile,
            &[
                ("240101000000Z", "250129235959Z", "250130000000Z"),
                ("240101123456Z", "250130123455Z", "250130123456Z"),
                ("230101000000Z", "240130235959Z", "240131000000Z"),
                ("240229235959Z", "250330235958Z", "250330235959Z"),
                ("481202000000Z", "491231235959Z", "20500101000000Z"),
                ("21000228235959Z", "21010330235958Z", "21010330235959Z"),
                ("99981201235959Z", "99991231235958Z", "99991231235959Z"),
            ],
        );
        expect_validity(profile, ("99981202000000Z", "99991231235959Z"), &[]);
    }
}

#[test]
fn forty_five_days() {
    expect_last_second(
        3,
        &[
            ("240101000000Z", "240214235959Z", "240215000000Z"),
            ("240115235959Z", "240229235958Z", "240229235959Z"),
            ("000115000000Z", "000228235959Z", "000229000000Z"),
            ("491117000000Z", "491231235959Z", "20500101000000Z"),
            ("21000115000000Z", "21000228235959Z", "21000301000000Z"),
            ("99991116235959Z", "99991231235958Z", "99991231235959Z"),
        ],
    );
    expect_validity(3, ("99991117000000Z", "99991231235959Z"), &[]);
}

#[test]
fn ten_years() {
    expect_last_second(
        4,
        &[
            ("240101000000Z", "331231235959Z", "340101000000Z"),
            ("250630123456Z", "350630123455Z", "350630123456Z"),
            ("240229123456Z", "340228123455Z", "340228123456Z"),
            ("240229000000Z", "340227235959Z", "340228000000Z"),
            ("260228000000Z", "360227235959Z", "360228000000Z"),
            ("260301000000Z", "360229235959Z", "360301000000Z"),
            ("400101000000Z", "491231235959Z", "20500101000000Z"),
            ("400229000000Z", "20500227235959Z", "20500228000000Z"),
            ("20900301000000Z", "21000228235959Z", "21000301000000Z"),
            ("20960229000000Z", "21060227235959Z", "21060228000000Z"),
            ("99891231235959Z", "99991231235958Z", "99991231235959Z"),
        ],
    );
    expect_validity(4, ("240229000000Z", "340301000000Z"), &[111]);
    for not_before in ["99900101000000Z", "99960229000000Z", "99991231235959Z"] {
        expect_validity(4, (not_before, "99991231235959Z"), &[]);
    }
}

#[test]
fn order() {
    for profile in 1..=4 {
        let noon = "240101120000Z";
        expect_validity(profile, (noon, noon), &[]);
        expect_validity(profile, (noon, "240101120001Z"), &[]);
        expect_validity(profile, (noon, "240101115959Z"), &[110]);
        expect_validity(profile, (noon, "231231120000Z"), &[110]);
        expect_validity(profile, ("491231235959Z", "500101000000Z"), &[110]);
        expect_validity(profile, ("500101000000Z", "491231235959Z"), &[111]);
    }
}

#[test]
fn forms() {
    let written_out = element(0x18, b"20491231235959Z");
    let validity = times("20491231235959Z", "20500101000000Z");
    for profile in 1..=4 {
        expect(
            profile,
            |draft| draft.validity = validity.clone(),
            &[(109, &written_out)],
        );
    }
}
