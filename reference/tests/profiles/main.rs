//! A good certificate for each profile, and what single changes to it break.

mod draft;
mod fields;
mod refusals;
mod subordinate_authority;
mod validity;
mod values;

use draft::*;
use reference::{lint, Answer, Entry, Level, Refusal};

fn report(certificate: &[u8], profile: u8) -> Vec<Entry> {
    match lint(certificate, &issuer(), profile, 65_536) {
        Answer::Report(entries) => entries,
        Answer::Refused(refusal) => panic!("{refusal:?}"),
    }
}

fn refused(certificate: &[u8], profile: u8) -> Refusal {
    match lint(certificate, &issuer(), profile, 65_536) {
        Answer::Report(entries) => panic!("{entries:?}"),
        Answer::Refused(refusal) => refusal,
    }
}

/// The findings on a changed certificate are these rules at these octets, each found once in the certificate.
#[track_caller]
fn expect(profile: u8, change: impl FnOnce(&mut Draft), findings: &[(u16, &[u8])]) {
    let mut draft = good(profile);
    change(&mut draft);
    let certificate = draft.encoded();
    let wanted: Vec<Entry> = findings
        .iter()
        .map(|&(rule, item)| finding(rule, place_of(item, &certificate), item.len()))
        .collect();
    assert_eq!(report(&certificate, profile), wanted);
}

/// The entry for an element of this place and whole length. "all rules so far are 1", which is must
fn finding(rule: u16, start: usize, length: usize) -> Entry {
    Entry {
        rule,
        start: start as u16,
        length: length as u16,
        level: Level::Must,
    }
}

#[track_caller]
fn place_of(item: &[u8], certificate: &[u8]) -> usize {
    let mut places = certificate.windows(item.len()).enumerate();
    let mut places = places.by_ref().filter(|(_, octets)| *octets == item);
    let (place, _) = places.next().expect("the item is not in the certificate");
    assert!(places.next().is_none(), "the item is there twice");
    place
}

#[test]
fn good_certificates_have_no_finding() {
    for profile in 1..=4 {
        expect(profile, |_| (), &[]);
    }
    expect(1, |draft| draft.key = ec_key("1.3.132.0.34"), &[]);
    expect(1, |draft| draft.unique = vec![0x81, 1, 9, 0x82, 0], &[]);
}
