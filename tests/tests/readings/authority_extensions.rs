//! Profile 4, subordinate CAs: which extensions there are, and name constraints elsewhere.

use reference::{lint, read_deck, write_record, Event};

use comparison::holding::AMPLE_ROOM;

use super::*;

/// Slots, and whether an authority must have them and have them critical: "Extensions 1 to 6, 8, 9 and slot 11, name
/// constraints 2.5.29.30, are mandatory, 7 optional, 10 "other"; 2, 4 and 11 are critical."
const MANDATORY: [u8; 9] = [1, 2, 3, 4, 5, 6, 8, 9, 11];
const CRITICAL: [u8; 3] = [2, 4, 11];

#[test]
fn nine_extensions_are_mandatory_and_three_critical() {
    for slot in MANDATORY {
        in_every(AUTHORITY, "one missing", |pair| {
            pair.certificate.remove_extension(&identifier_of(slot));
            pair.certificate.list_marks.push(Mark::Breaks(300 + u16::from(slot)));
        });
    }
    in_every(AUTHORITY, "all with a wrong criticality", |pair| {
        set_extension(pair, 7, plain_value(7, pair.profile));
        for slot in MANDATORY.into_iter().chain([7]) {
            pair.extension(slot).critical = !CRITICAL.contains(&slot);
            pair.extension(slot).breaks_at_extension(320 + u16::from(slot));
        }
    });
    in_every(AUTHORITY, "all with a bad value", |pair| {
        set_extension(pair, 7, plain_value(7, pair.profile));
        for slot in MANDATORY.into_iter().chain([7]) {
            pair.extension(slot).value = vec![Part::Octets(vec![0x30, 1])];
            pair.extension(slot).breaks_at_value(340 + u16::from(slot));
        }
    });
}

#[test]
fn other_extensions_are_free_and_their_repeats_are_not() {
    let free = |identifier: Vec<u8>, critical: bool| Extension {
        value: vec![Part::Octets(vec![0xFF])],
        ..Extension::new(identifier, critical, Element::null())
    };
    let others = [oid::ocsp_nocheck(), oid::private_extension(), oid::private_key_usage_period()];
    for critical in [false, true] {
        in_every(AUTHORITY, "neither 310, 330, 350 nor 362, 363", |pair| {
            pair.certificate.extensions.extend(others.clone().map(|identifier| free(identifier, critical)));
        });
        in_every(AUTHORITY, "361 for each later one", |pair| {
            for identifier in &others {
                let extension = free(identifier.clone(), critical);
                let later = extension.clone().breaking(361);
                pair.certificate.extensions.extend([extension, later.clone(), later]);
            }
        });
    }
}

#[test]
fn name_constraints_count_as_not_in_the_table_of_servers_and_responders() {
    for octets in [&[][..], &[0x30, 0], &[0x30, 1], &[0xFF]] {
        for critical in [false, true] {
            let constraints = || Extension {
                value: vec![Part::Octets(octets.to_vec())],
                ..Extension::new(oid::name_constraints(), critical, Element::null())
            };
            in_every(SERVER, "363 where critical, and nothing else", |pair| {
                let constraints = if critical { constraints().breaking(363) } else { constraints() };
                pair.certificate.extensions.push(constraints);
            });
            in_every(RESPONDER, "362, and nothing else", |pair| {
                pair.certificate.extensions.push(constraints().breaking(362));
            });
            in_every(RESPONDER, "the later one is a repeat", |pair| {
                pair.certificate.extensions.push(constraints().breaking(362));
                pair.certificate.extensions.push(constraints().breaking(361));
            });
        }
    }
}

#[test]
fn profile_4_is_linted_written_and_read_and_profile_5_is_none() {
    let case = plain(4).encode();
    let (certificate, issuer) = (&case.certificate[..], &case.issuer[..]);
    assert_eq!(lint(certificate, issuer, 4, 0), Answer::Report(vec![]));
    let deck = write_record(9, 4, certificate, issuer, AMPLE_ROOM).expect("the record is good");
    let events = read_deck(&deck, AMPLE_ROOM);
    let [Event::Record { number: 9, profile: 4, answer, .. }] = &events[..] else { panic!("{events:?}") };
    assert_eq!(answer, &Answer::Report(vec![]));
    for profile in [0, 5, 255] {
        let refusal = refused(3, 0, 0);
        hold_at_once("no profile", &Case { profile, expected: refusal.clone(), ..case.clone() });
        let written = write_record(9, profile, certificate, issuer, AMPLE_ROOM);
        assert_eq!(written.map_err(Answer::Refused), Err(refusal));
    }
}
