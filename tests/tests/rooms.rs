//! Refusal 7 in rooms of every length around the limit: "7 compares 8 octets a finding with the lent length", in the
//! linter's calls and for records of a deck, where "the reader's caller lends it the linter's room". Answers are compared,
//! and every octet of the room: a refusal leaves all of it as it was, a report all that is behind its last entry.

use std::collections::BTreeSet;
use std::ops::RangeInclusive;

use comparison::correct::{plain, set_extension, Case};
use comparison::deck::{in_room, Deck};
use comparison::dense;
use comparison::element::Element;
use comparison::entries::ENTRY;
use comparison::general_names::{full_name, point, uri};
use comparison::holding::{octets_needed, rules_of, AMPLE_ROOM};
use comparison::linters::Linters;
use comparison::object_identifiers as oid;
use comparison::profile::{is_authority, ALL};
use comparison::queue::hold_met;
use comparison::readers::Readers;
use comparison::records::refused;

/// The octets of an entry before it had a level. So many a finding were enough, and are not any more.
const WITHOUT_LEVEL: usize = 6;

/// So many octets to either side of a limit: an entry, and one octet more.
const TO_EITHER_SIDE: usize = ENTRY + 1;

/// How many findings the records have; 31 to 33 are around 256 octets.
fn counts() -> impl Iterator<Item = usize> {
    (0..=12).chain(31..=33).chain([100])
}

/// All rooms from before the former limit to behind the limit.
fn rooms_around(findings: usize) -> RangeInclusive<usize> {
    let first = (WITHOUT_LEVEL * findings).saturating_sub(TO_EITHER_SIDE);
    first..=ENTRY * findings + TO_EITHER_SIDE
}

/// A plain record of which one rule is broken so many times: by another purpose each, or in the profile that asks nothing of
/// those by an address that is not HTTP.
fn with_findings(profile: u8, count: usize) -> Case {
    let mut pair = plain(profile);
    if is_authority(profile) {
        let mut names = vec![uri("http://a")];
        names.resize(1 + count, uri("").breaking(424));
        set_extension(&mut pair, 9, Element::sequence(vec![point(vec![full_name(names)])]));
    } else {
        let other = Element::object_identifier(&oid::code_signing()).breaking(408);
        (0..count).for_each(|_| pair.extension(5).value().push(other.clone()));
    }
    let case = pair.encode();
    assert_eq!(rules_of(&case.expected).len(), count, "profile {profile}");
    case
}

#[test]
fn a_finding_needs_8_octets() {
    // how many findings, the rooms that are too short from where 6 octets a finding were enough, and the first that is not
    const KNOWN: [(usize, std::ops::Range<usize>, usize); 5] =
        [(0, 0..0, 0), (1, 6..8, 8), (2, 12..16, 16), (3, 18..24, 24), (100, 600..800, 800)];
    let mut linters = Linters::of("rooms for 6 octets a finding, and for 8");
    for profile in ALL {
        for (findings, too_short, enough) in KNOWN {
            let case = with_findings(*profile, findings);
            for room in too_short {
                assert_eq!(in_room(&case.expected, room), refused(7, 0, 0));
                linters.hold_in_room("too short", &case, room);
            }
            assert_eq!(in_room(&case.expected, enough), case.expected);
            linters.hold_in_room("just enough", &case, enough);
        }
    }
    linters.finish();
}

#[test]
fn calls_in_rooms_of_every_length_around_the_limit() {
    let mut linters = Linters::of("calls in rooms of every length around the limit");
    for profile in ALL {
        for findings in counts() {
            let case = with_findings(*profile, findings);
            for room in rooms_around(findings) {
                linters.hold_in_room(&format!("{findings} findings in {room} octets"), &case, room);
            }
        }
    }
    linters.finish();
}

#[test]
fn records_in_rooms_of_every_length_around_the_limit() {
    let mut readers = Readers::of("records in rooms of every length around the limit");
    for profile in ALL {
        for findings in counts() {
            let deck = Deck::of(&[with_findings(*profile, findings)]);
            for room in rooms_around(findings) {
                readers.hold(&format!("{findings} findings in {room} octets"), &deck, room);
            }
        }
    }
    let steps = readers.finish();
    hold_met(&steps, &["record without findings", "record with findings", "record refused 7"]);
}

#[test]
fn records_that_share_a_room() {
    const MOST: usize = 8;
    let mut readers = Readers::of("records of 0 to 8 findings in one room, of every length");
    for profile in ALL {
        let mut cases: Vec<Case> = (0..=MOST).map(|findings| with_findings(*profile, findings)).collect();
        // Falling counts leave entries of earlier records behind the last one.
        for _ in 0..2 {
            let deck = Deck::of(&cases);
            for room in 0..=ENTRY * MOST + TO_EITHER_SIDE {
                readers.hold(&format!("0 to {MOST} findings in {room} octets"), &deck, room);
            }
            cases.reverse();
        }
    }
    readers.finish();
}

/// The lengths around 6, 7 and 8 octets a finding, and the room that the program lends.
fn rooms_for_many(findings: usize) -> BTreeSet<usize> {
    let limits = (WITHOUT_LEVEL..=ENTRY).map(|octets| octets * findings);
    let around = limits.flat_map(|limit| limit - TO_EITHER_SIDE..=limit + TO_EITHER_SIDE);
    around.chain([AMPLE_ROOM - 1, AMPLE_ROOM]).collect()
}

#[test]
fn the_densest_records_in_rooms_around_the_limit() {
    let mut linters = Linters::of("the densest certificates in rooms around the limit");
    let mut readers = Readers::of("the densest records in rooms around the limit");
    for profile in ALL {
        let case = dense::densest(*profile);
        let findings = rules_of(&case.expected).len();
        assert!(findings > 4_000 && octets_needed(&case.expected) < AMPLE_ROOM, "{findings} findings");
        let deck = Deck::of(std::slice::from_ref(&case));
        for room in rooms_for_many(findings) {
            let what = format!("{findings} findings in {room} octets");
            linters.hold_in_room(&what, &case, room);
            readers.hold(&what, &deck, room);
        }
    }
    linters.finish();
    readers.finish();
}
