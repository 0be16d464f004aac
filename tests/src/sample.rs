//! The sample deck that ships with the repository: good records, findings of several kinds, refusals, and each kind of
//! lost block. Its listing is known from what was put into it.

use reference::Loss;

use crate::correct::{plain, Case};
use crate::damage::{change_octet, push_spoiled};
use crate::deck::{listing_of, Deck, Record, CHECK};
use crate::faults::catalogue;
use crate::holding::AMPLE_ROOM;
use crate::profile::{AUTHORITY, END_ENTITY};
use crate::random::Random;
use crate::records::refused;

/// The sample's octets and its listing.
pub fn sample() -> (Vec<u8>, String) {
    let deck = sample_deck();
    let listing = listing_of(&deck.events(AMPLE_ROOM), deck.blocks());
    (deck.octets, listing)
}

/// The sample, with what reading it must give.
pub fn sample_deck() -> Deck {
    let mut random = Random::for_purpose("the sample deck");
    let mut deck = Deck::default();
    let mut number = 0;
    let mut next = |case: Case| {
        number += 1;
        Record { number, case }
    };
    for profile in END_ENTITY {
        deck.push_record(&next(plain(*profile).encode()));
    }
    for (profile, names) in FAULTS {
        deck.push_record(&next(faulty(profile, names, &mut random)));
    }
    // A block of this record went bad: its other blocks are strays.
    let record = next(plain(2).encode());
    let mut blocks = record.blocks();
    let victim = random.below(blocks.len());
    change_octet(&mut blocks[victim], CHECK, &mut random);
    push_spoiled(&mut deck, &record, &blocks, &[victim]);
    for case in refused_cases() {
        deck.push_record(&next(case));
    }
    deck.push_record(&next(plain(1).encode()));
    // Behind the rest, which keep their places.
    for profile in AUTHORITY {
        deck.push_record(&next(plain(*profile).encode()));
        deck.push_record(&next(faulty(*profile, FAULTS_OF_AUTHORITY, &mut random)));
    }
    deck.push_lost(&[0; 512], Loss::Unsound);
    deck.push_lost(&[0xFF; 100], Loss::Short);
    deck
}

/// Which faults of the catalogue the faulty records have.
const FAULTS: [(u8, &[&str]); 5] = [
    (1, &["one odd purpose"]),
    (1, &["an underscore in a host name"]),
    (2, &["valid a second too long or more", "C not the PrintableString US"]),
    (3, &["serial of 7 octets or fewer"]),
    (3, &["three odd purposes, two alike", "no key identifier of the authority"]),
];

const FAULTS_OF_AUTHORITY: &[&str] = &[
    "too long from a 29 February",
    "CN not the name of a subordinate CA",
    "not both keyCertSign and cRLSign",
    "three URIs of two points not HTTP",
];

fn faulty(profile: u8, names: &[&str], random: &mut Random) -> Case {
    let faults = catalogue();
    let mut pair = plain(profile);
    for name in names {
        let fault = faults.iter().find(|fault| fault.name == *name && fault.exists_in(profile));
        fault.unwrap_or_else(|| panic!("no fault {name} in profile {profile}")).apply(&mut pair, random);
    }
    pair.encode()
}

fn refused_cases() -> [Case; 4] {
    let empty = vec![0x30, 0];
    [
        // no certificate at all
        Case { expected: refused(6, 1, 0), certificate: empty.clone(), ..plain(1).encode() },
        // a length that is not in the fewest octets
        Case { expected: refused(4, 2, 0), issuer: vec![0x30, 0x81, 0], ..plain(2).encode() },
        // a profile that there is not
        Case { expected: refused(3, 0, 0), profile: 9, ..plain(3).encode() },
        // a record without an issuer
        Case { expected: refused(2, 2, 0), issuer: Vec::new(), ..plain(1).encode() },
    ]
}
