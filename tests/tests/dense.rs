//! The longest listings: what `decklint` prints of the densest decks is whole, wherever a buffer ends in it.

use comparison::correct::{plain, Case};
use comparison::damage::{damages, filled_up, push_damaged, push_lost_block};
use comparison::deck::{Deck, Record, BLOCK};
use comparison::dense::{dense, densest, densest_names, octets_of_lines, records_of_lines, Names, ALL_NAMES};
use comparison::entries::ENTRY;
use comparison::holding::{octets_needed, rules_of, AMPLE_ROOM};
use comparison::listers::{listing_due, Listers};
use comparison::profile::ALL;
use comparison::random::Random;
use comparison::readers::MOST_OCTETS;
use comparison::records::{empty_sides, linted, tiny, unknown_profile, LONGEST_SIDE};
use reference::Loss;

/// Lines of `decklint` wait in so many octets to be written.
const WAITING: usize = 393_216;
/// What a pipe holds; `WAITING` is six times as much.
const EDGE: usize = 65_536;

/// As many findings as have room, each of the longest form, and a last line whose numbers are the greatest: no record's own line
/// is longer. `decklint` writes what waits once there is no room for as much.
fn longest_lines() -> usize {
    let findings = AMPLE_ROOM / ENTRY;
    let finding = format!("  {number} at {number} length {number} should\n", number = u16::MAX);
    let last = format!("records {number} blocks {number} lost {number}\n", number = u64::MAX);
    findings * finding.len() + last.len()
}

/// How many lines a listing has with this at its front.
fn lines_with(listing: &str, front: &str) -> usize {
    listing.lines().filter(|line| line.starts_with(front)).count()
}

/// A certificate of the most names: its profile and names, how many rules it breaks by what it lacks, how many names it
/// has, and the rules that they break.
const KNOWN: [(u8, Names, usize, usize, &[u16]); 10] = [
    (1, Names::Underscores, 13, 2_699, &[413, 414]),
    (2, Names::Underscores, 15, 2_699, &[413, 414]),
    (3, Names::Underscores, 15, 2_699, &[414]),
    (1, Names::Empty, 13, 4_048, &[412, 414]),
    (2, Names::Empty, 15, 4_048, &[412, 414]),
    (3, Names::Empty, 15, 4_048, &[412, 414]),
    (4, Names::Underscores, 16, 2_699, &[413]),
    (4, Names::Empty, 16, 4_048, &[]),
    (4, Names::Addresses, 16, 4_042, &[424]),
    (1, Names::Addresses, 15, 4_042, &[]),
];

/// "It lends the linter 65,536 octets of room", in which 8,192 findings fit. No report reaches that: nothing has more than
/// two findings for three octets, so the 8,192 octets of a certificate have at most 5,461; profile 2's densest has 5,413.
/// So the program never prints refusal 7.
fn hold_fits(case: &Case) {
    const FIT: usize = AMPLE_ROOM / ENTRY;
    const MOST: usize = 2 * LONGEST_SIDE / 3;
    assert_eq!((FIT, MOST), (8_192, 5_461));
    assert!(rules_of(&case.expected).len() <= MOST && MOST <= FIT);
    assert!(octets_needed(&case.expected) <= AMPLE_ROOM);
}

#[test]
fn one_to_seven_records_of_the_most_names() {
    let mut listers = Listers::of("one to seven records of the most names");
    let mut longest = 0;
    for (profile, names, others, count, rules) in KNOWN {
        let case = dense(profile, names, names.most());
        assert_eq!((case.certificate.len(), names.most()), (LONGEST_SIDE, count));
        let each = if names == Names::Empty { count / 2 } else { count };
        let findings = others + rules.len() * each;
        assert_eq!(rules_of(&case.expected).len(), findings);
        hold_fits(&case);
        for records in 1..=7 {
            let what = format!("{records} records of profile {profile}, {names:?}");
            let listing = listers.hold(&what, &Deck::of(&vec![case.clone(); records]));
            assert_eq!(listing.lines().count(), records * (1 + findings) + 1, "{what}");
            assert_eq!(lines_with(&listing, "record "), records, "{what}");
            for rule in rules {
                assert_eq!(lines_with(&listing, &format!("  {rule} at ")), records * each, "{what}");
            }
            longest = longest.max(listing.len());
        }
    }
    assert!(longest > 1_000_000, "the longest listing has {longest} octets alone");
    listers.finish();
}

#[test]
fn dense_decks_at_the_most_octets() {
    let mut listers = Listers::of("dense decks around 65,536 octets");
    for profile in ALL {
        for records in [1, 4, 7] {
            let deck = Deck::of(&vec![densest(*profile); records]);
            for octets in [MOST_OCTETS - BLOCK, MOST_OCTETS - 1, MOST_OCTETS] {
                let what = format!("{records} records of profile {profile} in {octets} octets");
                let listing = listers.hold(&what, &filled_up(deck.clone(), octets));
                let lost = octets.div_ceil(BLOCK) - 17 * records;
                assert_eq!(lines_with(&listing, "lost "), lost, "{what}");
            }
            let listing = listers.hold("65,537 octets", &filled_up(deck, MOST_OCTETS + 1));
            assert_eq!(listing, "deck too long\n");
        }
    }
    listers.finish();
}

/// Something that stands beside dense records.
fn push_other(deck: &mut Deck, number: u32, random: &mut Random) {
    let case = match random.below(8) {
        0 => return push_lost_block(deck, Loss::Unsound),
        1 => return push_lost_block(deck, Loss::Stray),
        2 => {
            let case = dense(*random.choose(ALL), Names::Underscores, random.between(1, 400));
            return push_damaged(deck, &Record { number, case }, *random.choose(&damages()), random);
        }
        3 => tiny(random),
        4 => unknown_profile(random),
        5 => empty_sides(random),
        6 => linted(random),
        _ => plain(*random.choose(ALL)).encode(),
    };
    deck.push_record(&Record { number, case });
}

/// Dense records with other things before, between and behind them, as much as the program takes.
fn mixed(random: &mut Random) -> Deck {
    let mut deck = Deck::default();
    for number in 1.. {
        let before = deck.clone();
        if random.once_in(2) {
            push_other(&mut deck, number, random);
        } else {
            let names = *random.choose(&ALL_NAMES);
            let count = names.most() - random.below(2) * random.below(names.most());
            deck.push_record(&Record { number, case: dense(*random.choose(ALL), names, count) });
        }
        if deck.octets.len() > MOST_OCTETS {
            return before;
        }
    }
    deck
}

#[test]
fn dense_records_among_others() {
    let mut listers = Listers::of("dense records among others");
    let mut random = Random::for_purpose("dense records among others");
    let mut listings = String::new();
    for turn in 0..60 {
        let deck = mixed(&mut random);
        let octets = match turn % 3 {
            0 => deck.octets.len(),
            1 => MOST_OCTETS,
            _ => random.between(deck.octets.len(), MOST_OCTETS),
        };
        listings += &listers.hold(&format!("dense deck {turn}"), &filled_up(deck, octets));
    }
    for word in
        [" findings 0\n", " refused 2 ", " refused 3 ", " refused 6 ", " unsound\n", " stray\n", " short\n"]
    {
        assert!(listings.contains(word), "no listing has{word}");
    }
    listers.finish();
}

/// The lengths at an edge, and one octet to either side.
fn around(edge: usize) -> std::ops::RangeInclusive<usize> {
    edge - 1..=edge + 1
}

/// Records in any order, whose lines have together exactly so many octets.
fn deck_of_lines(octets: usize, profile: u8, names: Names, random: &mut Random) -> Deck {
    let mut records = records_of_lines(octets, profile, names);
    random.shuffle(&mut records);
    let mut deck = Deck::default();
    for record in &records {
        deck.push_record(record);
    }
    deck
}

/// A deck whose listing has exactly so many octets, the last line counted.
fn deck_listed_in(octets: usize, profile: u8, names: Names, random: &mut Random) -> Deck {
    let mut last_line = "records 9 blocks 99 lost 0\n".len();
    for _ in 0..5 {
        let deck = deck_of_lines(octets - last_line, profile, names, random);
        let listed = listing_due(&deck).len();
        if listed == octets {
            return deck;
        }
        last_line = last_line + listed - octets;
    }
    panic!("no deck of profile {profile} is listed in {octets} octets");
}

#[test]
fn listings_that_end_at_an_edge() {
    // Of profile 1 every edge that seven records reach; of the others the first, the last, and as many octets as wait once
    // and twice.
    const WAITING_EDGES: usize = WAITING / EDGE;
    let mut listers = Listers::of("listings around multiples of 65,536 octets");
    let mut random = Random::for_purpose("listings that end at an edge");
    for profile in ALL {
        let (profile, names) = (*profile, densest_names(*profile));
        let last = 7 * octets_of_lines(&Record { number: 1, case: densest(profile) }) / EDGE;
        let is_tried =
            |edge: &usize| profile == 1 || *edge == 1 || *edge == last || edge % WAITING_EDGES == 0;
        for edge in (1..=last).filter(is_tried) {
            for octets in around(edge * EDGE) {
                let deck = deck_listed_in(octets, profile, names, &mut random);
                let listing = listers.hold(&format!("{octets} octets of profile {profile}"), &deck);
                assert_eq!(listing.len(), octets);
            }
        }
    }
    listers.finish();
}

#[test]
fn more_behind_lines_that_end_at_an_edge() {
    let mut listers = Listers::of("decks with more behind lines that end at an edge");
    let mut random = Random::for_purpose("more behind an edge");
    let last = Record { number: u32::MAX, case: densest(2) };
    let just_room = WAITING - octets_of_lines(&last);
    for edge in [WAITING - longest_lines(), EDGE, just_room, WAITING] {
        for octets in around(edge) {
            let front = deck_of_lines(octets, 1, Names::Underscores, &mut random);
            let [mut unsound, mut stray, mut short, mut whole] = [0; 4].map(|_| front.clone());
            push_lost_block(&mut unsound, Loss::Unsound);
            push_lost_block(&mut stray, Loss::Stray);
            push_lost_block(&mut short, Loss::Short);
            whole.push_record(&last);
            for deck in [front, unsound, stray, short, whole] {
                let listing = listers.hold(&format!("behind {octets} octets of lines"), &deck);
                assert!(listing.len() > octets, "the program takes the deck");
            }
        }
    }
    listers.finish();
}

#[test]
fn decks_that_are_lost_whole() {
    let mut listers = Listers::of("decks of 128 lost blocks");
    let decks = [
        (Loss::Unsound, Loss::Unsound),
        (Loss::Stray, Loss::Stray),
        (Loss::Unsound, Loss::Short),
        (Loss::Stray, Loss::Short),
    ];
    for (loss, last) in decks {
        let mut deck = Deck::default();
        (0..127).for_each(|_| push_lost_block(&mut deck, loss));
        push_lost_block(&mut deck, last);
        let listing = listers.hold(&format!("{loss:?} and {last:?}"), &deck);
        assert_eq!(lines_with(&listing, "lost "), 128);
        assert!(listing.ends_with("\nrecords 0 blocks 128 lost 128\n"));
    }
    listers.finish();
}
