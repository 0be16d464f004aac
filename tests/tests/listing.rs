//! The program `decklint`: its listing is the one that is due, by what was put into the deck and by the reference.

use std::fs::read;
use std::path::Path;

use comparison::correct::{refusal, shortest, Case};
use comparison::damage::{damages, filled_up, push_damaged, push_lost_block};
use comparison::deck::*;
use comparison::element::{Element, Encoded};
use comparison::listers::Listers;
use comparison::profile::ALL;
use comparison::random::Random;
use comparison::readers::MOST_OCTETS;
use comparison::records::{any_record, largest, tiny};
use comparison::sample::sample;
use reference::{Answer, Loss};

/// Records of every kind and every kind of damage, as much as the program takes.
fn mixed(random: &mut Random) -> Deck {
    let damages = damages();
    let mut deck = Deck::default();
    for number in 1.. {
        let before = deck.clone();
        push_damaged(&mut deck, &any_record(number, random), *random.choose(&damages), random);
        if deck.octets.len() > MOST_OCTETS {
            return before;
        }
    }
    deck
}

#[test]
fn the_sample_is_what_it_was_made_of_and_lists_as_it_says() {
    let folder = Path::new(env!("CARGO_MANIFEST_DIR")).join("../samples");
    let stored = |name: &str| read(folder.join(name)).unwrap_or_else(|why| panic!("{name}: {why}"));
    let (deck, listing_due) = sample();
    assert_eq!(stored("night.deck"), deck, "samples/night.deck; the program sample_deck writes it");
    assert_eq!(stored("night.listing"), listing_due.as_bytes(), "samples/night.listing");
    let mut listers = Listers::of("the sample");
    listers.hold_text("the sample", &deck, &listing_due);
    listers.finish();
}

#[test]
fn findings_of_the_sample_alone_end_in_must() {
    let (_, listing) = sample();
    let (findings, others): (Vec<&str>, Vec<&str>) = listing.lines().partition(|line| line.starts_with("  "));
    assert!(findings.len() > 10 && others.len() > 10, "{listing}");
    for line in findings {
        let (numbers, level) = line.rsplit_once(' ').expect("a line has words");
        assert_eq!((level, numbers.ends_with(' ')), ("must", false), "{line:?}");
    }
    for line in others {
        assert!(!line.contains("must") && !line.contains("should"), "{line:?}");
    }
}

#[test]
fn decks_of_every_length_at_the_limits_are_listed() {
    let mut listers = Listers::of("decks at the limits");
    let mut random = Random::for_purpose("the limits of a deck");
    let mut short = Deck::default();
    short.push_lost(&[7; 100], Loss::Short);
    listers.hold("100 octets", &short);
    let mut records = Deck::default();
    records.push_record(&Record { number: u32::MAX, case: tiny(&mut random) });
    records.push_record(&Record { number: 65_536, case: largest(&mut random) });
    listers.hold("the largest numbers and the longest record", &records);
    let full = filled_up(records, MOST_OCTETS);
    assert_eq!(full.octets.len(), MOST_OCTETS);
    listers.hold("65,536 octets", &full);
    let mut longer = full.clone();
    longer.push_lost(&[0], Loss::Short);
    listers.hold("one octet more", &longer);
    listers.hold("twice as much", &filled_up(full, 2 * MOST_OCTETS));
    listers.finish();
}

#[test]
fn decks_around_one_block_are_listed() {
    const P12: [u8; 7] = [1, 0, 2, 0x30, 0, 0x30, 0];
    const RECORD: &str = "record 1 profile 1 refused 6 side 1 at 0\n";
    const KNOWN: [(usize, &str, &str); 8] = [
        (0, "", "records 0 blocks 0 lost 0\n"),
        (1, "", "lost 0 short\nrecords 0 blocks 1 lost 1\n"),
        (2, "", "lost 0 short\nrecords 0 blocks 1 lost 1\n"),
        (511, "", "lost 0 short\nrecords 0 blocks 1 lost 1\n"),
        (512, RECORD, "records 1 blocks 1 lost 0\n"),
        (513, RECORD, "lost 1 short\nrecords 1 blocks 2 lost 1\n"),
        (1023, RECORD, "lost 1 short\nrecords 1 blocks 2 lost 1\n"),
        (1024, RECORD, "lost 1 unsound\nrecords 1 blocks 2 lost 1\n"),
    ];
    let mut deck = block(1, 7, 0, &P12);
    deck.resize(2 * BLOCK, 0);
    let mut listers = Listers::of("decks of 0 to 1,024 octets");
    for (octets, record, rest) in KNOWN {
        listers.hold_text(&format!("{octets} octets"), &deck[..octets], &format!("{record}{rest}"));
    }
    listers.finish();
}

/// 1, 9, 10, 99 and so on: the least and the greatest number of each count of digits, up to this one.
fn ends_of_digits(greatest: u32) -> Vec<u32> {
    let powers = (1..).map_while(|digits| 10u32.checked_pow(digits)).take_while(|power| *power <= greatest);
    let ends = powers.flat_map(|power| [power - 1, power]);
    [1].into_iter().chain(ends).chain([greatest]).collect()
}

#[test]
fn numbers_and_profile_octets_of_every_length_are_listed() {
    let numbers = ends_of_digits(u32::MAX);
    assert_eq!((numbers.len(), numbers[19], numbers[18]), (20, 4_294_967_295, 1_000_000_000));
    let mut listers = Listers::of("record numbers of 1 to 10 digits, profile octets of 1 to 3");
    for profile in [0, 1, 2, 3, 4, 5, 9, 10, 99, 100, 127, 128, 254, 255] {
        let answer = if ALL.contains(&profile) { "6 side 1" } else { "3 side 0" };
        let octets = [profile, 0, 2, 0x30, 0, 0x30, 0];
        let deck: Vec<u8> = numbers.iter().flat_map(|number| block(*number, 7, 0, &octets)).collect();
        let line = |number: &u32| format!("record {number} profile {profile} refused {answer} at 0\n");
        let lines: String = numbers.iter().map(line).collect();
        let due = format!("{lines}records 20 blocks 20 lost 0\n");
        listers.hold_text(&format!("profile octet {profile}"), &deck, &due);
    }
    listers.finish();
}

#[test]
fn positions_of_every_length_are_listed() {
    let mut listers = Listers::of("lost blocks at positions of 1 to 3 digits");
    let mut random = Random::for_purpose("positions");
    for position in [0, 1, 8, 9, 10, 11, 98, 99, 100, 101, 125, 126, 127] {
        let mut front = Deck::default();
        (0..position).for_each(|_| front.push_record(&Record { number: 1, case: tiny(&mut random) }));
        for loss in [Loss::Unsound, Loss::Stray, Loss::Short] {
            let mut deck = front.clone();
            push_lost_block(&mut deck, loss);
            let listing = listers.hold(&format!("{loss:?} at {position}"), &deck);
            let (word, blocks) = (loss_word(loss), position + 1);
            let end = format!("lost {position} {word}\nrecords {position} blocks {blocks} lost 1\n");
            assert!(listing.ends_with(&end), "{listing}");
        }
    }
    listers.finish();
}

/// An element of which an inner one, behind so many octets, is an INTEGER without contents: refusal 4 at its place.
fn faulty_behind(octets: usize) -> Encoded {
    Element::sequence(vec![Element::octet_string(&vec![7; octets]), Element::integer(&[]).refused(4)])
        .encode()
}

#[test]
fn places_of_every_length_are_listed() {
    let mut listers = Listers::of("refusals at places of 1 to 4 digits");
    let mut listings = String::new();
    for octets in [3, 4, 5, 6, 94, 95, 96, 97, 990, 991, 992, 993, 8_181, 8_182] {
        let faulty = faulty_behind(octets);
        let good = shortest().element().octets();
        let [first, second] = [1, 2].map(|side| Answer::Refused(refusal(&faulty, side)));
        let on_first =
            Case { profile: 1, certificate: faulty.octets.clone(), issuer: good.clone(), expected: first };
        let on_second = Case { profile: 3, certificate: good, issuer: faulty.octets, expected: second };
        let mut deck = Deck::default();
        deck.push_record(&Record { number: 1, case: on_first });
        deck.push_record(&Record { number: 2, case: on_second });
        listings += &listers.hold(&format!("an element behind {octets} octets"), &deck);
    }
    for (place, side) in [9, 10, 99, 100, 999, 1_000, 8_190].iter().flat_map(|place| [(place, 1), (place, 2)])
    {
        assert!(listings.contains(&format!(" refused 4 side {side} at {place}\n")), "{listings}");
    }
    listers.finish();
}

#[test]
fn mixed_decks_are_listed() {
    let mut listers = Listers::of("mixed decks");
    let mut random = Random::for_purpose("listings");
    for turn in 0..60 {
        let mut deck = mixed(&mut random);
        if turn % 3 == 0 && deck.octets.len() < MOST_OCTETS - BLOCK {
            let kept = random.between(1, BLOCK - 1);
            deck.push_lost(&random.octets(kept), Loss::Short);
        }
        listers.hold("a mixed deck", &deck);
    }
    listers.finish();
}
