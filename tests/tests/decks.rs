//! Decks whole and damaged: both readers read them as the damage says, and the reference prints what
//! the paper says.

use comparison::amount::cases;
use comparison::correct::Case;
use comparison::damage::*;
use comparison::deck::*;
use comparison::element::{Element, LengthForm};
use comparison::hex;
use comparison::holding::Comparison;
use comparison::lines::hold_form;
use comparison::listers::{listing_due, Listers};
use comparison::queue::hold_met;
use comparison::random::Random;
use comparison::readers::{some_room, Readers, MOST_OCTETS};
use comparison::records::{any_record, linted, of_two_blocks, refused, tiny};
use comparison::writers::{Writers, Writing};
use reference::{block_check, listing, Loss};

/// Every kind of step but a record that is refused with 4 or 5, which no record here is.
const EVERY_STEP: [&str; 10] = [
    "record without findings",
    "record with findings",
    "record refused 1",
    "record refused 2",
    "record refused 3",
    "record refused 6",
    "record refused 7",
    "lost short",
    "lost unsound",
    "lost stray",
];

/// A deck is as much work as so many certificates.
const CERTIFICATES_A_DECK: usize = 20;

fn hold_listing(comparison: &mut Comparison, what: &str, deck: &Deck) {
    let expected = listing_due(deck);
    assert_eq!(hold_form(&expected), Ok(()));
    let answered = String::from_utf8(listing(&deck.octets)).expect("a listing is ASCII");
    comparison.hold(what, &expected, &answered, || format!("deck {}", hex::text(&deck.octets)));
}

#[test]
fn the_check_is_the_weighted_sum() {
    let mut random = Random::for_purpose("checks");
    let mut comparison = Comparison::of("checks of blocks");
    let mut hold = |block: &[u8]| {
        comparison.hold("a check", &check(block), &block_check(block), || hex::text(block));
    };
    for _ in 0..500 {
        hold(&random.octets(BLOCK));
    }
    for octet in 0..=255 {
        hold(&[octet; BLOCK]);
    }
    comparison.finish();
}

#[test]
fn the_one_is_part_of_what_is_divided() {
    // 260 times 252 is 65,520, so the check is (1 + 65,520) modulo 65,521, which is 0.
    let mut block = vec![0; BLOCK];
    block[259] = 252;
    assert_eq!(check(&block), 0);
    assert_eq!(block_check(&block), 0);
}

#[test]
fn a_written_record_reads_back_as_it_was() {
    let mut writers = Writers::of("records written");
    let mut readers = Readers::of("records read back");
    let mut random = Random::for_purpose("read back");
    for number in 1..=400 {
        let record = Record { number, case: linted(&mut random) };
        let blocks = record.blocks().concat();
        writers.hold("the blocks", Writing::of(&record, blocks.len() + random.below(9)), Ok(blocks));
        let mut deck = Deck::default();
        deck.push_record(&record);
        readers.hold("the record", &deck, some_room(&deck, &mut random));
    }
    writers.finish();
    readers.finish();
}

#[test]
fn decks_with_every_kind_of_damage() {
    let mut readers = Readers::of("decks with damage");
    let mut listings = Comparison::of("listings of decks with damage");
    let mut random = Random::for_purpose("damaged decks");
    let damages = damages();
    let mut met = std::collections::BTreeMap::<String, usize>::new();
    for _ in 0..cases(30_000) / CERTIFICATES_A_DECK {
        let mut deck = Deck::default();
        for number in 1..=random.between(1, 7) as u32 {
            let damage = if random.once_in(2) { Damage::None } else { *random.choose(&damages) };
            *met.entry(format!("{damage:?}")).or_default() += 1;
            push_damaged(&mut deck, &any_record(number, &mut random), damage, &mut random);
        }
        if random.once_in(3) {
            let record = any_record(99, &mut random);
            let whole = record.blocks().len() * BLOCK;
            push_torn(&mut deck, &record, random.below(whole));
            *met.entry("Torn".to_string()).or_default() += 1;
        }
        let room = some_room(&deck, &mut random);
        readers.hold("a damaged deck", &deck, room);
        hold_listing(&mut listings, "a damaged deck", &deck);
    }
    let steps = readers.finish();
    listings.finish();
    hold_met(&steps, &EVERY_STEP);
    println!("damage: {met:?}");
    assert_eq!(met.len(), damages.len() + 1, "every kind of damage was met");
}

#[test]
fn one_block_damaged_in_every_way_leaves_the_others() {
    let mut readers = Readers::of("decks of three records, one of them damaged");
    let mut random = Random::for_purpose("one damaged");
    for damage in damages() {
        for _ in 0..20 {
            let mut deck = Deck::default();
            deck.push_record(&any_record(1, &mut random));
            push_damaged(&mut deck, &any_record(2, &mut random), damage, &mut random);
            deck.push_record(&any_record(3, &mut random));
            readers.hold(&format!("{damage:?}"), &deck, some_room(&deck, &mut random));
        }
    }
    readers.finish();
}

#[test]
fn blocks_exchanged_between_two_records() {
    let mut readers = Readers::of("decks with blocks exchanged between two records");
    let mut random = Random::for_purpose("exchanged blocks");
    for _ in 0..400 {
        let mut deck = Deck::default();
        deck.push_record(&any_record(1, &mut random));
        let (second, third) = (any_record(2, &mut random), any_record(3, &mut random));
        push_exchanged(&mut deck, &second, &third, &mut random);
        deck.push_record(&any_record(4, &mut random));
        readers.hold("exchanged blocks", &deck, some_room(&deck, &mut random));
    }
    readers.finish();
}

#[test]
fn spoiling_a_good_block_always_fails_its_check() {
    let mut readers = Readers::of("spoiled blocks: one octet, two octets exchanged, all 00, all FF");
    let mut random = Random::for_purpose("spoiled blocks");
    let good = Record { number: 1, case: tiny(&mut random) }.blocks().remove(0);
    let mut lost = |block: &[u8]| {
        let mut deck = Deck::default();
        deck.push_lost(block, Loss::Unsound);
        readers.hold("a spoiled block", &deck, 0);
    };
    for position in 0..BLOCK {
        for _ in 0..4 {
            let mut block = good.clone();
            block[position] ^= random.between(1, 255) as u8;
            lost(&block);
        }
    }
    for _ in 0..2000 {
        let mut block = good.clone();
        exchange_octets(&mut block, &mut random);
        lost(&block);
    }
    lost(&[0; BLOCK]);
    lost(&[0xFF; BLOCK]);
    readers.finish();
}

#[test]
fn every_length_of_a_torn_deck() {
    let mut readers = Readers::of("decks torn at every octet");
    let mut random = Random::for_purpose("torn decks");
    let [first, second] = [1, 2].map(|number| Record { number, case: of_two_blocks(&mut random) });
    for kept in 0..second.blocks().len() * BLOCK {
        let mut deck = Deck::default();
        deck.push_record(&first);
        push_torn(&mut deck, &second, kept);
        readers.hold("a torn deck", &deck, 7);
    }
    readers.finish();
}

#[test]
fn records_that_just_fill_their_blocks() {
    let mut readers = Readers::of("records of every length around the end of a block");
    for blocks in [1, 2, 3, 32] {
        for length in blocks * 502 - 3..=blocks * 502 + 3 {
            let certificate = Element::octet_string(&vec![7; 200]).octets();
            let rest = length - 3 - certificate.len();
            let issuer = vec![0x55; rest];
            let expected = if issuer.len() > 8192 { refused(2, 2, 0) } else { refused(6, 1, 0) };
            let mut deck = Deck::default();
            deck.push_record(&Record { number: 5, case: Case { profile: 1, certificate, issuer, expected } });
            assert_eq!(deck.blocks(), length.div_ceil(502));
            readers.hold("a record at the edge", &deck, 7);
        }
    }
    readers.finish();
}

#[test]
fn the_longest_deck_that_the_program_takes() {
    let mut listers = Listers::of("decks around the most octets taken");
    let mut random = Random::for_purpose("longest decks");
    for octets in [0, 1, BLOCK, MOST_OCTETS - 1, MOST_OCTETS, MOST_OCTETS + 1, MOST_OCTETS + BLOCK] {
        let mut deck = Deck::default();
        let mut number = 1;
        while deck.octets.len() + BLOCK <= octets {
            deck.push_record(&Record { number, case: tiny(&mut random) });
            number += 1;
        }
        let rest = octets - deck.octets.len();
        if rest > 0 {
            deck.push_lost(&vec![0x30; rest], Loss::Short);
        }
        listers.hold(&format!("{octets} octets"), &deck);
    }
    listers.finish();
}

#[test]
fn an_unsound_certificate_is_listed_with_its_place() {
    let mut listers = Listers::of("refused records");
    let inner = Element::integer(&[1]).with_length_form(LengthForm::Long(1));
    let certificate = Element::sequence(vec![Element::null(), inner]).octets();
    let case = Case { profile: 3, certificate, issuer: vec![0x30, 0], expected: refused(4, 1, 4) };
    let mut deck = Deck::default();
    deck.push_record(&Record { number: 4_000_000_000, case });
    let listing = listers.hold("refused", &deck);
    assert_eq!(listing, "record 4000000000 profile 3 refused 4 side 1 at 4\nrecords 1 blocks 1 lost 0\n");
    listers.finish();
}
