//! Demand 3: "Take a deck of any records, written by our own writer and numbered 1, 2, 3 and on without a gap. Spoil
//! any set of its blocks where they stand, so that each spoiled block fails its check." What reading gives follows
//! from the spoiling; no reader is asked for it.

use std::collections::BTreeMap;

use comparison::amount::{cases, say};
use comparison::calls::{Call, Linter};
use comparison::correct::{plain, Case};
use comparison::damage::*;
use comparison::deck::*;
use comparison::entries::ENTRY;
use comparison::faults::{catalogue, densest, mix, Fault};
use comparison::hex;
use comparison::holding::octets_needed;
use comparison::outcome::{first_difference, fresh_room, Outcome};
use comparison::profile::ALL;
use comparison::queue::hold_met;
use comparison::random::Random;
use comparison::readers::{some_room, Readers, Reading, MOST_OCTETS};
use comparison::records::{largest, linted, of_length, of_two_blocks, refused, tiny};
use comparison::writers::{Writer, Writing};

/// So many decks are written in one run and read in another.
const DECKS_A_RUN: usize = 500;

/// A deck and its rooms are as much work as so many calls of the linter.
const CALLS_A_DECK: usize = 30;

/// Records "numbered 1, 2, 3 and on without a gap".
fn numbered(cases: impl IntoIterator<Item = Case>) -> Vec<Record> {
    (1..).zip(cases).map(|(number, case)| Record { number, case }).collect()
}

/// Records of which decks are made, by how often they are taken.
struct Pool {
    linted: Vec<Case>,
    short: Vec<Case>,
    largest: Case,
}

impl Pool {
    fn new(random: &mut Random) -> Pool {
        let faults = catalogue();
        let mut cases: Vec<Case> = (0..120).map(|_| linted(random)).collect();
        cases.extend((0..60).map(|turn| mix(ALL[turn % ALL.len()], &faults, random).encode()));
        Pool { linted: cases, short: short_cases(random), largest: largest(random) }
    }

    fn choose(&self, random: &mut Random) -> &Case {
        match random.below(40) {
            0 => &self.largest,
            1..=19 => random.choose(&self.short),
            _ => random.choose(&self.linted),
        }
    }

    /// Records, as many as the program takes at most.
    fn records(&self, random: &mut Random) -> Vec<Record> {
        let count = *random.choose(&[0, 1, 1, 2, 2, 3, 3, 4, 5, 6, 8, 12]);
        let mut records = numbered((0..count).map(|_| self.choose(random).clone()));
        while records.iter().map(|record| BLOCK * record.blocks().len()).sum::<usize>() > MOST_OCTETS {
            records.pop();
        }
        records
    }
}

/// Records of one, two and three blocks, with every refusal that a record of our writer can have.
fn short_cases(random: &mut Random) -> Vec<Case> {
    let good = plain(3).encode();
    let mut cases = vec![tiny(random), of_two_blocks(random), of_two_blocks(random)];
    cases.extend([5, 501, 502, 503, 1003, 1004, 1005, 1506].map(of_length));
    let sides = [("30 80 00 00", 4), ("31 06 02 01 02 02 01 01", 5), ("30 00", 6)];
    for (side, number) in sides.map(|(side, number)| (hex::octets(side), number)) {
        let (issuer, expected) = (good.issuer.clone(), refused(number, 1, 0));
        cases.push(Case { certificate: side.clone(), issuer, expected, ..good.clone() });
        cases.push(Case { issuer: side, expected: refused(number, 2, 0), ..good.clone() });
    }
    cases
}

/// Which blocks are spoiled: none, one, some that stand together, all, half of them, or few.
fn choose_blocks(count: usize, random: &mut Random) -> Vec<bool> {
    let (first, second) = (random.below(count.max(1)), random.below(count.max(1)));
    let (start, end) = (first.min(second), first.max(second));
    let way = random.below(8);
    let is_spoiled = |position: usize| match way {
        0 => false,
        1 | 2 => position == first,
        3 => (start..=end).contains(&position),
        4 => true,
        5 => random.once_in(2),
        _ => random.once_in(8),
    };
    (0..count).map(is_spoiled).collect()
}

/// The blocks of each record, as the proved writer writes them; the bench's own where it is left out.
fn written(writer: &Writer, records: &[&Record], random: &mut Random) -> Vec<Vec<Vec<u8>>> {
    let due: Vec<Vec<Vec<u8>>> = records.iter().map(|record| record.blocks()).collect();
    if !writer.is_there() {
        return due;
    }
    let pairs = records.iter().zip(&due);
    let writings: Vec<Writing> =
        pairs.map(|(record, blocks)| Writing::of(record, BLOCK * blocks.len() + random.below(9))).collect();
    let outcomes = writer.outcomes(&writings.iter().collect::<Vec<_>>());
    let due_outcome = |(writing, blocks): (&Writing, &Vec<Vec<u8>>)| writing.outcome_of(&Ok(blocks.concat()));
    let due_outcomes: Vec<Outcome> = writings.iter().zip(&due).map(due_outcome).collect();
    assert_eq!(first_difference(&due_outcomes, &outcomes), None, "records are written");
    let blocks_in = |(outcome, blocks): (&Outcome, &Vec<Vec<u8>>)| -> Vec<Vec<u8>> {
        outcome.room[..BLOCK * blocks.len()].chunks(BLOCK).map(<[u8]>::to_vec).collect()
    };
    outcomes.iter().zip(&due).map(blocks_in).collect()
}

/// How often what was spoiled.
#[derive(Default)]
struct Spoiled {
    decks: usize,
    records: usize,
    blocks: usize,
    ways: BTreeMap<Spoiling, usize>,
}

/// The deck of these records, and what reading it gives.
fn spoiled_deck(records: &[(&Record, Vec<Vec<u8>>)], spoiled: &mut Spoiled, random: &mut Random) -> Deck {
    let count = records.iter().map(|(_, blocks)| blocks.len()).sum();
    let mut is_spoiled = choose_blocks(count, random).into_iter();
    let mut deck = Deck::default();
    for (record, blocks) in records {
        let mut blocks = blocks.clone();
        let mut victims = Vec::new();
        for (position, block) in blocks.iter_mut().enumerate() {
            if is_spoiled.next() == Some(true) {
                let way = *random.choose(&SPOILINGS);
                spoil(block, way, random);
                victims.push(position);
                *spoiled.ways.entry(way).or_default() += 1;
            }
        }
        push_spoiled(&mut deck, record, &blocks, &victims);
    }
    spoiled.decks += 1;
    spoiled.records += records.len();
    spoiled.blocks += count;
    deck
}

#[test]
fn reading_gives_exactly_the_records_none_of_whose_blocks_was_spoiled() {
    let mut random = Random::for_purpose("demand 3");
    let pool = Pool::new(&mut random);
    let writer = Writer::of("records of spoiled decks");
    let mut readers = Readers::of("spoiled decks");
    let mut spoiled = Spoiled::default();
    let decks = cases(10_000);
    while spoiled.decks < decks {
        let plans: Vec<Vec<Record>> = (0..DECKS_A_RUN).map(|_| pool.records(&mut random)).collect();
        let records: Vec<&Record> = plans.iter().flatten().collect();
        let mut blocks = written(&writer, &records, &mut random).into_iter();
        for plan in &plans {
            let records: Vec<_> = plan.iter().zip(blocks.by_ref().take(plan.len())).collect();
            let deck = spoiled_deck(&records, &mut spoiled, &mut random);
            readers.hold("a spoiled deck", &deck, some_room(&deck, &mut random));
        }
    }
    say("records written for spoiled decks", spoiled.records);
    println!("{} blocks, spoiled: {:?}", spoiled.blocks, spoiled.ways);
    assert_eq!(spoiled.ways.len(), SPOILINGS.len(), "blocks were spoiled in every way");
    let refusals = [4, 5, 6, 7].map(|number| format!("record refused {number}"));
    let steps = readers.finish();
    hold_met(&steps, &refusals.each_ref().map(String::as_str));
    hold_met(&steps, &["record without findings", "record with findings", "lost unsound", "lost stray"]);
}

/// The deck of these records with one block of one of them spoiled.
fn with_one_spoiled(records: &[Record], (victim, position): (usize, usize), way: Spoiling) -> Deck {
    let mut random = Random::for_purpose("one block spoiled");
    let mut deck = Deck::default();
    for (turn, record) in records.iter().enumerate() {
        let mut blocks = record.blocks();
        let spoiled: &[usize] = if turn == victim { &[position] } else { &[] };
        for position in spoiled {
            spoil(&mut blocks[*position], way, &mut random);
        }
        push_spoiled(&mut deck, record, &blocks, spoiled);
    }
    deck
}

/// Each single block of a deck spoiled in each way: the record that it is of is gone, and no other.
#[test]
fn every_block_of_a_deck_spoiled_in_every_way() {
    let mut random = Random::for_purpose("every block spoiled");
    let mut readers = Readers::of("decks with each block spoiled in each way");
    let cases = [tiny(&mut random), linted(&mut random), of_two_blocks(&mut random), linted(&mut random)];
    let records = numbered(cases);
    let places = records
        .iter()
        .enumerate()
        .flat_map(|(victim, record)| (0..record.blocks().len()).map(move |part| (victim, part)));
    for place in places {
        for way in SPOILINGS {
            let deck = with_one_spoiled(&records, place, way);
            readers.hold(&format!("{way:?}"), &deck, some_room(&deck, &mut random));
        }
    }
    readers.finish();
}

// "with the findings or the refusal that each would get alone"

/// Rooms of no octet, of too few and just enough for each record, of a finding too few, and of more.
fn rooms_for(records: &[Record]) -> Vec<usize> {
    let needs = records.iter().map(|record| octets_needed(&record.case.expected));
    let around = needs.flat_map(|needed| {
        [needed.saturating_sub(ENTRY), needed.saturating_sub(1), needed, needed + 1, needed + ENTRY + 1]
    });
    let mut rooms: Vec<usize> =
        [0, ENTRY - 1, ENTRY, ENTRY + 1, 2 * ENTRY + 1].into_iter().chain(around).collect();
    rooms.sort();
    rooms.dedup();
    rooms
}

/// What the proved linter answers to each record alone, in a room of each length.
fn alone(linter: &Linter, records: &[Record], rooms: &[usize]) -> Vec<Vec<Outcome>> {
    let call = |case: &Case, room: usize| Call::new(case.profile, &case.certificate, &case.issuer, room);
    let in_room = |room: &usize| records.iter().map(|record| call(&record.case, *room)).collect::<Vec<_>>();
    let calls: Vec<Call> = rooms.iter().flat_map(in_room).collect();
    let outcomes = linter.outcomes(&calls.iter().collect::<Vec<_>>());
    outcomes.chunks(records.len()).map(<[Outcome]>::to_vec).collect()
}

/// The steps that are due if each record gets the answer that it gets alone: its line, and its report at the front of
/// a room that holds what the records before it left.
fn steps_as_alone(records: &[Record], alone: &[Outcome], room: usize) -> Vec<Outcome> {
    let mut octets = fresh_room(room);
    let mut steps = Vec::new();
    for (Record { number, case }, alone) in records.iter().zip(alone) {
        let findings =
            alone.line.strip_prefix("findings ").map_or(0, |count| count.parse().expect("a count"));
        let report: usize = ENTRY * findings;
        octets[..report].copy_from_slice(&alone.room[..report]);
        let (profile, length) = (case.profile, 3 + case.certificate.len() + case.issuer.len());
        let line = format!("record {number} profile {profile} length {length} {}", alone.line);
        steps.push(Outcome { line, room: octets.clone() });
    }
    let blocks: usize = records.iter().map(|record| record.blocks().len()).sum();
    let line = format!("records {} blocks {blocks} lost 0", records.len());
    steps.push(Outcome { line, room: Vec::new() });
    steps
}

/// Certificates with several faults, and one with a fault or none.
fn linted_cases(faults: &[Fault], random: &mut Random) -> Vec<Case> {
    let mut cases: Vec<Case> =
        (0..random.between(1, 4)).map(|turn| mix(ALL[turn % ALL.len()], faults, random).encode()).collect();
    cases.push(linted(random));
    cases
}

#[test]
fn each_record_gets_the_answer_that_the_proved_linter_gives_it_alone_in_the_same_room() {
    let mut random = Random::for_purpose("alone in the same room");
    let faults = catalogue();
    let linter = Linter::of("records alone");
    let mut readers = Readers::of("records as the linter answers them alone");
    if !linter.is_there() {
        return;
    }
    for turn in 0..cases(1_200) / CALLS_A_DECK {
        let mut cases = linted_cases(&faults, &mut random);
        cases.extend(short_cases(&mut random).into_iter().filter(|_| random.once_in(5)));
        if let Some(profile) = ALL.get(turn) {
            cases.push(densest(*profile).encode());
        }
        random.shuffle(&mut cases);
        let records = numbered(cases);
        let deck = records.iter().flat_map(|record| record.blocks().concat()).collect::<Vec<u8>>();
        let rooms = rooms_for(&records);
        for (room, alone) in rooms.iter().zip(alone(&linter, &records, &rooms)) {
            let due = steps_as_alone(&records, &alone, *room);
            readers.hold_steps("alone", Reading { deck: deck.clone(), room: *room }, due);
        }
    }
    let steps = readers.finish();
    hold_met(
        &steps,
        &["record with findings", "record without findings", "record refused 7", "record refused 4"],
    );
}
