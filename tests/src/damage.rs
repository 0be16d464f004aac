//! Damage to decks, whose outcome is known from what was done.

use reference::Loss;

use crate::deck::{block, blocks_of, check, fails_its_check, seal, Deck, Record, BLOCK, CHECK, DATA};
use crate::random::Random;

/// The ways in which a record can come to harm.
#[derive(Clone, Copy, Debug, PartialEq, Eq)]
pub enum Damage {
    None,
    Spoiled(Spoiling),
    SeveralSpoiled,
    Repeated,
    Reordered,
    WrongPart,
    WrongFill,
    OctetSevenSet,
    NumberZero,
    NumbersDiffer,
    LengthsDiffer,
    LengthOutOfRange,
    CertificateTooLong,
    FirstPartGone,
    LastPartGone,
    PartsOfTwoRecords,
}

/// Every damage there is.
pub fn damages() -> Vec<Damage> {
    let others = [
        Damage::None,
        Damage::SeveralSpoiled,
        Damage::Repeated,
        Damage::Reordered,
        Damage::WrongPart,
        Damage::WrongFill,
        Damage::OctetSevenSet,
        Damage::NumberZero,
        Damage::NumbersDiffer,
        Damage::LengthsDiffer,
        Damage::LengthOutOfRange,
        Damage::CertificateTooLong,
        Damage::FirstPartGone,
        Damage::LastPartGone,
        Damage::PartsOfTwoRecords,
    ];
    others.into_iter().chain(SPOILINGS.map(Damage::Spoiled)).collect()
}

/// Adds a record after harm was done to it. A damage that needs more blocks than the record has
/// becomes a simpler one.
pub fn push_damaged(deck: &mut Deck, record: &Record, damage: Damage, random: &mut Random) {
    let mut blocks = record.blocks();
    let victim = random.below(blocks.len());
    let last = blocks.len() - 1;
    match damage {
        Damage::None => deck.push_record(record),
        Damage::Spoiled(way) => {
            spoil(&mut blocks[victim], way, random);
            push_with_unsound(deck, &blocks, &[victim]);
        }
        Damage::SeveralSpoiled => push_several_spoiled(deck, blocks, victim, random),
        Damage::Repeated => push_repeated(deck, record, &blocks, victim),
        Damage::Reordered => push_reordered(deck, record, blocks, random),
        Damage::WrongPart => {
            let wrong = blocks[victim][6].wrapping_add(random.between(1, 255) as u8);
            push_resealed(deck, blocks, victim, |block| block[6] = wrong);
        }
        Damage::WrongFill => push_with_wrong_fill(deck, record, blocks, random),
        Damage::OctetSevenSet => {
            let set = random.between(1, 255) as u8;
            push_resealed(deck, blocks, victim, |block| block[7] = set);
        }
        Damage::NumberZero => push_all_stray(deck, &blocks_of(0, &record.octets())),
        Damage::NumbersDiffer | Damage::PartsOfTwoRecords if last == 0 => deck.push_record(record),
        Damage::NumbersDiffer => {
            push_resealed(deck, blocks, victim, |block| block[random.below(4)] ^= 1 << random.below(8));
        }
        Damage::PartsOfTwoRecords => push_parts_of_two(deck, record),
        Damage::LengthsDiffer => push_with_a_longer_length(deck, blocks, victim),
        Damage::LengthOutOfRange => push_out_of_range(deck, record, random),
        Damage::CertificateTooLong => push_with_a_long_certificate(deck, record, blocks),
        Damage::FirstPartGone => push_all_stray(deck, &blocks[1..]),
        Damage::LastPartGone => push_all_stray(deck, &blocks[..last]),
    }
}

/// The ways in which a block is spoiled where it stands, so that it fails its check.
#[derive(Clone, Copy, Debug, PartialEq, Eq, PartialOrd, Ord)]
pub enum Spoiling {
    /// "One byte of a good block changed", the check's own among them
    OctetChanged,
    /// "two unequal bytes of it before the check exchanged"
    OctetsExchanged,
    AllZero,
    AllOnes,
    /// Octets by chance.
    Chance,
    /// The block's own fields, and octets by chance behind them.
    ChanceData,
    /// The check 65,521 too high, where two octets can say that, and else one too high.
    CheckTooHigh,
}

pub const SPOILINGS: [Spoiling; 7] = [
    Spoiling::OctetChanged,
    Spoiling::OctetsExchanged,
    Spoiling::AllZero,
    Spoiling::AllOnes,
    Spoiling::Chance,
    Spoiling::ChanceData,
    Spoiling::CheckTooHigh,
];

/// Spoils a good block. It fails its check then, and nothing else of it counts.
pub fn spoil(block: &mut [u8], spoiling: Spoiling, random: &mut Random) {
    match spoiling {
        Spoiling::OctetChanged => change_octet(block, BLOCK, random),
        Spoiling::OctetsExchanged => exchange_octets(block, random),
        Spoiling::AllZero => block.fill(0),
        Spoiling::AllOnes => block.fill(0xFF),
        Spoiling::Chance => fill_by_chance(block, 0, random),
        Spoiling::ChanceData => fill_by_chance(block, 8, random),
        Spoiling::CheckTooHigh => raise_check(block),
    }
    assert!(fails_its_check(block), "{spoiling:?}: a spoiled block fails its check");
}

/// Octets by chance from a place on, and others where chance has found the check.
fn fill_by_chance(block: &mut [u8], from: usize, random: &mut Random) {
    loop {
        block[from..].fill_with(|| random.octet());
        if fails_its_check(block) {
            return;
        }
    }
}

fn raise_check(block: &mut [u8]) {
    let check = check(block);
    let higher = check.checked_add(65_521).unwrap_or(check.wrapping_add(1));
    block[CHECK..].copy_from_slice(&higher.to_be_bytes());
}

/// Adds the blocks of a record after some of them were spoiled where they stand: "Reading gives exactly the records
/// none of whose blocks was spoiled".
pub fn push_spoiled(deck: &mut Deck, record: &Record, blocks: &[Vec<u8>], spoiled: &[usize]) {
    if spoiled.is_empty() {
        deck.push_whole(record, blocks);
    } else {
        push_with_unsound(deck, blocks, spoiled);
    }
}

/// Changes an octet before this place.
pub fn change_octet(block: &mut [u8], before: usize, random: &mut Random) {
    block[random.below(before)] ^= random.between(1, 255) as u8;
}

/// Exchanges two unequal octets before the check.
pub fn exchange_octets(block: &mut [u8], random: &mut Random) {
    loop {
        let (first, second) = (random.below(CHECK), random.below(CHECK));
        if block[first] != block[second] {
            block.swap(first, second);
            return;
        }
    }
}

/// A record some of whose blocks fail their check: the others are strays.
fn push_with_unsound(deck: &mut Deck, blocks: &[Vec<u8>], unsound: &[usize]) {
    for (position, block) in blocks.iter().enumerate() {
        let loss = if unsound.contains(&position) { Loss::Unsound } else { Loss::Stray };
        deck.push_lost(block, loss);
    }
}

fn push_all_stray(deck: &mut Deck, blocks: &[Vec<u8>]) {
    push_with_unsound(deck, blocks, &[]);
}

/// One block changed and its check made good again: every block is sound and none is part of a
/// record.
fn push_resealed(
    deck: &mut Deck,
    mut blocks: Vec<Vec<u8>>,
    victim: usize,
    change: impl FnOnce(&mut Vec<u8>),
) {
    change(&mut blocks[victim]);
    seal(&mut blocks[victim]);
    push_all_stray(deck, &blocks);
}

fn push_several_spoiled(deck: &mut Deck, mut blocks: Vec<Vec<u8>>, victim: usize, random: &mut Random) {
    let is_spoiled = |position: &usize| *position == victim || random.once_in(2);
    let spoiled: Vec<usize> = (0..blocks.len()).filter(is_spoiled).collect();
    for position in &spoiled {
        change_octet(&mut blocks[*position], BLOCK, random);
    }
    push_with_unsound(deck, &blocks, &spoiled);
}

/// One octet of the fill set, where the last block has any.
fn push_with_wrong_fill(deck: &mut Deck, record: &Record, blocks: Vec<Vec<u8>>, random: &mut Random) {
    let last = blocks.len() - 1;
    let fill = blocks.len() * DATA - record.octets().len();
    if fill == 0 {
        deck.push_record(record);
    } else {
        let position = CHECK - 1 - random.below(fill);
        push_resealed(deck, blocks, last, |block| block[position] = random.between(1, 255) as u8);
    }
}

/// A certificate of one octet more than is left, so that it would pass the record's end.
fn push_with_a_long_certificate(deck: &mut Deck, record: &Record, blocks: Vec<Vec<u8>>) {
    let too_long = (record.octets().len() - 3 + 1) as u16;
    push_resealed(deck, blocks, 0, |block| block[9..11].copy_from_slice(&too_long.to_be_bytes()));
}

/// Part 0 of this record, then the rest of another of the same length.
fn push_parts_of_two(deck: &mut Deck, record: &Record) {
    let other = blocks_of(record.number.wrapping_add(1000), &record.octets());
    push_all_stray(deck, &record.blocks()[..1]);
    push_all_stray(deck, &other[1..]);
}

fn push_repeated(deck: &mut Deck, record: &Record, blocks: &[Vec<u8>], victim: usize) {
    let last = blocks.len() - 1;
    match victim {
        // The only block twice is the record twice.
        0 if last == 0 => {
            deck.push_record(record);
            deck.push_record(record);
        }
        // The first part again: the run starts at the second of the two.
        0 => {
            push_all_stray(deck, &blocks[..1]);
            deck.push_record(record);
        }
        // The last part again: the run has ended before it.
        _ if victim == last => {
            deck.push_record(record);
            push_all_stray(deck, &blocks[last..]);
        }
        _ => {
            push_all_stray(deck, &blocks[..=victim]);
            push_all_stray(deck, &blocks[victim..]);
        }
    }
}

fn push_reordered(deck: &mut Deck, record: &Record, mut blocks: Vec<Vec<u8>>, random: &mut Random) {
    if blocks.len() == 1 {
        deck.push_record(record);
        return;
    }
    let first = random.below(blocks.len());
    let second = (first + random.between(1, blocks.len() - 1)) % blocks.len();
    blocks.swap(first, second);
    push_all_stray(deck, &blocks);
}

/// One block claims a longer record. Alone it would still need the blocks that the others do not
/// give it.
fn push_with_a_longer_length(deck: &mut Deck, blocks: Vec<Vec<u8>>, victim: usize) {
    let length = u16::from_be_bytes([blocks[victim][4], blocks[victim][5]]);
    let longer = (length + DATA as u16).to_be_bytes();
    push_resealed(deck, blocks, victim, |block| block[4..6].copy_from_slice(&longer));
}

fn push_out_of_range(deck: &mut Deck, record: &Record, random: &mut Random) {
    let length = *random.choose(&[0u16, 1, 2, 16_388, 16_566, 40_000, 65_535]);
    let parts = usize::from(length).div_ceil(DATA).clamp(1, 255);
    let blocks: Vec<_> = (0..parts).map(|part| block(record.number, length, part as u8, &[])).collect();
    push_all_stray(deck, &blocks);
}

/// Adds two records of different numbers, one block of the first exchanged with one of the second. A
/// record of one block is whole wherever it stands; a longer one has lost a block of its run.
pub fn push_exchanged(deck: &mut Deck, first: &Record, second: &Record, random: &mut Random) {
    let parts = |record: &'_ Record| record.blocks().len();
    let of_first = (0..parts(first)).map(|part| (first, part));
    let mut sequence: Vec<_> = of_first.chain((0..parts(second)).map(|part| (second, part))).collect();
    sequence.swap(random.below(parts(first)), parts(first) + random.below(parts(second)));
    for (record, part) in sequence {
        if parts(record) == 1 {
            deck.push_record(record);
        } else {
            deck.push_lost(&record.blocks()[part], Loss::Stray);
        }
    }
}

/// Tears the deck off inside its last record. The record must stand at the end undamaged.
pub fn push_torn(deck: &mut Deck, record: &Record, kept: usize) {
    let octets = record.blocks().concat();
    assert!(kept < octets.len(), "a torn record is shorter than a whole one");
    for block in octets[..kept].chunks(BLOCK) {
        deck.push_lost(block, if block.len() < BLOCK { Loss::Short } else { Loss::Stray });
    }
}

/// Adds a block that belongs to no record: one that fails its check, a sound part 1 without a part 0, or less than a
/// block, behind which nothing may come.
pub fn push_lost_block(deck: &mut Deck, loss: Loss) {
    match loss {
        Loss::Unsound => deck.push_lost(&[0; BLOCK], loss),
        Loss::Stray => deck.push_lost(&block(7, 600, 1, &[]), loss),
        Loss::Short => deck.push_lost(&[0; BLOCK - 1], loss),
    }
}

/// A deck of whole blocks with lost ones behind it, unsound and stray by turns, and a short one if one is needed to reach
/// this length.
pub fn filled_up(mut deck: Deck, octets: usize) -> Deck {
    let missing = octets - deck.octets.len();
    for turn in 0..missing / BLOCK {
        push_lost_block(&mut deck, if turn % 2 == 0 { Loss::Unsound } else { Loss::Stray });
    }
    if missing % BLOCK > 0 {
        deck.push_lost(&vec![0xFF; missing % BLOCK], Loss::Short);
    }
    deck
}
