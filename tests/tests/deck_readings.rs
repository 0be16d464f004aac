//! How the deck's sentences are read, each by a deck made by hand: "A record is handed out at a block exactly when it
//! starts a run of consecutive sound blocks, parts 0 to the last, one number (not 0) and one N of 3 to 16,387, octet 7
//! and fill zero, certificate length at most N−3. Every block in no such run is lost" (document 01, "The deck").
//!
//! The lines are those of the program `answers`: a record's line has its length N, and the listing's has not.

use comparison::deck::{block, blocks_of, check, fails_its_check, seal, BLOCK, CHECK};
use comparison::element::Element;
use comparison::hex;
use comparison::readers::{Reader, Readers, Reading, MOST_OCTETS};

/// A room that no report here needs.
const ROOM: usize = 13;

/// Holds both readers to the lines that this deck must give.
fn hold(what: &str, blocks: &[&[u8]], due: &[&str]) {
    let mut readers = Readers::of(what);
    readers.hold_lines(what, Reading { deck: blocks.concat(), room: ROOM }, due);
    readers.settle();
}

/// Profile, certificate and issuer as a record's octets.
fn octets_of(profile: u8, certificate: &[u8], issuer: &[u8]) -> Vec<u8> {
    let length = u16::try_from(certificate.len()).expect("two octets say it");
    [&[profile], &length.to_be_bytes()[..], certificate, issuer].concat()
}

/// The block of P12.
fn example() -> Vec<u8> {
    block(1, 7, 0, &hex::octets("01 00 02 30 00 30 00"))
}

/// A record of 503 octets and two blocks, whose second has a single octet of data. Its certificate is an element,
/// and its issuer the last octet.
fn of_two_blocks(number: u32, filler: u8) -> [Vec<u8>; 2] {
    let certificate = Element::octet_string(&[filler; 495]).octets();
    assert_eq!(certificate.len(), 499);
    let blocks = blocks_of(number, &octets_of(1, &certificate, &[0x30]));
    blocks.try_into().expect("503 octets take two blocks")
}

/// The line of such a record.
fn line_of_two_blocks(number: u32) -> String {
    format!("record {number} profile 1 length 503 refused 6 side 1 at 0")
}

/// The same block with a change, and its check made good again.
fn resealed(block: &[u8], change: impl FnOnce(&mut [u8])) -> Vec<u8> {
    let mut block = block.to_vec();
    change(&mut block);
    seal(&mut block);
    block
}

// Whole decks of the paper

#[test]
fn the_example_of_the_paper() {
    let block = example();
    assert_eq!(block[CHECK..], hex::octets("05 2E"));
    hold(
        "P12's block, a zero block and 100 more octets",
        &[&block, &[0; BLOCK], &[0; 100]],
        &[
            "record 1 profile 1 length 7 refused 6 side 1 at 0",
            "lost 1 unsound",
            "lost 2 short",
            "records 1 blocks 3 lost 2",
        ],
    );
}

#[test]
fn decks_without_a_whole_block() {
    hold("no octet", &[], &["records 0 blocks 0 lost 0"]);
    for length in [1, 100, BLOCK - 1] {
        let lost = ["lost 0 short", "records 0 blocks 1 lost 1"];
        hold("zeros", &[&vec![0; length]], &lost);
        hold("the front of a good block", &[&example()[..length]], &lost);
    }
}

// Octet 7

#[test]
fn octet_7_set_in_a_sound_block_makes_strays() {
    let set = |block: &[u8], value: u8| resealed(block, |block| block[7] = value);
    for value in [1, 0x80, 0xFF] {
        hold("the only block", &[&set(&example(), value)], &["lost 0 stray", "records 0 blocks 1 lost 1"]);
        let [first, second] = of_two_blocks(5, 7);
        let lost = ["lost 0 stray", "lost 1 stray", "records 0 blocks 2 lost 2"];
        hold("the first block", &[&set(&first, value), &second], &lost);
        hold("the last block", &[&first, &set(&second, value)], &lost);
    }
}

// Fill

#[test]
fn fill_that_is_not_zero_makes_strays() {
    // Data of the example ends at octet 15, that of the second block at octet 9; the check starts at 510.
    for place in [15, 16, 300, 508, 509] {
        let block = resealed(&example(), |block| block[place] = 1);
        hold("the only block", &[&block], &["lost 0 stray", "records 0 blocks 1 lost 1"]);
    }
    let [first, second] = of_two_blocks(5, 7);
    for place in [9, 509] {
        let second = resealed(&second, |block| block[place] = 0x80);
        let lost = ["lost 0 stray", "lost 1 stray", "records 0 blocks 2 lost 2"];
        hold("the last block", &[&first, &second], &lost);
    }
    let whole = resealed(&second, |block| block[8] = 0x80);
    let record = line_of_two_blocks(5);
    hold("data is no fill", &[&first, &whole], &[&record, "records 1 blocks 2 lost 0"]);
}

// The certificate's length

#[test]
fn a_certificate_of_all_that_is_left_is_a_record() {
    let with_length = |length: u8| resealed(&example(), |block| block[10] = length);
    // N is 7, so N−3 is 4: the issuer is empty then, which the linter refuses by 2.
    hold(
        "N−3",
        &[&with_length(4)],
        &["record 1 profile 1 length 7 refused 2 side 2 at 0", "records 1 blocks 1 lost 0"],
    );
    hold("N−2", &[&with_length(5)], &["lost 0 stray", "records 0 blocks 1 lost 1"]);
    hold("255", &[&with_length(255)], &["lost 0 stray", "records 0 blocks 1 lost 1"]);
    let high_octet = resealed(&example(), |block| block[9] = 1);
    hold("258", &[&high_octet], &["lost 0 stray", "records 0 blocks 1 lost 1"]);
}

// The number

#[test]
fn number_0_is_no_record() {
    let zero = |block: &[u8]| resealed(block, |block| block[..4].fill(0));
    hold("one block", &[&zero(&example())], &["lost 0 stray", "records 0 blocks 1 lost 1"]);
    let [first, second] = of_two_blocks(5, 7);
    hold(
        "two blocks",
        &[&zero(&first), &zero(&second)],
        &["lost 0 stray", "lost 1 stray", "records 0 blocks 2 lost 2"],
    );
}

#[test]
fn numbers_use_all_their_octets() {
    for number in [1, 0x100, 0x1_0000, 0x100_0000, u32::MAX] {
        let block = resealed(&example(), |block| block[..4].copy_from_slice(&number.to_be_bytes()));
        let record = format!("record {number} profile 1 length 7 refused 6 side 1 at 0");
        hold("a number", &[&block], &[&record, "records 1 blocks 1 lost 0"]);
    }
    for octet in 0..4 {
        let [first, second] = of_two_blocks(5, 7);
        let second = resealed(&second, |block| block[octet] ^= 0x10);
        let lost = ["lost 0 stray", "lost 1 stray", "records 0 blocks 2 lost 2"];
        hold("two numbers that differ in one octet", &[&first, &second], &lost);
    }
}

// N

#[test]
fn the_least_length_is_3() {
    hold(
        "N is 3",
        &[&block(9, 3, 0, &[1, 0, 0])],
        &["record 9 profile 1 length 3 refused 1 side 1 at 0", "records 1 blocks 1 lost 0"],
    );
    for length in [0, 1, 2] {
        let block = block(9, length, 0, &[0; 3]);
        hold("N is less", &[&block], &["lost 0 stray", "records 0 blocks 1 lost 1"]);
    }
}

#[test]
fn the_greatest_length_is_16387() {
    let side = Element::octet_string(&[7; 8188]).octets();
    let blocks = |issuer: &[u8]| blocks_of(0x1_0000, &octets_of(2, &side, issuer)).concat();
    hold(
        "8,192 and 8,192 octets",
        &[&blocks(&side)],
        &["record 65536 profile 2 length 16387 refused 6 side 1 at 0", "records 1 blocks 33 lost 0"],
    );
    let lost: Vec<String> = (0..33).map(|position| format!("lost {position} stray")).collect();
    let mut lines: Vec<&str> = lost.iter().map(String::as_str).collect();
    lines.push("records 0 blocks 33 lost 33");
    hold("8,192 and 8,193 octets", &[&blocks(&[&side[..], &[0]].concat())], &lines);
}

#[test]
fn a_certificate_of_over_8192_octets_is_handed_out_and_refused() {
    let blocks = blocks_of(3, &octets_of(1, &[0x30; 16_384], &[])).concat();
    hold(
        "all of the longest record",
        &[&blocks],
        &["record 3 profile 1 length 16387 refused 1 side 1 at 0", "records 1 blocks 33 lost 0"],
    );
    let blocks = blocks_of(3, &octets_of(1, &[0x30], &[0x30; 8193])).concat();
    hold(
        "an issuer of 8,193 octets",
        &[&blocks],
        &["record 3 profile 1 length 8197 refused 2 side 2 at 0", "records 1 blocks 17 lost 0"],
    );
}

#[test]
fn lengths_that_differ_within_a_run_make_strays() {
    // 503 and 504 octets both take two blocks.
    let [first, second] = of_two_blocks(5, 7);
    let second = resealed(&second, |block| block[5] += 1);
    hold("two lengths", &[&first, &second], &["lost 0 stray", "lost 1 stray", "records 0 blocks 2 lost 2"]);
}

// Runs

#[test]
fn two_records_of_one_number_and_one_length_can_meet_in_a_run() {
    // Document 01 tells records apart by number and N alone, so the definition hands such a run out.
    let (one, other) = (of_two_blocks(5, 7), of_two_blocks(5, 8));
    let record = line_of_two_blocks(5);
    hold(
        "part 0 of one, part 1 of the other",
        &[&one[0], &other[1]],
        &[&record, "records 1 blocks 2 lost 0"],
    );
    hold(
        "both parts 0, both parts 1",
        &[&one[0], &other[0], &one[1], &other[1]],
        &["lost 0 stray", &record, "lost 3 stray", "records 1 blocks 4 lost 2"],
    );
}

#[test]
fn part_0_of_one_record_is_not_joined_to_part_1_of_another() {
    let (one, other) = (of_two_blocks(1, 7), of_two_blocks(2, 7));
    let lost = ["lost 0 stray", "lost 1 stray", "records 0 blocks 2 lost 2"];
    hold("other numbers", &[&one[0], &other[1]], &lost);
    hold(
        "a whole record between",
        &[&one[0], &example(), &one[1]],
        &[
            "lost 0 stray",
            "record 1 profile 1 length 7 refused 6 side 1 at 0",
            "lost 2 stray",
            "records 1 blocks 3 lost 2",
        ],
    );
}

#[test]
fn a_run_goes_from_part_0_to_the_last() {
    let [first, second] = of_two_blocks(5, 7);
    let record = line_of_two_blocks(5);
    hold("part 0 twice", &[&first, &first, &second], &["lost 0 stray", &record, "records 1 blocks 3 lost 1"]);
    hold(
        "part 1 twice",
        &[&first, &second, &second],
        &[&record, "lost 2 stray", "records 1 blocks 3 lost 1"],
    );
    hold("part 1 first", &[&second, &first], &["lost 0 stray", "lost 1 stray", "records 0 blocks 2 lost 2"]);
    hold("no part 1", &[&first], &["lost 0 stray", "records 0 blocks 1 lost 1"]);
    hold("no part 0", &[&second], &["lost 0 stray", "records 0 blocks 1 lost 1"]);
    let part_2 = resealed(&second, |block| block[6] = 2);
    hold(
        "part 2 for part 1",
        &[&first, &part_2],
        &["lost 0 stray", "lost 1 stray", "records 0 blocks 2 lost 2"],
    );
    let part_1 = resealed(&example(), |block| block[6] = 1);
    hold("the only block is part 1", &[&part_1], &["lost 0 stray", "records 0 blocks 1 lost 1"]);
}

#[test]
fn a_record_twice_is_handed_out_twice() {
    let line = "record 1 profile 1 length 7 refused 6 side 1 at 0";
    hold("one block twice", &[&example(), &example()], &[line, line, "records 2 blocks 2 lost 0"]);
}

#[test]
fn a_run_ends_before_a_short_block() {
    let [first, second] = of_two_blocks(5, 7);
    hold(
        "the last part one octet short",
        &[&first, &second[..BLOCK - 1]],
        &["lost 0 stray", "lost 1 short", "records 0 blocks 2 lost 2"],
    );
    let record = line_of_two_blocks(5);
    hold("one octet more", &[&first, &second, &[0]], &[&record, "lost 2 short", "records 1 blocks 3 lost 1"]);
}

// The check

#[test]
fn a_check_is_the_number_itself_and_not_one_that_leaves_the_same_remainder() {
    // 260 times 252 is 65,520, so octet 259 alone makes the check 0; it fits the two octets as 65,521 too.
    let mut zero = vec![0; BLOCK];
    zero[259] = 252;
    assert_eq!(check(&zero), 0);
    hold("a check of 0", &[&zero], &["lost 0 stray", "records 0 blocks 1 lost 1"]);
    zero[CHECK..].copy_from_slice(&65_521u16.to_be_bytes());
    assert!(fails_its_check(&zero));
    hold("0 written as 65,521", &[&zero], &["lost 0 unsound", "records 0 blocks 1 lost 1"]);
}

/// A block of a record of 502 octets with this check: three octets of its issuer are counted up until it has.
fn with_check(wanted: u16) -> Vec<u8> {
    let plain = block(1, 502, 0, &octets_of(1, &[0x30, 0], &[0; 497]));
    let with_count = |count: u32| {
        let [_, low, middle, high] = count.to_be_bytes();
        resealed(&plain, |block| (block[13], block[508], block[509]) = (low, middle, high))
    };
    (0..1 << 24).map(with_count).find(|block| check(block) == wanted).expect("some octets make this check")
}

#[test]
fn the_least_and_the_greatest_check() {
    for wanted in [0, 1, 14, 15, 65_519, 65_520] {
        let record = "record 1 profile 1 length 502 refused 6 side 1 at 0";
        hold("the check", &[&with_check(wanted)], &[record, "records 1 blocks 1 lost 0"]);
    }
}

#[test]
fn check_octets_are_read_high_octet_first() {
    let mut block = example();
    block.swap(CHECK, CHECK + 1);
    hold("2E 05 for 05 2E", &[&block], &["lost 0 unsound", "records 0 blocks 1 lost 1"]);
}

// The profile

#[test]
fn the_reader_asks_nothing_of_the_profile() {
    for profile in [0, 5, 200, 255] {
        let block = resealed(&example(), |block| block[8] = profile);
        let record = format!("record 1 profile {profile} length 7 refused 3 side 0 at 0");
        hold("an unknown profile", &[&block], &[&record, "records 1 blocks 1 lost 0"]);
    }
}

// The longest decks

#[test]
fn decks_of_the_most_octets() {
    let line = "record 1 profile 1 length 7 refused 6 side 1 at 0";
    let mut lines = vec![line; 128];
    lines.push("records 128 blocks 128 lost 0");
    let deck = example().repeat(128);
    assert_eq!(deck.len(), MOST_OCTETS);
    hold("128 records", &[&deck], &lines);
    lines[127] = "lost 127 short";
    lines[128] = "records 127 blocks 128 lost 1";
    hold("an octet less", &[&deck[..MOST_OCTETS - 1]], &lines);
}

#[test]
fn a_frame_that_brings_no_deck_is_told() {
    let reader = Reader::of("frames that bring no deck");
    let empty_deck = [0; 7];
    for length in [0, 1, 5, 7] {
        let frames = [&empty_deck[..length], &empty_deck[..6]];
        reader.hold_frames(&frames, "no call\nrecords 0 blocks 0 lost 0\n");
    }
    reader.hold_frames(&[&[1, 0, 1, 0, 0, 0], &[0, 0, 0, 1, 0, 1]], "no call\nno call\n");
    // A deck that the end of the input cuts off.
    reader.hold_frames(&[&empty_deck[..6], &[0, 0, 0, 0, 0, 1]], "records 0 blocks 0 lost 0\n");
}
