//! `deckget NUMBER certificate|issuer < DECK` gives the octets back that were packed, and says where they are not those of
//! one record.

use std::fs;
use std::path::Path;
use std::process::{Output, Stdio};

use comparison::amount::say;
use comparison::commands::{command, file, folder, full_disk, open, outcome, repository, words, SAID};
use comparison::deck::{Deck, Record, BLOCK};
use comparison::holding::AMPLE_ROOM;
use comparison::random::Random;
use comparison::records::{largest, linted, tiny};
use comparison::sample::sample_deck;
use reference::Event;

const SIDES: [&str; 2] = ["certificate", "issuer"];
const USAGE: &str = "usage: deckget NUMBER certificate|issuer < DECK > FILE\n";
/// The most octets of a deck that is read.
const MOST: usize = 65_536;

/// What the command gives of a deck in this file; none where the programs are left out.
fn get(deck: &Path, arguments: &[&str]) -> Option<Output> {
    Some(outcome(command("deckget")?.args(arguments).stdin(open(deck))))
}

fn hold(ended: &Output, status: Option<i32>, octets: &[u8], due: &str) {
    assert_eq!((ended.status.code(), words(ended).as_str()), (status, due));
    assert!(ended.stdout == octets, "{} octets, not the {} due", ended.stdout.len(), octets.len());
}

/// Nothing is written of this number.
fn hold_none(deck: &Path, number: u32) {
    for side in SIDES {
        let Some(ended) = get(deck, &[&number.to_string(), side]) else { return };
        hold(&ended, SAID, &[], &format!("the deck has no whole record {number}; nothing was written\n"));
    }
}

/// A deck in a file of its own.
fn with_deck(name: &str, octets: &[u8], hold: impl Fn(&Path)) {
    let folder = folder(name);
    hold(&file(&folder, "deck", octets));
    fs::remove_dir_all(&folder).expect("the folder is removed");
}

#[test]
fn both_sides_of_every_record_of_the_sample_come_back() {
    let deck = repository().join("samples/night.deck");
    let mut compared = 0;
    for event in sample_deck().events(AMPLE_ROOM) {
        let Event::Record { number, certificate, issuer, .. } = event else { continue };
        for (side, octets) in SIDES.into_iter().zip([certificate, issuer]) {
            let Some(ended) = get(&deck, &[&number.to_string(), side]) else { return };
            hold(&ended, Some(0), &octets, "");
            compared += 1;
        }
    }
    assert_eq!(compared, 30, "fifteen records, two sides each");
    say("sides of the sample's records", compared);
}

#[test]
fn records_come_back_as_deckpack_wrote_them() {
    let Some(_) = command("deckpack") else { return };
    let mut random = Random::for_purpose("records got back");
    let cases = [tiny(&mut random), linted(&mut random), largest(&mut random)];
    with_deck("packed", &[], |deck| {
        let folder = deck.parent().expect("the deck's folder");
        for (number, case) in ["1", "4294967295", "2"].into_iter().zip(&cases) {
            let sides =
                [file(folder, "certificate", &case.certificate), file(folder, "issuer", &case.issuer)];
            let mut deckpack = command("deckpack").expect("the programs are there");
            let added = outcome(deckpack.arg(deck).args([number, &case.profile.to_string()]).args(&sides));
            assert_eq!((added.status.code(), words(&added)), (Some(0), String::new()));
            for (side, path) in SIDES.into_iter().zip(&sides) {
                let Some(ended) = get(deck, &[number, side]) else { return };
                hold(&ended, Some(0), &fs::read(path).expect("the side"), "");
            }
        }
    });
}

#[test]
fn a_number_of_no_whole_record_is_said() {
    let deck = repository().join("samples/night.deck");
    // Of record 9 a block is damaged; the sample's last record is the sixteenth.
    for number in [0, 9, 17, u32::MAX] {
        hold_none(&deck, number);
    }
    with_deck("empty", &[], |deck| hold_none(deck, 1));
}

#[test]
fn records_of_one_number_come_all_and_are_counted() {
    let mut random = Random::for_purpose("records of one number");
    let records = [linted(&mut random), tiny(&mut random), linted(&mut random), linted(&mut random)];
    let mut deck = Deck::default();
    for (number, case) in [7, 8, 7, 7].into_iter().zip(&records) {
        deck.push_record(&Record { number, case: case.clone() });
    }
    with_deck("alike", &deck.octets, |path| {
        let sevens = [&records[0], &records[2], &records[3]];
        let due = "the deck has 3 records 7, which were written one behind the other\n";
        let octets: [Vec<u8>; 2] = [
            sevens.iter().flat_map(|case| case.certificate.clone()).collect(),
            sevens.iter().flat_map(|case| case.issuer.clone()).collect(),
        ];
        for (side, octets) in SIDES.into_iter().zip(octets) {
            let Some(ended) = get(path, &["7", side]) else { return };
            hold(&ended, SAID, &octets, due);
        }
        let Some(ended) = get(path, &["8", "certificate"]) else { return };
        hold(&ended, Some(0), &records[1].certificate, "");
    });
}

#[test]
fn other_arguments_get_the_usage_line_and_nothing_is_read() {
    let long = "1".repeat(5_000);
    let calls: [&[&str]; 12] = [
        &[],
        &["1"],
        &["certificate"],
        &["1", "certificate", "more"],
        &["certificate", "1"],
        &["", "certificate"],
        &["-1", "certificate"],
        &["4294967296", "certificate"],
        &[&long, "certificate"],
        &["1", "Certificate"],
        &["1", "certificates"],
        &["1", "issue"],
    ];
    for arguments in calls {
        let Some(mut deckget) = command("deckget") else { return };
        let mut running = deckget.args(arguments).stdin(Stdio::piped()).spawn().expect("bin/deckget starts");
        let open_input = running.stdin.take();
        let ended = running.wait_with_output().expect("it ends though its input does not");
        drop(open_input);
        hold(&ended, SAID, &[], USAGE);
    }
}

#[test]
fn a_deck_that_is_too_long_is_said() {
    let record = Record { number: 1, case: tiny(&mut Random::for_purpose("a long deck")) };
    let mut octets = vec![0; MOST - BLOCK];
    octets.extend(record.blocks().concat());
    with_deck("longest", &octets, |deck| {
        let Some(ended) = get(deck, &["1", "certificate"]) else { return };
        hold(&ended, Some(0), &record.case.certificate, "");
    });
    octets.push(0);
    with_deck("too-long", &octets, |deck| {
        let Some(ended) = get(deck, &["1", "certificate"]) else { return };
        hold(&ended, SAID, &[], "deck too long\n");
    });
}

#[test]
fn a_deck_that_cannot_be_read_and_a_full_disk_are_said() {
    let Some(ended) = get(&repository(), &["1", "certificate"]) else { return };
    hold(&ended, SAID, &[], "standard input: Is a directory\n");
    let deck = open(&repository().join("samples/night.deck"));
    let mut deckget = command("deckget").expect("the programs are there");
    let ended = outcome(deckget.args(["1", "certificate"]).stdin(deck).stdout(full_disk()));
    hold(&ended, SAID, &[], "standard output: No space left on device\n");
}
