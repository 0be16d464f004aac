//! `deckpack DECK NUMBER PROFILE CERTIFICATE ISSUER` adds a record to a deck whole or leaves the deck as it was, octet for
//! octet, and says which.

use std::fs::{self, OpenOptions};
use std::path::PathBuf;
use std::process::{Command, Output};

use comparison::commands::{command, file, folder, full_disk, open, outcome, repository, words, SAID};
use comparison::correct::Case;
use comparison::deck::{Record, BLOCK};
use comparison::holding::AMPLE_ROOM;
use comparison::random::Random;
use comparison::records::{largest, linted, tiny};
use comparison::sample::sample_deck;
use reference::{Event, Loss};

/// A deck, a record's two sides as files, and the folder that they are in.
struct Desk {
    folder: PathBuf,
    deck: PathBuf,
    certificate: PathBuf,
    issuer: PathBuf,
    case: Case,
}

impl Desk {
    /// None where the programs are left out.
    fn with(name: &str, deck: &[u8], case: Case) -> Option<Desk> {
        command("deckpack")?;
        let folder = folder(name);
        Some(Desk {
            deck: file(&folder, "deck", deck),
            certificate: file(&folder, "certificate", &case.certificate),
            issuer: file(&folder, "issuer", &case.issuer),
            folder,
            case,
        })
    }

    /// The record under this number.
    fn record(&self, number: u32) -> Record {
        Record { number, case: self.case.clone() }
    }

    /// The command that adds the record to the deck under this number.
    fn adding(&self, number: &str) -> Command {
        self.adding_to(self.deck.to_str().expect("a path is a text"), number)
    }

    fn adding_to(&self, deck: &str, number: &str) -> Command {
        let mut deckpack = command("deckpack").expect("the programs are there");
        deckpack
            .args([deck, number, &self.case.profile.to_string()])
            .arg(&self.certificate)
            .arg(&self.issuer);
        deckpack
    }

    fn octets(&self) -> Vec<u8> {
        fs::read(&self.deck).unwrap_or_else(|error| panic!("{}: {error}", self.deck.display()))
    }

    /// Holds a command to a record that it added to a deck of these octets.
    fn hold_added(&self, ended: &Output, before: &[u8], number: u32) {
        assert_eq!((ended.status.code(), words(ended)), (Some(0), String::new()));
        assert!(ended.stdout.is_empty());
        assert!(self.octets() == [before, &self.record(number).blocks().concat()].concat());
    }

    /// Holds a command to what it must say, and the deck to what it was.
    fn hold_refused(&self, ended: &Output, before: &[u8], due: &str) {
        assert_eq!((ended.status.code(), words(ended).as_str()), (SAID, due));
        assert!(ended.stdout.is_empty());
        assert!(self.octets() == before, "the deck was changed: {due}");
    }

    /// The last line of the deck's listing.
    fn counts(&self) -> String {
        let ended = outcome(command("decklint").expect("the programs are there").stdin(open(&self.deck)));
        let listing = String::from_utf8(ended.stdout).expect("a listing is a text");
        listing.lines().last().expect("a listing has a line").to_string()
    }

    fn finish(self) {
        fs::remove_dir_all(&self.folder).expect("the folder is removed");
    }
}

fn sample() -> Vec<u8> {
    fs::read(repository().join("samples/night.deck")).expect("the sample")
}

/// The sample's deck up to its last whole block.
fn whole_sample() -> Vec<u8> {
    let mut deck = sample();
    deck.truncate(deck.len() / BLOCK * BLOCK);
    deck
}

/// How many records the sample has, and how many of its whole blocks are lost.
fn counts_of_sample() -> (usize, usize) {
    let events = sample_deck().events(AMPLE_ROOM);
    let is_torn = |event: &Event| matches!(event, Event::Lost { loss: Loss::Short, .. });
    let records = events.iter().filter(|event| matches!(event, Event::Record { .. })).count();
    let torn = events.iter().filter(|event| is_torn(event)).count();
    (records, events.len() - records - torn)
}

#[test]
fn records_are_added_as_the_other_form_writes_them() {
    let mut random = Random::for_purpose("records added");
    for case in [tiny(&mut random), linted(&mut random), largest(&mut random)] {
        let Some(desk) = Desk::with("added", &[], case) else { return };
        for number in 1..=2 {
            let before = desk.octets();
            desk.hold_added(&outcome(&mut desk.adding(&number.to_string())), &before, number);
            let mut other = command("deckpack").expect("the programs are there");
            other
                .args([&number.to_string(), &desk.case.profile.to_string()])
                .arg(&desk.certificate)
                .arg(&desk.issuer);
            assert!(desk.octets() == [before, outcome(&mut other).stdout].concat());
        }
        desk.finish();
    }
}

#[test]
fn a_torn_deck_is_refused_until_it_is_mended() {
    let whole = whole_sample();
    for torn in [1, 100, 511] {
        let before = [&whole[..], &vec![0xA5; torn]].concat();
        let case = linted(&mut Random::for_purpose("a torn deck"));
        let Some(desk) = Desk::with("torn", &before, case) else { return };
        let name = desk.deck.display();
        let mending = format!("truncate -s /512 {name}");
        let due = format!("{name}: the last {torn} octets are no whole block, so nothing was added; `{mending}` cuts them off\n");
        let (records, lost) = counts_of_sample();
        desk.hold_refused(&outcome(&mut desk.adding("17")), &before, &due);
        // What was said mends the deck, and then every record of it is listed, the new one too.
        assert!(outcome(Command::new("sh").args(["-c", &mending])).status.success());
        assert!(desk.octets() == whole);
        desk.hold_added(&outcome(&mut desk.adding("17")), &whole, 17);
        let blocks = whole.len() / BLOCK + desk.record(17).blocks().len();
        assert_eq!(desk.counts(), format!("records {} blocks {blocks} lost {lost}", records + 1));
        desk.finish();
    }
}

/// What the README says of records that were added behind a torn end.
#[test]
fn records_behind_a_torn_end_are_found_again_once_it_is_cut_out() {
    let whole = whole_sample();
    for torn in [1, 100, 511] {
        let case = linted(&mut Random::for_purpose("records behind a torn end"));
        let Some(desk) = Desk::with("behind", &[], case) else { return };
        let later: Vec<u8> =
            [17, 18].iter().flat_map(|&number| desk.record(number).blocks().concat()).collect();
        fs::write(&desk.deck, [&whole[..], &vec![0xA5; torn], &later[..]].concat())
            .expect("the deck is written");
        let blocks = (whole.len() + later.len()) / BLOCK;
        let (records, lost) = counts_of_sample();
        let lost_with_them = lost + later.len() / BLOCK + 1;
        let due = format!("records {records} blocks {} lost {lost_with_them}", blocks + 1);
        assert_eq!(desk.counts(), due);
        let (name, mended) = (desk.deck.display(), desk.folder.join("mended"));
        let (position, length) = (whole.len() / BLOCK, desk.octets().len());
        let cutting = format!(
            "{{ head -c $((512 * {position})) {name}; tail -c +$((512 * {position} + {length} % 512 + 1)) {name}; }} > {}",
            mended.display()
        );
        assert!(outcome(Command::new("sh").args(["-c", &cutting])).status.success());
        fs::rename(&mended, &desk.deck).expect("the mended deck takes the other's place");
        assert!(desk.octets() == [&whole[..], &later[..]].concat());
        assert_eq!(desk.counts(), format!("records {} blocks {blocks} lost {lost}", records + 2));
        desk.finish();
    }
}

#[test]
fn a_refused_record_leaves_the_deck_alone() {
    let before = whole_sample();
    let Some(desk) = Desk::with("refused", &before, tiny(&mut Random::for_purpose("a refused record")))
    else {
        return;
    };
    let deck = desk.deck.to_str().expect("a path is a text");
    let sides = [desk.certificate.to_str().expect("a path"), desk.issuer.to_str().expect("a path")];
    let empty = file(&desk.folder, "empty", &[]);
    let empty = empty.to_str().expect("a path");
    let missing = format!("{deck}-missing");
    let usage = "usage: deckpack [DECK] NUMBER PROFILE CERTIFICATE ISSUER\n";
    let no_file = format!("{missing}: No such file or directory\n");
    let calls: [(&[&str], &str); 8] = [
        (&[deck, "0", "1", sides[0], sides[1]], "refused 8: the record number is 0\n"),
        (&[deck, "1", "5", sides[0], sides[1]], "refused 3: the profile is not 1, 2, 3 or 4\n"),
        (
            &[deck, "1", "1", empty, sides[1]],
            "refused 1: the certificate has no octets, or more than 8,192\n",
        ),
        (&[deck, "1", "1", sides[0], &missing], &no_file),
        (&[deck, "one", "1", sides[0], sides[1]], usage),
        (&[deck, "1", "4294967296", sides[0], sides[1]], usage),
        (&[deck, deck, "1", "1", sides[0], sides[1]], usage),
        (&["1", "1", sides[0], sides[1], deck], usage),
    ];
    for (arguments, due) in calls {
        let ended = outcome(command("deckpack").expect("the programs are there").args(arguments));
        desk.hold_refused(&ended, &before, due);
    }
    desk.finish();
}

#[test]
fn a_deck_that_is_not_there_is_not_made() {
    let Some(desk) = Desk::with("missing", &[], tiny(&mut Random::for_purpose("a missing deck"))) else {
        return;
    };
    let missing = desk.folder.join("missing");
    let name = missing.to_str().expect("a path is a text");
    let due =
        format!("{name}: No such file or directory\nnothing was added; `: > {name}` starts a new deck\n");
    desk.hold_refused(&outcome(&mut desk.adding_to(name, "1")), &[], &due);
    assert!(!missing.exists());
    desk.finish();
}

#[test]
fn a_deck_that_cannot_be_opened_is_said() {
    let Some(desk) = Desk::with("closed", &[], tiny(&mut Random::for_purpose("a closed deck"))) else {
        return;
    };
    let name = desk.folder.to_str().expect("a path is a text");
    let due = format!("{name}: Is a directory\n");
    desk.hold_refused(&outcome(&mut desk.adding_to(name, "1")), &[], &due);
    let mut permissions = fs::metadata(&desk.deck).expect("the deck is there").permissions();
    permissions.set_readonly(true);
    fs::set_permissions(&desk.deck, permissions).expect("the deck is closed");
    // Some users may write whatever its permissions say.
    if OpenOptions::new().append(true).open(&desk.deck).is_err() {
        let due = format!("{}: Permission denied\n", desk.deck.display());
        desk.hold_refused(&outcome(&mut desk.adding("1")), &[], &due);
    }
    desk.finish();
}

/// The command as a shell runs it that lets no file grow past so many units of 512 octets, or of 1,024 in some shells. A
/// write that would go past that stops there, and the next one fails.
fn limited(units: usize, adding: &Command) -> Command {
    let mut shell = Command::new("sh");
    shell.args(["-c", &format!("trap '' XFSZ; ulimit -f {units}; exec \"$@\""), "sh"]);
    shell.arg(adding.get_program()).args(adding.get_args());
    shell
}

#[test]
fn a_write_that_stops_part_way_is_taken_back() {
    let case = largest(&mut Random::for_purpose("a full disk"));
    let before = [7; BLOCK];
    let Some(desk) = Desk::with("full", &before, case) else { return };
    let due = format!(
        "{}: File too large\nnothing was added: the deck has its 512 octets as before\n",
        desk.deck.display()
    );
    // Nothing of the record can be written, or a part of it.
    for units in [1, 2, 8, 16] {
        desk.hold_refused(&outcome(&mut limited(units, &desk.adding("1"))), &before, &due);
    }
    desk.hold_added(&outcome(&mut limited(64, &desk.adding("1"))), &before, 1);
    desk.finish();
}

#[test]
fn a_deck_that_cannot_be_taken_back_is_said() {
    let Some(desk) = Desk::with("device", &[], tiny(&mut Random::for_purpose("a device"))) else { return };
    let due = "/dev/full: No space left on device\n/dev/full: Invalid argument\n\
        the deck may end with a part of the record; `truncate -s 0 /dev/full` cuts it off\n";
    desk.hold_refused(&outcome(&mut desk.adding_to("/dev/full", "1")), &[], due);
    desk.finish();
}

#[test]
fn a_full_disk_behind_standard_output_is_said() {
    let Some(desk) = Desk::with("output", &[], tiny(&mut Random::for_purpose("standard output"))) else {
        return;
    };
    let mut deckpack = command("deckpack").expect("the programs are there");
    deckpack.args(["1", "1"]).arg(&desk.certificate).arg(&desk.issuer).stdout(full_disk());
    desk.hold_refused(&outcome(&mut deckpack), &[], "standard output: No space left on device\n");
    desk.finish();
}
