//! The program `deckpack`: the blocks that it writes are those that the bench cuts itself, and what it
//! does not write it gives a reason for.

use std::env;
use std::fs;
use std::path::PathBuf;
use std::process;

use comparison::amount::say;
use comparison::correct::Case;
use comparison::deck::Record;
use comparison::profile::ALL;
use comparison::program::Program;
use comparison::random::Random;
use comparison::records::{largest, linted, of_length, of_two_blocks, tiny, LONGEST_SIDE};

const USAGE: &str = "usage: deckpack [DECK] NUMBER PROFILE CERTIFICATE ISSUER\n";
const REFUSED_1: &str = "refused 1: the certificate has no octets, or more than 8,192\n";
const REFUSED_2: &str = "refused 2: the issuer's certificate has no octets, or more than 8,192\n";
const REFUSED_3: &str = "refused 3: the profile is not 1, 2, 3 or 4\n";
const REFUSED_8: &str = "refused 8: the record number is 0\n";

/// The program, and a folder of its own for the files that it is given.
struct Packer {
    program: Program,
    folder: PathBuf,
    calls: usize,
}

impl Packer {
    /// None where the programs are left out.
    fn of(kind: &str) -> Option<Packer> {
        let program = Program::unless_left_out("deckpack", kind)?;
        let folder = env::temp_dir().join(format!("dlozamife-{}-{}", process::id(), kind.replace(' ', "-")));
        fs::create_dir_all(&folder).unwrap_or_else(|e| panic!("{}: {e}", folder.display()));
        Some(Packer { program, folder, calls: 0 })
    }

    fn path(&self, name: &str) -> String {
        self.folder.join(name).to_str().expect("a path is a text").to_string()
    }

    fn file(&self, name: &str, octets: &[u8]) -> String {
        let path = self.path(name);
        fs::write(&path, octets).unwrap_or_else(|e| panic!("{path}: {e}"));
        path
    }

    /// Holds the program to what is due on standard output and on standard error.
    fn hold(&mut self, arguments: &[&str], blocks: &[u8], words: &str) {
        let (written, said) = self.program.run_and_hear(arguments, &[]);
        assert_eq!(said, words, "{arguments:?}");
        assert!(written == blocks, "{arguments:?}: {} octets, not the {} due", written.len(), blocks.len());
        self.calls += 1;
    }

    /// The same with files of these octets.
    fn hold_sides(&mut self, number: &str, profile: &str, sides: [&[u8]; 2], blocks: &[u8], words: &str) {
        let (certificate, issuer) = (self.file("certificate", sides[0]), self.file("issuer", sides[1]));
        self.hold(&[number, profile, &certificate, &issuer], blocks, words);
    }

    fn hold_record(&mut self, record: &Record) {
        let case = &record.case;
        let sides = [case.certificate.as_slice(), &case.issuer];
        let blocks = record.blocks().concat();
        self.hold_sides(&record.number.to_string(), &case.profile.to_string(), sides, &blocks, "");
    }

    fn finish(self, kind: &str) {
        say(kind, self.calls);
        fs::remove_dir_all(&self.folder).unwrap_or_else(|e| panic!("{}: {e}", self.folder.display()));
    }
}

#[test]
fn records_are_packed() {
    let Some(mut packer) = Packer::of("records packed") else { return };
    let mut random = Random::for_purpose("packed records");
    for number in [1, 0xFF, 0x100, 0x1_0000, 0x102_0304, u32::MAX] {
        for case in [tiny(&mut random), of_two_blocks(&mut random), linted(&mut random), largest(&mut random)]
        {
            packer.hold_record(&Record { number, case });
        }
    }
    for length in [5, 501, 502, 503, 504, 505, 1_004, 1_005, 16_386, 16_387] {
        packer.hold_record(&Record { number: 41, case: of_length(length) });
    }
    packer.finish("records packed by deckpack");
}

#[test]
fn numbers_are_decimal_digits() {
    let Some(mut packer) = Packer::of("numbers packed") else { return };
    let case = of_length(5);
    let sides = [case.certificate.as_slice(), &case.issuer];
    let blocks = |number: u32, profile: u8| {
        Record { number, case: Case { profile, ..case.clone() } }.blocks().concat()
    };
    packer.hold_sides("007", "02", sides, &blocks(7, 2), "");
    packer.hold_sides("4294967295", "4", sides, &blocks(u32::MAX, 4), "");
    packer.hold_sides(&format!("{:0>4000}", 412), "1", sides, &blocks(412, 1), "");
    for text in
        ["", " 1", "1 ", "-1", "+1", "0x1", "1.0", "1e3", "/", ":", "4294967296", "18446744073709551617"]
    {
        packer.hold_sides(text, "1", sides, &[], USAGE);
        packer.hold_sides("1", text, sides, &[], USAGE);
    }
    packer.hold_sides(&format!("{:0>5000}", 412), "1", sides, &[], USAGE);
    packer.finish("numbers as arguments of deckpack");
}

#[test]
fn refusals_are_said_in_words() {
    let Some(mut packer) = Packer::of("refusals packed") else { return };
    let (good, long, longer) = ([0x30, 0], [0; LONGEST_SIDE + 1], [0; 100_000]);
    for bad in [&[][..], &long, &longer] {
        for (number, profile, other) in [("1", "1", &good[..]), ("0", "5", &[])] {
            packer.hold_sides(number, profile, [bad, other], &[], REFUSED_1);
        }
        packer.hold_sides("0", "5", [&good, bad], &[], REFUSED_2);
    }
    // 256 and 257 must not be taken for 0 and 1.
    for profile in ["0", "5", "254", "255", "256", "257", "258", "259", "260", "4294967295"] {
        for number in ["0", "1"] {
            packer.hold_sides(number, profile, [&good, &good], &[], REFUSED_3);
        }
    }
    for profile in ALL.iter().map(u8::to_string) {
        packer.hold_sides("0", &profile, [&good, &good], &[], REFUSED_8);
    }
    packer.finish("refusals of deckpack in words");
}

#[test]
fn other_calls_get_the_usage_line_or_the_reason() {
    let Some(mut packer) = Packer::of("other calls") else { return };
    let good = packer.file("good", &[0x30, 0]);
    let missing = packer.path("missing");
    let folder = packer.path("");
    let four = ["1", "1", good.as_str(), good.as_str()];
    for count in 0..4 {
        packer.hold(&four[..count], &[], USAGE);
    }
    packer.hold(&[&four[..], &["more"]].concat(), &[], USAGE);
    let no_file = |name: &str| format!("{name}: No such file or directory\n");
    packer.hold(&["1", "1", &missing, &good], &[], &no_file(&missing));
    packer.hold(&["1", "1", &good, &missing], &[], &no_file(&missing));
    packer.hold(&["1", "1", "", &good], &[], &no_file(""));
    packer.hold(&["1", "1", &good, &folder], &[], &format!("{folder}: Is a directory\n"));
    let long = "a".repeat(5_000);
    packer.hold(&["1", "1", &long, &good], &[], "file name: File name too long\n");
    packer.finish("other calls of deckpack");
}
