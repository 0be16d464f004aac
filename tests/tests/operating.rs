//! What the caretaker runs is `bin/`: its exit status tells whether all went well, what is printed is not held back, and no
//! program runs that is older than its sources.

use std::env;
use std::fs;
use std::io::Write;
use std::path::PathBuf;
use std::process::{Command, Stdio};
use std::time::{Duration, SystemTime};

use comparison::commands::{command, folder, full_disk, open, outcome, repository, SAID};
use comparison::program::{path_of, Program};

fn sample(name: &str) -> PathBuf {
    repository().join("samples").join(name)
}

#[test]
fn a_whole_listing_ends_with_0() {
    let Some(mut decklint) = command("decklint") else { return };
    let ended = outcome(decklint.stdin(open(&sample("night.deck"))));
    assert_eq!(ended.status.code(), Some(0));
    assert!(ended.stderr.is_empty());
    assert!(ended.stdout == fs::read(sample("night.listing")).expect("the sample's listing"));
}

#[test]
fn a_deck_that_cannot_be_read_does_not() {
    let Some(mut decklint) = command("decklint") else { return };
    let ended = outcome(decklint.stdin(open(&repository())));
    assert_eq!(ended.status.code(), SAID);
    assert!(ended.stdout.is_empty() && !ended.stderr.is_empty());
}

#[test]
fn a_full_disk_does_not() {
    let Some(mut decklint) = command("decklint") else { return };
    let ended = outcome(decklint.stdin(open(&sample("night.deck"))).stdout(full_disk()));
    assert_eq!(ended.status.code(), SAID);
    assert!(String::from_utf8_lossy(&ended.stderr).contains("standard output"));
}

#[test]
fn a_listing_that_nobody_reads_does_not() {
    let Some(mut decklint) = command("decklint") else { return };
    let mut running = decklint.stdin(Stdio::piped()).spawn().expect("bin/decklint starts");
    drop(running.stdout.take());
    let deck = fs::read(sample("night.deck")).expect("the sample");
    running.stdin.take().expect("a pipe").write_all(&deck).expect("the deck is read");
    let ended = running.wait_with_output().expect("it ends");
    assert_eq!(ended.status.code(), SAID);
    assert_eq!(String::from_utf8_lossy(&ended.stderr), "decklint: standard output: Broken pipe\n");
}

#[test]
fn a_refused_record_does_not_and_a_written_one_does() {
    let Some(mut deckpack) = command("deckpack") else { return };
    let side = folder("sides").join("side");
    fs::write(&side, [0x30, 0]).expect("a file is written");
    let refused = outcome(deckpack.args(["0", "1"]).arg(&side).arg(&side));
    assert_eq!(refused.status.code(), SAID);
    assert!(refused.stdout.is_empty());
    assert_eq!(String::from_utf8_lossy(&refused.stderr), "refused 8: the record number is 0\n");
    let Some(mut deckpack) = command("deckpack") else { return };
    let written = outcome(deckpack.args(["1", "1"]).arg(&side).arg(&side));
    assert_eq!(written.status.code(), Some(0));
    assert!(written.stdout.len() == 512 && written.stderr.is_empty());
}

#[test]
fn an_argument_of_decklint_gets_the_usage_line_and_nothing_is_read() {
    for arguments in [&["samples/night.deck"][..], &[""], &["all", "all"]] {
        let Some(mut decklint) = command("decklint") else { return };
        let mut running =
            decklint.args(arguments).stdin(Stdio::piped()).spawn().expect("bin/decklint starts");
        let open_input = running.stdin.take();
        let ended = running.wait_with_output().expect("it ends though its input does not");
        drop(open_input);
        assert_eq!(ended.status.code(), SAID, "{arguments:?}");
        assert!(ended.stdout.is_empty());
        assert_eq!(String::from_utf8_lossy(&ended.stderr), "usage: decklint < DECK\n");
    }
}

/// Where the program of the scratch repository stands.
const PROGRAM_FOLDER: &str = "crates/decklint/out";
const PROGRAM: &str = "crates/decklint/out/decklint";

/// A repository with a program, one source, and a `rt` that notes in which folder it is asked what, makes the program if
/// its status is to be 0, and ends with this status.
struct Scratch {
    root: PathBuf,
}

impl Scratch {
    fn with_status(name: &str, status: i32) -> Scratch {
        let root = folder(name);
        for inner in
            ["bin", "tools", PROGRAM_FOLDER, "crates/one/src", "crates/one/specs", "crates/one/proofs"]
        {
            fs::create_dir_all(root.join(inner)).expect("a folder is made");
        }
        fs::copy(repository().join("bin/run-program"), root.join("bin/decklint"))
            .expect("the script is there");
        let (made, program) = (root.join("tools/made"), root.join(PROGRAM));
        for copy in [&made, &program] {
            fs::copy(path_of("decklint"), copy).expect("the program is there");
        }
        fs::write(root.join("crates.txt"), "one:\n").expect("a file is written");
        fs::write(root.join("crates/one/src/lib.rt"), "").expect("a file is written");
        let note = format!("echo \"$(basename \"$PWD\"): $*\" >> '{}'", root.join("asked").display());
        let build = format!("[ {status} -ne 0 ] || cp '{}' '{}'", made.display(), program.display());
        let script = format!("#!/bin/sh\n{note}\n{build}\nexit {status}\n");
        fs::write(root.join("tools/rt"), script).expect("a file is written");
        Command::new("chmod").arg("+x").arg(root.join("tools/rt")).status().expect("chmod runs");
        let scratch = Scratch { root };
        for old in
            ["crates.txt", "crates/one/src", "crates/one/specs", "crates/one/proofs", "crates/one/src/lib.rt"]
        {
            scratch.age(old, 1000);
        }
        scratch
    }

    /// Makes a file or folder so many seconds old.
    fn age(&self, path: &str, seconds: u64) {
        let then = SystemTime::now() - Duration::from_secs(seconds);
        open(&self.root.join(path)).set_modified(then).expect("its time is set");
    }

    /// The status of `bin/decklint` on a deck of no blocks, and what it prints.
    fn list(&self) -> (Option<i32>, String) {
        let path = format!("{}:{}", self.root.join("tools").display(), env::var("PATH").unwrap_or_default());
        let ended =
            outcome(Command::new(self.root.join("bin/decklint")).env("PATH", path).stdin(Stdio::null()));
        (ended.status.code(), String::from_utf8_lossy(&ended.stdout).into_owned())
    }

    /// What `rt` was asked, a line each.
    fn asked(&self) -> String {
        fs::read_to_string(self.root.join("asked")).unwrap_or_default()
    }
}

#[test]
fn each_command_is_a_copy_of_the_script() {
    let text = |name: &str| fs::read(repository().join("bin").join(name)).expect("a script of bin");
    for name in ["decklint", "deckget", "deckpack"] {
        assert!(text(name) == text("run-program"), "bin/{name} is no copy: cp bin/run-program bin/{name}");
    }
}

#[test]
fn a_program_older_than_a_source_is_built_again_once() {
    if Program::unless_left_out("decklint", "bin").is_none() {
        return;
    }
    let empty = "records 0 blocks 0 lost 0\n".to_string();
    let scratch = Scratch::with_status("stale", 0);
    assert_eq!(scratch.list(), (Some(0), empty.clone()));
    assert_eq!(scratch.asked(), "", "a program newer than its sources is run as it is");
    scratch.age(PROGRAM, 200);
    scratch.age("crates/one/src/lib.rt", 100);
    assert_eq!(scratch.list(), (Some(0), empty.clone()));
    assert_eq!(scratch.asked(), "decklint: run\n");
    assert_eq!(scratch.list(), (Some(0), empty));
    assert_eq!(scratch.asked(), "decklint: run\n", "once it is built it is run as it is");
}

#[test]
fn a_program_that_is_not_proved_is_not_run() {
    if Program::unless_left_out("decklint", "bin").is_none() {
        return;
    }
    let scratch = Scratch::with_status("unproved", 3);
    scratch.age(PROGRAM, 2000);
    assert_eq!(scratch.list(), (Some(3), String::new()));
    assert_eq!(scratch.asked(), "decklint: run\n");
}
