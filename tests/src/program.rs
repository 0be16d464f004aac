//! Running a program of this repository as a process.
//!
//! The programs are made for x86-64. Each stands in the folder `out` of its crate, where the
//! toolchain's command `rt` leaves it: `rt ci` as it was proved from nothing, `rt run` after an edit.

use std::env;
use std::io::{Read, Write};
use std::path::{Path, PathBuf};
use std::process::{Command, Stdio};
use std::sync::mpsc::{channel, Receiver};
use std::thread;
use std::time::Duration;

/// A program that was found.
pub struct Program {
    name: String,
    binary: PathBuf,
}

/// Whether the programs are to be left out, which the environment must say outright.
fn programs_are_left_out() -> bool {
    env::var("DLO_NO_PROGRAMS").is_ok_and(|value| value == "1")
}

impl Program {
    /// The program of this name, which has to be there; none, and a line that says so, where the
    /// programs are left out.
    pub fn unless_left_out(name: &str, what: &str) -> Option<Program> {
        if programs_are_left_out() {
            println!("skipped: {what} was not asked, because DLO_NO_PROGRAMS=1 leaves the programs out");
            return None;
        }
        Some(Program::find(name).unwrap_or_else(|why| panic!("{why}")))
    }

    /// The program of this name, or why it cannot be run.
    pub fn find(name: &str) -> Result<Program, String> {
        let binary = path_of(name);
        if !binary.is_file() {
            return Err(format!(
                "there is no program {}: build it first, name the folder it is in with DLO_BIN, \
                 or leave the programs out with DLO_NO_PROGRAMS=1",
                binary.display()
            ));
        }
        Ok(Program { name: name.to_string(), binary })
    }

    /// Runs the program with this on its standard input, and gives what it wrote to its standard
    /// output. It must end well, and soon.
    pub fn run(&self, arguments: &[&str], input: &[u8]) -> Vec<u8> {
        self.run_and_hear(arguments, input).0
    }

    /// The same, and what it said on its standard error.
    pub fn run_and_hear(&self, arguments: &[&str], input: &[u8]) -> (Vec<u8>, String) {
        let mut command = Command::new(&self.binary);
        command.args(arguments).stdin(Stdio::piped()).stdout(Stdio::piped()).stderr(Stdio::piped());
        let mut process =
            command.spawn().unwrap_or_else(|error| panic!("{} does not start: {error}", self.name));
        let mut stdin = process.stdin.take().expect("standard input is a pipe");
        let stdout = process.stdout.take().expect("standard output is a pipe");
        let stderr = process.stderr.take().expect("standard error is a pipe");
        let (written, said) = thread::scope(|scope| {
            // The pipes are served together: a program may write before it has read everything.
            // What it leaves unread shows in what it writes, so a closed pipe is no error here.
            scope.spawn(move || stdin.write_all(input).ok());
            let (written, said) = (reading(stdout), reading(stderr));
            let outcome = written.recv_timeout(LONGEST_RUN);
            if outcome.is_err() {
                process.kill().ok();
                panic!("{} did not end within {} seconds", self.name, LONGEST_RUN.as_secs());
            }
            (outcome.unwrap_or_default(), said.recv().unwrap_or_default())
        });
        let status = process.wait().unwrap_or_else(|error| panic!("{} does not end: {error}", self.name));
        let said = String::from_utf8_lossy(&said).into_owned();
        assert!(status.success(), "{} ended with {status}: {said}", self.name);
        (written, said)
    }
}

/// Every call ends, so a run that takes this long is a failure.
const LONGEST_RUN: Duration = Duration::from_secs(300);

/// Reads a pipe to its end beside everything else.
fn reading(mut pipe: impl Read + Send + 'static) -> Receiver<Vec<u8>> {
    let (sender, receiver) = channel();
    thread::spawn(move || {
        let mut octets = Vec::new();
        if pipe.read_to_end(&mut octets).is_ok() {
            sender.send(octets).ok();
        }
    });
    receiver
}

/// Where the program of this name is: in the folder that `DLO_BIN` names, or in `out` of its crate.
pub fn path_of(name: &str) -> PathBuf {
    match env::var_os("DLO_BIN") {
        Some(folder) => PathBuf::from(folder).join(name),
        None => repository().join("crates").join(name).join("out").join(name),
    }
}

/// The repository is the folder above this package.
fn repository() -> PathBuf {
    let package = Path::new(env!("CARGO_MANIFEST_DIR"));
    package.parent().expect("the package stands in a repository").to_path_buf()
}
