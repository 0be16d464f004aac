//! The commands below `bin/`, as the caretaker runs them.

use std::env;
use std::fs::{self, File, OpenOptions};
use std::path::{Path, PathBuf};
use std::process::{self, Command, Output, Stdio};

use crate::program::Program;

/// The status of a command that spoke on standard error.
pub const SAID: Option<i32> = Some(1);

pub fn repository() -> PathBuf {
    Path::new(env!("CARGO_MANIFEST_DIR")).parent().expect("the package stands in a repository").to_path_buf()
}

/// The command of this name, with nothing on its standard input; none where the programs are left out.
pub fn command(name: &str) -> Option<Command> {
    Program::unless_left_out(name, "bin")?;
    let mut command = Command::new(repository().join("bin").join(name));
    command.stdin(Stdio::null()).stdout(Stdio::piped()).stderr(Stdio::piped());
    Some(command)
}

pub fn outcome(command: &mut Command) -> Output {
    command.output().unwrap_or_else(|error| panic!("{command:?} does not run: {error}"))
}

/// What a command said on standard error.
pub fn words(ended: &Output) -> String {
    String::from_utf8_lossy(&ended.stderr).into_owned()
}

pub fn open(path: &Path) -> File {
    File::open(path).unwrap_or_else(|error| panic!("{}: {error}", path.display()))
}

/// A disk that has no room for a single octet.
pub fn full_disk() -> File {
    OpenOptions::new().write(true).open("/dev/full").expect("the system has /dev/full")
}

/// An empty folder of this process's own.
pub fn folder(name: &str) -> PathBuf {
    let folder = env::temp_dir().join(format!("dlozamife-{}-{name}", process::id()));
    fs::remove_dir_all(&folder).ok();
    fs::create_dir_all(&folder).unwrap_or_else(|error| panic!("{}: {error}", folder.display()));
    folder
}

/// A file of these octets in the folder.
pub fn file(folder: &Path, name: &str, octets: &[u8]) -> PathBuf {
    let path = folder.join(name);
    fs::write(&path, octets).unwrap_or_else(|error| panic!("{}: {error}", path.display()));
    path
}
