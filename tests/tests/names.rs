//! One public name to one notion: no name of a public definition stands in the specifications of two crates, and no
//! name of a public function, type or constant in the code of two.

use std::collections::{BTreeMap, BTreeSet};

use comparison::sources::{self, name_after, text_of};

/// The crates that define each name.
type Owners = BTreeMap<String, BTreeSet<String>>;

fn definitions_in(text: &str) -> Vec<String> {
    sources::definitions_in(text).into_iter().map(|definition| definition.name).collect()
}

/// The public functions, types and constants of a source.
fn code_in(text: &str) -> Vec<String> {
    let kinds = ["pub fn ", "pub struct ", "pub enum ", "pub const "];
    let named = |line| kinds.iter().find_map(|kind| str::strip_prefix(line, kind));
    text.lines().filter_map(named).map(|rest| name_after(&[], rest).to_string()).collect()
}

/// Which crates define which name, in the files below this folder of each.
fn owners(folder: &str, extension: &str, names_in: fn(&str) -> Vec<String>) -> Owners {
    let mut owners = Owners::new();
    for path in sources::crates() {
        for file in sources::files_below(&path.join(folder), extension) {
            for name in names_in(&text_of(&file)) {
                owners.entry(name).or_default().insert(sources::crate_name(&path));
            }
        }
    }
    owners
}

/// The names that more than one crate defines.
fn shared(owners: &Owners) -> Vec<String> {
    let twice = owners.iter().filter(|(_, crates)| crates.len() > 1);
    twice.map(|(name, crates)| format!("{name}: {crates:?}")).collect()
}

/// Two names that are there say that the files were read at all, and rightly.
fn check_owners(what: &str, owners: &Owners, there: [&str; 2]) {
    println!("{} names of public {what}", owners.len());
    assert!(there.iter().all(|name| owners.contains_key(*name)), "the {what} are not read right");
    let shared = shared(owners);
    assert!(shared.is_empty(), "{what} of one name in several crates: {shared:#?}");
}

#[test]
fn no_definition_is_named_as_one_of_another_crate() {
    check_owners("definitions", &owners("specs", "antt", definitions_in), ["der_soundness", "Tree"]);
}

#[test]
fn no_code_is_named_as_that_of_another_crate() {
    check_owners("functions, types and constants", &owners("src", "rt", code_in), ["check_der", "Fault"]);
}

#[test]
fn names_are_told_from_fields_and_constructors() {
    let specification = "pub mod A\nabbrev pub f : ℕ → ℕ\nf n = n\n\npub record R (n : ℕ) : Type 0 where\n  pub field : ℕ\n\
        unfoldable mutual\n  -- the first\n  pub g : ℕ\n\n  pub data T : Type 0 where\n    made : T\nh : ℕ\n  pub other : ℕ\n";
    assert_eq!(definitions_in(specification), ["f", "R", "g", "T"]);
    let code = "pub fn f(a: u8) -> u8\nfn g() {\n    pub x: u8,\npub struct S {\npub const N: usize = 1;\npub use a::b;\n";
    assert_eq!(code_in(code), ["f", "S", "N"]);
}

#[test]
fn a_name_of_two_crates_is_told() {
    let crates = |names: &[&str]| names.iter().map(|name| name.to_string()).collect::<BTreeSet<String>>();
    let owners = Owners::from([("one".into(), crates(&["a"])), ("two".into(), crates(&["a", "b"]))]);
    assert_eq!(shared(&owners), ["two: {\"a\", \"b\"}"]);
}
