//! How the gate reads what the checker said of a must-fail edit: which first errors are at a fact, and which tell of something else.

use std::path::{Path, PathBuf};
use std::process::{self, Command};
use std::{env, fs};

/// What the checker prints where a fact fails.
const AT_A_FACT: &[&str] = &[
    "./proofs/f/Answers.antt:9:4: error: `returns`: expected type `h ≤ 16`, but this has type `h ≤ 17`",
    "./proofs/f/Answers.antt:9:4: error: `f-lem`: the two types differ only where one has `4`\n  expected type `x ≡ 4`\n  but this has type `x ≡ 5`",
    "./proofs/f/Answers.antt:9:4: error: `returns`: as printed, the two types first differ where one has `4` (expected), right after `≡`\n  and the other has `5` (found)",
    "./proofs/f/Answers.antt:9:4: error: `returns`: computed as far as they go, the two types differ only where one has `4` (expected) and the other has `5` (found)",
    "./proofs/f/Answers.antt:9:4: error: `loop-i-init`: computed as a goal is, one side reads `Rest 1`\n  (expected)\n  computed as a goal is, one side reads `Rest 2`",
    "./proofs/f/Answers.antt:9:4: error: `returns`: give a proof of that as the last argument, `rw L t`\n  `rw` has no last argument, so what it leaves must be a path whose two ends are equal",
    "./proofs/f/Answers.antt:9:4: error: `returns`: on the face `i = 0` this λ's body is `a && b`\n  but the extension (path) type requires `a || b`",
    "./proofs/f/Answers.antt:9:4: error: `returns`: list the missing equation\n  `cc`: the equations do not join `a and b` to `false`, by congruence",
    "./proofs/f/Answers.antt:9:4: error: `returns`: `omega`: the goal does not follow from what it read. All of that holds",
    "./proofs/f/Answers.antt:9:4: error: `f-lem`: `omega`: the part `.0` of the goal does not follow from what it read.",
    "./proofs/f/Answers.antt:9:4: error: `returns`: `search`: no proof of `x ≡ 4`\n  was found.",
    "fn f: proved\nnote: src/f.rt:14:1: it is not proved that what the function ensures holds when it returns (`returns`)",
    "./proofs/Laws/A.antt:43:5: error: 4 declarations that depend on `close`, which was not admitted, were not checked: a, b, c and 1 more\n\
     ./proofs/f/Answers.antt:9:4: error: `returns`: expected type `x ≡ 4`, but this has type `x ≡ 5`",
    "./proofs/f/Answers.antt:9:4: error: `returns-then-b-le90`: `goal.returns-then-b-le90`: module `Rattle.p.proofs.f.Goals` has no `returns-then-b-le90` that can be named from here\n\
     note: src/f.rt:14:1: it is not proved that what the function ensures holds when it returns (`returns-then-b-lt90`); the facts known there allow values at which this goal is false",
];

/// What it prints where the edit is no wrong answer, but one that the proof was not written for, or that cannot be read.
const AT_NO_FACT: &[&str] = &[
    "./proofs/f/Answers.antt:9:4: error: `returns-then-i`: `goal.returns-then-i`: module `Rattle.p.proofs.f.Goals` has no `returns-then-i` that can be named from here",
    "./proofs/f/Answers.antt:9:4: error: `returns`: record `Rattle.p.proofs.f.Lts.Then1` has no field `args`",
    "./proofs/f/Answers.antt:9:4: error: `returns`: `rw`: no occurrence of the path's left endpoint in the hypothesis's type: write it",
    "./proofs/f/Answers.antt:9:4: error: `returns`: `leb_some` is not in scope; did you mean `leb_same`?",
    "./proofs/f/Answers.antt:9:4: error: `f-lem`: expected type `Rattle.p.proofs.f.Goals.returns`, but this has type `Rattle.p.proofs.f.Goals.returns-2`",
    "./proofs/f/Answers.antt:9:4: error: `f-lem`: expected type `f.Lts.Closed Pre Post ?0`\n  but this has type `Rattle.p.proofs.f.Goals.returns-2 → f.Lts.Closed Pre`",
    "./proofs/f/Answers.antt:9:4: error: `f-lem`: this λ has 2 binders, but its type has room for only 1: at `κs` the type is `x`",
    "./proofs/f/Answers.antt:20:1: error: the `(` at 19:23 is never closed (reached end of file)",
    "specs/F.antt:8:20: error: `octet_at`: expected type `List`, but this has type `ℕ`",
    "./proofs/f/Answers.antt:9:4: error: `returns`: stopped at the step limit",
    "fn f: not proved",
    "./proofs/f/Answers.antt:9:4: error: `returns`: `x` is not in scope\n./proofs/f/Answers.antt:12:4: error: `g`: `search`: no proof of `x ≡ 4`",
    "./proofs/f/Answers.antt:9:4: error: `returns`: record `Rattle.p.proofs.f.Lts.Then1` has no field `args`\n\
     note: src/f.rt:14:1: it is not proved that what the function ensures holds when it returns (`returns`); `search` gave up at one of its limits",
    "it cannot be made: `x` stands in src/f.rt 0 times, and not once",
];

/// What `rt` prints of an edit that is refused at a fact, as far as it goes.
const LINES_AT_A_FACT: &[&str] = &[
    "refused, as it must be: note: src/f.rt:27:1: it is not proved that what the function ensures holds when it returns (`returns-else-b-lt90`); the facts known there allow values a",
    "refused, as it must be: ./proofs/f/Answers.antt:8:40: error: `returns-else-i-s`: as printed, the two types differ only where one has `1` (expected), right after `mathlib.Co",
    "refused, as it must be: ./proofs/f/Answers.antt:5:13: error: `returns`: give a proof of that as the last argument, `rw L t` (`rw L ?` shows it as a hole's goal), or ",
];

/// What it prints of others.
const LINES_AT_NO_FACT: &[&str] = &[
    "refused, as it must be",
    "refused, as it must be: ./proofs/f/Answers.antt:8:40: error: `returns`: `rw`: no occurrence of the path's left endpoint in the hypothesis's type: wr",
    "refused, as it must be (only because a proof file names what the edit took away, so this says little of the contract: change a value and keep the names): \
     ./proofs/f/Answers.antt:8:40: error: `returns`: expected type `x ≡ 4`, but this has type",
    "refused, as it must be (only by a limit of the prover, which gave no verdict, so this says less of the contract: choose a change that it refuses sooner): x",
    "BAD EDIT: an 'old:' text is in specs/Elements.antt 0 times, and not once",
    "NOT REFUSED: the crate is still proved with this edit (one that means the same as before cannot be refused: remove it)",
    "NOT TRIED: its check ended with status 2, so nothing is known of it: run this again",
];

/// What the tool says of this folder or file, and whether it takes the edits; it is removed then.
fn ended(path: &Path) -> (bool, String) {
    let script = Path::new(env!("CARGO_MANIFEST_DIR")).join("../tools/refused_at_facts");
    let ended =
        Command::new(&script).arg(path).output().unwrap_or_else(|e| panic!("{}: {e}", script.display()));
    fs::remove_dir_all(path).or_else(|_| fs::remove_file(path)).ok();
    (ended.status.success(), String::from_utf8_lossy(&ended.stdout).into_owned())
}

fn scratch(name: &str) -> PathBuf {
    env::temp_dir().join(format!("dlozamife-{}-{name}", process::id()))
}

/// Whether the edits with these logs are taken, and what is printed of them.
fn judged(name: &str, logs: &[&str]) -> (bool, String) {
    let folder = scratch(name);
    fs::create_dir_all(&folder).expect("a folder of logs");
    for (k, log) in logs.iter().enumerate() {
        let edit = folder.join("crate").join(format!("edit{k}"));
        fs::create_dir_all(&edit).expect("a folder of a log");
        fs::write(edit.join(".log"), format!("{log}\nlogic=not-proved\n")).expect("a log");
    }
    ended(&folder)
}

/// The same of edits of which `rt` prints these words, among others of its own, as the gate takes them.
fn judged_lines(name: &str, words: &[&str]) -> (bool, String) {
    let file = scratch(name);
    let lines =
        words.iter().enumerate().map(|(k, word)| format!("rt: must-fail crate/edit{k}.edit: {word}\n"));
    fs::write(&file, format!("== crate\n{}1 passed, 0 failed\n", lines.collect::<String>())).expect("a file");
    ended(&file)
}

/// Each of so many edits was refused at a fact, and the tool says so.
fn all_taken((taken, said): (bool, String), edits: usize) {
    assert_eq!(said, format!("{edits} edits refused at a fact, 0 not\n"));
    assert!(taken);
}

/// None of so many was, and the tool says so of each.
fn all_told((taken, said): (bool, String), edits: usize) {
    assert!(!taken);
    assert_eq!(said.lines().filter(|line| line.contains("not refused at a fact")).count(), edits, "{said}");
}

#[test]
fn errors_at_facts_are_taken() {
    all_taken(judged("facts", AT_A_FACT), AT_A_FACT.len());
}

#[test]
fn other_errors_are_told() {
    all_told(judged("no-facts", AT_NO_FACT), AT_NO_FACT.len());
}

#[test]
fn one_other_error_among_many_is_told() {
    let logs: Vec<&str> = AT_A_FACT.iter().chain(&AT_NO_FACT[2..3]).copied().collect();
    let (taken, said) = judged("one-no-fact", &logs);
    assert!(!taken && said.contains("a rewriting that finds nothing"), "{said}");
}

#[test]
fn lines_of_errors_at_facts_are_taken() {
    all_taken(judged_lines("facts-said", LINES_AT_A_FACT), LINES_AT_A_FACT.len());
}

#[test]
fn lines_of_other_errors_and_of_edits_that_are_amiss_are_told() {
    all_told(judged_lines("no-facts-said", LINES_AT_NO_FACT), LINES_AT_NO_FACT.len());
}

#[test]
fn no_logs_are_no_evidence() {
    assert!(!judged("no-logs", &[]).0);
    assert!(!judged_lines("no-lines", &[]).0);
}
