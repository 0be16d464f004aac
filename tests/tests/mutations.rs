//! Certificates changed by chance: every call ends, and what is true of all answers is true of
//! these.

use std::collections::BTreeMap;

use comparison::amount::{cases, say};
use comparison::calls::{kind_of, shown_sides};
use comparison::holding::rules_of;
use comparison::invariants::answer_held_to_invariants;
use comparison::mutants::Mutants;

#[test]
fn mutated_certificates_are_answered_within_the_rules() {
    let count = cases(20_000);
    let mut answers: BTreeMap<String, usize> = BTreeMap::new();
    let mut rules: BTreeMap<u16, usize> = BTreeMap::new();
    for mutant in Mutants::new("mutants").take(count) {
        let answer = answer_held_to_invariants(&mutant.certificate, &mutant.issuer, mutant.profile);
        let answer = answer.unwrap_or_else(|why| {
            panic!("{why}\n  {}", shown_sides(mutant.profile, &mutant.certificate, &mutant.issuer))
        });
        for rule in rules_of(&answer) {
            *rules.entry(rule).or_default() += 1;
        }
        *answers.entry(kind_of(&answer)).or_default() += 1;
    }
    say("mutated certificates, held to what is true of all answers", count);
    println!("answers: {answers:?}");
    println!("entries by rule: {rules:?}");
    // Were every mutant refused, the comparison of two linters on them would say little.
    for kind in [
        "no finding",
        "findings",
        "refused 4 side 1",
        "refused 6 side 1",
        "refused 4 side 2",
        "refused 6 side 2",
    ] {
        assert!(answers.contains_key(kind), "no mutant was answered with {kind:?}");
    }
}
