//! Which rule is judged in which profile, and at which level: the table by numbers that the proofs stand on, the rows in
//! which each rule has its profiles beside its number, the page for readers, and the tests' own list say the same.

use std::collections::BTreeMap;

use comparison::entries::level_word;
use comparison::{profile, sources};

/// Of each rule its level, as a finding's line has it, and the profiles that judge it.
type Table = BTreeMap<u16, (String, Vec<u8>)>;
/// Of each rule the profiles that judge it.
type Profiles = BTreeMap<u16, Vec<u8>>;

fn text_of(name: &str) -> String {
    sources::text_of(&sources::repository().join(name))
}

fn enter<Row>(table: &mut BTreeMap<u16, Row>, rule: u16, row: Row) {
    let before = table.insert(rule, row);
    assert!(before.is_none(), "rule {rule} stands in the table twice");
}

/// The profiles that words such as `2 ∷ O` say, with the names as a definition's text has them: `O = 3 ∷ []`.
fn profiles_in(text: &str, words: &str) -> Vec<u8> {
    let mut profiles = Vec::new();
    for word in words.trim_matches(['(', ')']).split(" ∷ ").filter(|word| *word != "[]") {
        let named = || text.lines().find_map(|line| line.strip_prefix(word)?.strip_prefix(" = "));
        match word.parse() {
            Ok(number) => profiles.push(number),
            Err(_) => {
                profiles.extend(profiles_in(text, named().unwrap_or_else(|| panic!("no profile: {word}"))))
            }
        }
    }
    profiles
}

/// Rows such as `104 for O ⦂ rule104 c` in the definitions of rules.
fn written(text: &str, judged: &str, table: &mut Profiles) {
    for piece in text.split(" ⦂ ") {
        let Some((head, words)) = piece.rsplit_once(" for ") else { continue };
        let number = head.rsplit(char::is_whitespace).next().and_then(|word| word.parse().ok());
        if let Some(rule) = number {
            enter(table, rule, profiles_in(judged, words));
        }
    }
}

/// Rows such as `(104, Must, O)` of the table by numbers.
fn defined(text: &str) -> Table {
    let mut table = Table::new();
    let (_, rows) = text.split_once("\nrule_table =\n").expect("the definition of the table");
    for line in rows.lines().map(str::trim).take_while(|line| *line != "∷ []") {
        let Some((_, row)) = line.split_once('(').filter(|_| !line.starts_with("--")) else { continue };
        let row = row.strip_suffix(')').expect("a row ends");
        let mut words = row.splitn(3, ", ");
        let mut word = || words.next().expect("a row has a rule, its level and its profiles");
        let (rule, level, profiles) = (word(), word().to_lowercase(), word());
        enter(&mut table, rule.parse().expect("a rule"), (level, profiles_in(text, profiles)));
    }
    table
}

/// The rules that the first column of the page names: `104`, `102, 103` or `105 to 115`.
fn rules_of(words: &str) -> Vec<u16> {
    let number = |word: &str| word.trim().parse::<u16>().expect("a rule");
    match words.split_once(" to ") {
        Some((first, last)) => (number(first)..=number(last)).collect(),
        None => words.split(", ").map(number).collect(),
    }
}

/// The table of docs/RULES.md.
fn printed(text: &str) -> Table {
    let mut table = Table::new();
    let (_, section) = text.split_once("## Which rule is judged in which profile").expect("the section");
    let rows = section.lines().skip_while(|line| !line.starts_with("|---")).skip(1);
    for line in rows.take_while(|line| line.starts_with('|')) {
        let cells: Vec<&str> = line.trim_matches('|').split('|').map(str::trim).collect();
        let profiles: Vec<u8> =
            (1..).zip(&cells[2..]).filter(|(_, cell)| **cell == "x").map(|(p, _)| p).collect();
        for rule in rules_of(cells[0]) {
            enter(&mut table, rule, (cells[1].to_string(), profiles.clone()));
        }
    }
    table
}

/// The rules that some profile judges.
fn judged(table: Table) -> Table {
    table.into_iter().filter(|(_, (_, profiles))| !profiles.is_empty()).collect()
}

#[test]
fn the_page_and_the_tests_agree() {
    let mut own = Table::new();
    for number in profile::ALL {
        for rule in profile::existing_rules(*number) {
            let level = level_word(profile::level_of(rule)).to_string();
            own.entry(rule).or_insert((level, Vec::new())).1.push(*number);
        }
    }
    let pairs: usize = own.values().map(|(_, profiles)| profiles.len()).sum();
    println!("{} rules, {pairs} pairs of rule and profile", own.len());
    assert_eq!(judged(printed(&text_of("docs/RULES.md"))), own, "docs/RULES.md and the tests' own list");
}

#[test]
fn the_definition_and_the_page_agree() {
    let definition = defined(&text_of("crates/profiles/specs/Judged.antt"));
    let page = printed(&text_of("docs/RULES.md"));
    assert_eq!(definition, page, "crates/profiles/specs/Judged.antt and docs/RULES.md");
}

#[test]
fn every_rule_has_its_profiles_beside_its_number() {
    let judged = text_of("crates/profiles/specs/Judged.antt");
    let mut rows = Profiles::new();
    for group in ["rules_fields", "rules_subject", "rules_key", "rules_extensions", "rules_values"] {
        let specs = sources::repository().join("crates").join(group).join("specs");
        for file in sources::files_below(&specs, "antt") {
            written(&sources::text_of(&file), &judged, &mut rows);
        }
    }
    // 301 to 351 have theirs from the table of extensions, by slot
    let by_number: Profiles = defined(&judged)
        .into_iter()
        .filter(|(rule, _)| !(301..=351).contains(rule))
        .map(|(rule, (_, profiles))| (rule, profiles))
        .collect();
    println!("{} rules have their profiles beside their numbers", rows.len());
    assert_eq!(rows, by_number, "the rows of the rules and crates/profiles/specs/Judged.antt");
}
