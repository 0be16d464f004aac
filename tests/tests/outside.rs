//! Certificates that nobody here made, under all profiles.

use std::collections::BTreeMap;

use comparison::amount::say;
use comparison::correct::plain;
use comparison::hex;
use comparison::holding::{rules_of, AMPLE_ROOM};
use comparison::invariants::answer_held_to_invariants;
use comparison::outside::{self, Outside};
use comparison::profile::ALL;
use reference::{lint, read_deck, write_record, Answer, Event};

/// The only certificates that are refused, all with 6: the octets that the place starts with, and
/// why.
const REFUSED: [(&str, &str, &str); 4] = [
    ("badasn1time.pem", "17 0F 31 39 30 32", "notAfter is the UTCTime 19020701025736Z"),
    ("cryptography-scts-tbs-precert.der", "A0 03 02 01 02", "a TBS structure without a certificate"),
    ("custom/invalid_version.pem", "02 01 07", "the version is 7"),
    ("ed25519/ed25519-rfc8410.pem", "01 01 00 04 04 03 02 03 08", "critical is written FALSE"),
];

/// Where these octets stand first.
fn position_of(wanted: &[u8], octets: &[u8]) -> usize {
    let mut windows = octets.windows(wanted.len());
    windows.position(|window| window == wanted).expect("the octets are there")
}

/// The answer under each profile, with the certificate as its own issuer and with a generated one.
fn answers(item: &Outside) -> Vec<Answer> {
    let generated = plain(1).encode().issuer;
    let mut answers = Vec::new();
    for profile in ALL {
        for issuer in [&item.octets, &generated] {
            let answer = answer_held_to_invariants(&item.octets, issuer, *profile);
            answers.push(answer.unwrap_or_else(|why| panic!("{}: {why}", item.name)));
        }
    }
    answers
}

#[test]
fn every_outside_certificate_is_answered_within_the_rules() {
    let items = outside::certificates();
    let mut kinds: BTreeMap<String, usize> = BTreeMap::new();
    let mut rules: BTreeMap<u16, usize> = BTreeMap::new();
    let mut refused = Vec::new();
    for item in &items {
        for answer in answers(item) {
            for rule in rules_of(&answer) {
                *rules.entry(rule).or_default() += 1;
            }
            let kind = match &answer {
                Answer::Refused(refusal) => {
                    refused.push((item.name.clone(), refusal.number, refusal.side, refusal.place));
                    format!("refused {}", refusal.number)
                }
                Answer::Report(_) => "findings".to_string(),
            };
            *kinds.entry(kind).or_default() += 1;
        }
    }
    say("outside certificates, under every profile and two issuers each", items.len() * ALL.len() * 2);
    println!("answers: {kinds:?}\nentries by rule: {rules:?}");
    refused.dedup();
    let expected = REFUSED.map(|(name, start, _)| {
        let item = items.iter().find(|item| item.name == name).expect("it is among them");
        (name.to_string(), 6, 1, position_of(&hex::octets(start), &item.octets))
    });
    assert_eq!(refused, expected);
    assert!(items.len() > 600, "only {} outside certificates", items.len());
}

#[test]
fn revocation_lists_and_other_structures_are_no_certificates() {
    let lists = outside::revocation_lists();
    for item in &lists {
        for answer in answers(item) {
            // A list has a time where a certificate has its validity, if not another difference
            // before.
            assert!(
                matches!(&answer, Answer::Refused(refusal) if refusal.number == 6 && refusal.side == 1),
                "{}: {answer:?}",
                item.name
            );
        }
    }
    let others = outside::not_certificates();
    for item in &others {
        for answer in answers(item) {
            assert!(
                matches!(&answer, Answer::Refused(refusal) if refusal.side == 1),
                "{}: {answer:?}",
                item.name
            );
        }
    }
    let structures = lists.len() + others.len();
    say(
        "outside structures that are no certificates, under every profile and two issuers each",
        structures * ALL.len() * 2,
    );
}

#[test]
fn roots_are_their_own_issuers() {
    let roots = outside::authorities();
    for item in &roots {
        for profile in ALL {
            let answer = lint(&item.octets, &item.octets, *profile, AMPLE_ROOM);
            let Answer::Report(_) = &answer else { panic!("{}: {answer:?}", item.name) };
            assert!(!rules_of(&answer).contains(&108), "{}: a root's issuer is its subject", item.name);
            // Of the profiles that a root does not fit, even the longest ends after ten years.
            assert!(rules_of(&answer).contains(&111), "{}: a root is valid for years", item.name);
        }
    }
    say("roots as their own issuers, under every profile", ALL.len() * roots.len());
}

#[test]
fn outside_certificates_pass_through_a_deck() {
    let items = outside::certificates();
    for (position, item) in items.iter().enumerate() {
        let number = position as u32 + 1;
        let issuer = &items[(position + 1) % items.len()].octets;
        let profile = ALL[position % ALL.len()];
        let deck =
            write_record(number, profile, &item.octets, issuer, AMPLE_ROOM).expect("the record is good");
        let answer = lint(&item.octets, issuer, profile, AMPLE_ROOM);
        let (certificate, issuer) = (item.octets.clone(), issuer.clone());
        let event = Event::Record { block: 0, number, profile, certificate, issuer, answer };
        assert_eq!(read_deck(&deck, AMPLE_ROOM), vec![event], "{}", item.name);
    }
    say("outside certificates through a deck", items.len());
}
