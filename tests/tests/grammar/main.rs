//! Certificates and extension values told from what is none: the program `answers` against the
//! reference, and both against what the encoder and the rules on paper say.

mod certificates;
mod values;

use std::sync::OnceLock;

use comparison::amount::{cases, say};
use comparison::answers::{kind_of_value, Family, Frame, Question, Questioning, Tally};
use comparison::bad_values::{bad_values, edge_values, fullest_value, nested_other_name};
use comparison::certificate::{node, Certificate};
use comparison::correct::{
    correct, plain, plain_value, refusal, set_extension, shortest, shortest_with_every_field, Pair,
};
use comparison::element::{octets_of, Element, Mark, Part};
use comparison::faults::catalogue;
use comparison::grammar::{ByHand, CERTIFICATES_BY_HAND, VALUES_BY_HAND};
use comparison::hex;
use comparison::holding::{rules_of, Comparison, AMPLE_ROOM};
use comparison::malformed::{malformed, with_a_broken_time, with_every_field};
use comparison::mutants::{outside_whole_and_mutated, whole_and_mutated, Mutants};
use comparison::mutation::*;
use comparison::profile::{any_slot, identifier_of, judging_profile, standing, ALL, SLOTS};
use comparison::random::Random;
use comparison::times::times_at_their_edges;
use comparison::trees::{tree, value_like};
use reference::{lint, Answer, Refusal};

/// The question whether octets are a certificate. The questions about values go by their
/// extensions.
const CERTIFICATE: u8 = 0;

/// The most octets that a certificate may have.
const MOST_OCTETS: usize = 8192;

// What is expected of the program

fn expected(frame: &Frame) -> Option<String> {
    match frame.kind {
        CERTIFICATE => expected_of_certificate(&frame.octets),
        kind => expected_of_value(slot_of(kind)?, &frame.octets),
    }
}

/// The extension whose values are asked about by frames of this kind.
fn slot_of(kind: u8) -> Option<u8> {
    SLOTS.into_iter().find(|slot| kind_of_value(*slot) == kind)
}

fn expected_of_certificate(octets: &[u8]) -> Option<String> {
    if octets.is_empty() || octets.len() > MOST_OCTETS {
        return None;
    }
    match lint(octets, octets, 1, AMPLE_ROOM) {
        Answer::Refused(refusal) if refusal.side == 1 => Some(line_of(&refusal)),
        _ => Some("certificate".to_string()),
    }
}

fn line_of(refusal: &Refusal) -> String {
    let verdict = match refusal.number {
        4 => "unsound",
        5 => "unordered",
        6 => "departs",
        number => panic!("refusal {number} says nothing about grammar"),
    };
    format!("{verdict} at {}", refusal.place)
}

/// Octets are a value if the linter does not find fault with it in a certificate that holds them.
fn expected_of_value(slot: u8, octets: &[u8]) -> Option<String> {
    let holder = holder(slot);
    let certificate = holder.with_value(octets);
    if certificate.len() > MOST_OCTETS {
        return None;
    }
    let answer = lint(&certificate, &holder.issuer, holder.profile, AMPLE_ROOM);
    assert!(matches!(answer, Answer::Report(_)), "what an extension holds is no ground for refusal");
    let is_broken = rules_of(&answer).contains(&(340 + u16::from(slot)));
    Some(line_of_value(!is_broken).to_string())
}

fn line_of_value(is_value: bool) -> &'static str {
    if is_value {
        "value"
    } else {
        "no value"
    }
}

/// A correct certificate whose first extension can be given any value, and its issuer.
struct Holder {
    profile: u8,
    certificate: Element,
    issuer: Vec<u8>,
}

impl Holder {
    fn of(slot: u8) -> Holder {
        let profile = judging_profile(slot);
        let mut pair = plain(profile);
        set_extension(&mut pair, slot, plain_value(slot, profile));
        let identifier = identifier_of(slot);
        pair.certificate.extensions.sort_by_key(|extension| extension.identifier != identifier);
        let case = pair.encode();
        assert_eq!(lint(&case.certificate, &case.issuer, profile, AMPLE_ROOM), Answer::Report(vec![]));
        let certificate = pair.certificate.element().encoded_around(node::EXTENSION_VALUE);
        assert_eq!(certificate.octets(), case.certificate);
        Holder { profile, certificate, issuer: case.issuer }
    }

    fn with_value(&self, octets: &[u8]) -> Vec<u8> {
        let mut certificate = self.certificate.clone();
        certificate.find(node::EXTENSION_VALUE).set_octets(octets);
        certificate.octets()
    }
}

fn holder(slot: u8) -> &'static Holder {
    static HOLDERS: OnceLock<Vec<Holder>> = OnceLock::new();
    let holders = HOLDERS.get_or_init(|| SLOTS.map(Holder::of).collect());
    &holders[usize::from(slot) - 1]
}

fn by_hand(items: ByHand) -> impl Iterator<Item = Question> {
    items.iter().map(|(asked, octets, line)| {
        let kind = if *asked == 0 { CERTIFICATE } else { kind_of_value(*asked) };
        Question::with_line(Frame::of_kind(kind, hex::octets(octets)), line)
    })
}

#[test]
fn the_reference_agrees_with_what_is_due() {
    for family in certificates::judged().into_iter().chain(values::judged()) {
        let mut comparison = Comparison::of(&format!("lines due, reference: {}", family.what));
        for (frame, due) in family.judged() {
            comparison.hold("a line", &Some(due), &expected(&frame), || frame.shown());
        }
        comparison.finish();
    }
}

#[test]
fn the_program_tells_certificates_as_the_reference_does() {
    let tally = ask(&[certificates::judged, certificates::open]);
    hold_tally(tally, [CERTIFICATE], &["certificate", "departs", "unordered", "unsound"]);
}

#[test]
fn the_program_tells_values_as_the_reference_does() {
    let tally = ask(&[values::judged, values::open]);
    hold_tally(tally, SLOTS.map(kind_of_value), &["no", "value"]);
}

/// Asks the program all questions of these lists, each made when its turn comes; nothing where the
/// programs are left out.
fn ask(lists: &[fn() -> Vec<Family>]) -> Option<Tally> {
    let mut questioning = Questioning::of("answers", expected)?;
    let mut whole = Tally::default();
    for family in lists.iter().flat_map(|families| families()) {
        let what = family.what;
        let tally = questioning.ask(family);
        say(&format!("frames: {what}"), tally.frames());
        whole.add(&tally);
    }
    questioning.finish();
    Some(whole)
}

/// Says how many frames of each kind were compared, and fails if an answer was never met.
fn hold_tally(tally: Option<Tally>, kinds: impl IntoIterator<Item = u8>, all: &[&str]) {
    let Some(tally) = tally else { return };
    for kind in kinds {
        let answers = tally.answers(kind);
        say(&format!("frames of kind {kind}: {answers:?}"), answers.values().sum());
        assert_eq!(answers.keys().copied().collect::<Vec<_>>(), all, "kind {kind}: answers met");
    }
}
