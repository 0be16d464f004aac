//! Every refusal of the linter on each side, at its place and in its order. The writer's are in `writing`.

use std::collections::BTreeMap;

use comparison::amount::cases;
use comparison::calls::shown_sides;
use comparison::correct::{correct, plain, refusal, Case};
use comparison::element::Element;
use comparison::entries::{entry, ENTRY};
use comparison::faults::{catalogue, densest};
use comparison::hex;
use comparison::holding::{octets_needed, Comparison};
use comparison::linters::Linters;
use comparison::malformed::{malformed, with_a_broken_time, with_every_field};
use comparison::profile::ALL;
use comparison::random::Random;
use comparison::records::refused;
use reference::{lint, report_octets, Answer, Entry, Level};

/// How often each refusal was met, by number and side.
type Met = BTreeMap<(u8, u8), usize>;

/// A pair with one side put in place of a good one, and the refusal that its marks call for.
fn case_with(profile: u8, side: u8, tree: &Element) -> Case {
    let good = plain(profile).encode();
    let encoded = tree.encode();
    let expected = Answer::Refused(refusal(&encoded, side));
    match side {
        1 => Case { certificate: encoded.octets, expected, ..good },
        _ => Case { issuer: encoded.octets, expected, ..good },
    }
}

#[test]
fn every_refusal_is_met_on_every_side() {
    let mut met = Met::new();
    malformed_certificates(&mut met);
    sizes_and_profiles(&mut met);
    order(&mut met);
    rooms(&mut met);
    println!("refusal  side  met");
    for ((number, side), count) in &met {
        println!("{number:>7}  {side:>4}  {count}");
    }
    let every = [(1, 1), (2, 2), (3, 0), (4, 1), (4, 2), (5, 1), (5, 2), (6, 1), (6, 2), (7, 0)];
    assert!(met.keys().eq(&every), "not {every:?} were met (number, side)");
}

fn malformed_certificates(met: &mut Met) {
    let mut linters = Linters::of("malformed certificates, one by one, on both sides");
    for profile in ALL {
        let pair = plain(*profile);
        for (side, certificate) in [(1, pair.certificate), (2, pair.issuer)] {
            for item in malformed(&with_every_field(certificate)) {
                let case = case_with(*profile, side, &item.tree);
                linters.hold(&format!("side {side}, {}", item.what), &case);
                *met.entry((item.number, side)).or_default() += 1;
            }
        }
    }
    linters.finish();
}

/// Two sides that are refused in a profile, with the refusal's number and side, at place 0.
type RefusedSides<'a> = (&'a [u8], &'a [u8], u8, (u8, u8));

fn hold_sides(what: &str, cases: &[RefusedSides], met: &mut Met) {
    let mut linters = Linters::of(what);
    for (certificate, issuer, profile, (number, side)) in cases {
        let (certificate, issuer) = (certificate.to_vec(), issuer.to_vec());
        let case = Case { profile: *profile, certificate, issuer, expected: refused(*number, *side, 0) };
        linters.hold(what, &case);
        *met.entry((*number, *side)).or_default() += 1;
    }
    linters.finish();
}

fn sizes_and_profiles(met: &mut Met) {
    let Case { certificate, issuer, .. } = &plain(1).encode();
    let octet_string = |length: usize| Element::octet_string(&vec![0; length - 4]).octets();
    let (longest, over) = (&octet_string(8192), &octet_string(8193));
    assert_eq!((longest.len(), over.len()), (8192, 8193));
    let mut cases: Vec<RefusedSides> = vec![
        (&[], issuer, 1, (1, 1)),
        (over, issuer, 1, (1, 1)),
        (longest, issuer, 1, (6, 1)),
        (certificate, &[], 1, (2, 2)),
        (certificate, over, 1, (2, 2)),
        (certificate, longest, 1, (6, 2)),
        (over, over, 9, (1, 1)),
    ];
    let unknown = (0..=255).filter(|profile| !ALL.contains(profile));
    cases.extend(unknown.map(|profile| (&certificate[..], &issuer[..], profile, (3, 0))));
    hold_sides("wrong sizes and profiles", &cases, met);
}

fn order(met: &mut Met) {
    let certificate = &plain(1).encode().certificate[..];
    let (unsound, unordered, empty) = (&[0x30], &hex::octets("31 06 02 01 02 02 01 01"), &[0x30, 0]);
    let cases: [RefusedSides; 10] = [
        // 1 before 2 before 3 before 4
        (&[], &[], 0, (1, 1)),
        (certificate, &[], 0, (2, 2)),
        (unsound, unsound, 0, (3, 0)),
        (unsound, unsound, 1, (4, 1)),
        // the certificate's 4, 5 and 6 before the issuer's
        (unordered, unsound, 1, (5, 1)),
        (empty, unsound, 1, (6, 1)),
        (empty, unordered, 1, (6, 1)),
        (certificate, unsound, 1, (4, 2)),
        (certificate, unordered, 1, (5, 2)),
        (certificate, empty, 1, (6, 2)),
    ];
    hold_sides("refusals in their order", &cases, met);
}

fn rooms(met: &mut Met) {
    let mut comparison = Comparison::of("reports in rooms of every length around their own");
    let mut random = Random::for_purpose("rooms");
    let faults = catalogue();
    for _ in 0..300 {
        let profile = *random.choose(ALL);
        let mut pair = correct(profile, &mut random);
        let fault = random.choose(&faults);
        if fault.exists_in(profile) {
            fault.apply(&mut pair, &mut random);
        }
        let case = pair.encode();
        assert!(matches!(case.expected, Answer::Report(_)), "a single fault is not refused");
        let needed = octets_needed(&case.expected);
        for room in needed.saturating_sub(ENTRY + 1)..=needed + ENTRY + 1 {
            let expected = if room < needed { refused(7, 0, 0) } else { case.expected.clone() };
            if room < needed {
                *met.entry((7, 0)).or_default() += 1;
            }
            let answered = lint(&case.certificate, &case.issuer, profile, room);
            comparison.hold("a room", &expected, &answered, || {
                format!("room {room}, {}", shown_sides(profile, &case.certificate, &case.issuer))
            });
        }
    }
    comparison.finish();
}

#[test]
fn a_broken_time_is_refused_wherever_it_breaks() {
    let mut linters = Linters::of("times with one octet spoiled");
    let mut random = Random::for_purpose("broken times");
    for _ in 0..cases(2000) {
        let profile = *random.choose(ALL);
        let side = random.between(1, 2) as u8;
        let pair = plain(profile);
        let tree = with_a_broken_time(if side == 1 { &pair.certificate } else { &pair.issuer }, &mut random);
        linters.hold("a spoiled time", &case_with(profile, side, &tree));
    }
    linters.finish();
}

#[test]
fn an_entry_is_four_pairs_of_octets_high_first() {
    let should = Entry { level: Level::Should, ..entry(419, 0x1234, 0x0567) };
    let entries = [entry(104, 13, 3), should];
    assert_eq!(report_octets(&entries), hex::octets("0068 000D 0003 0001 01A3 1234 0567 0002"));
    assert_eq!(report_octets(&[]), Vec::<u8>::new());
}

/// The plain pair of profile 1 with a signature that makes one side exactly this long.
fn of_length(side: u8, length: usize) -> Case {
    let mut pair = plain(1);
    let certificate = if side == 1 { &mut pair.certificate } else { &mut pair.issuer };
    certificate.lengthen_to(length);
    pair.encode()
}

#[test]
fn certificates_of_8192_octets_are_judged_and_longer_ones_refused() {
    let mut linters = Linters::of("certificates around the most octets");
    for side in [1, 2] {
        linters.hold("8,192 octets", &of_length(side, 8192));
        let longer = Case { expected: refused(side, side, 0), ..of_length(side, 8193) };
        linters.hold("8,193 octets", &longer);
    }
    linters.finish();
}

#[test]
fn the_densest_report_is_whole() {
    let mut linters = Linters::of("certificates with as many findings as fit");
    let case = densest(1).encode();
    assert!((8000..=8192).contains(&case.certificate.len()), "{} octets", case.certificate.len());
    let Answer::Report(entries) = &case.expected else { panic!("it is a report") };
    assert!(entries.len() > 4500, "{} entries", entries.len());
    linters.hold("dense", &case);
    let short = lint(&case.certificate, &case.issuer, 1, octets_needed(&case.expected) - 1);
    assert_eq!(short, refused(7, 0, 0));
    linters.finish();
}
