//! The proved linter against the reference, whole answers and whole rooms, on what the other tests
//! do not hold to the rules on paper: faulty certificates under every profile, chance changes,
//! outside certificates, refusals in every combination, and rooms and issuers of every kind.

use std::collections::BTreeSet;

use comparison::amount::{cases, say};
use comparison::calendar::{days_of_month, Fields, Moment, DAY};
use comparison::calls::{Call, Linter};
use comparison::certificate::{Certificate, Extension};
use comparison::correct::{correct, plain, set_extension, shortest, shortest_with_every_field, Case, Pair};
use comparison::element::{tag, Element, Part};
use comparison::entries::ENTRY;
use comparison::faults::{catalogue, densest, mix, Fault};
use comparison::general_names::{dns, general_names, uri};
use comparison::hex;
use comparison::holding::{octets_needed, AMPLE_ROOM};
use comparison::keys::{good_modulus, multiple_below, small_primes, use_rsa, GOOD_SIZES};
use comparison::malformed::{malformed, with_every_field};
use comparison::mutants::Mutants;
use comparison::mutation::{every_change_of_an_element, every_change_of_an_octet, mutate_octets};
use comparison::object_identifiers as oid;
use comparison::outside::{self, Outside};
use comparison::profile::{existing_rules, last_permitted_second, ALL};
use comparison::queue::{hold_met, Request};
use comparison::random::Random;

/// A call in a room around what its report needs: enough of it mostly, and now and then an octet
/// too little.
fn call(profile: u8, certificate: &[u8], issuer: &[u8], random: &mut Random) -> Call {
    let call = Call::new(profile, certificate, issuer, AMPLE_ROOM);
    let needed = octets_needed(&call.reference());
    match random.below(16) {
        0 if needed > 0 => call.in_room(needed - 1),
        1 => call.in_room(needed),
        _ => call.in_room(needed + random.below(2 * ENTRY + 3)),
    }
}

fn compare(linter: &mut Linter, what: &str, profiles: &[u8], sides: (&[u8], &[u8]), random: &mut Random) {
    for profile in profiles {
        linter.compare(what, call(*profile, sides.0, sides.1, random));
    }
}

// Faults

#[test]
fn every_fault_is_judged_alike_under_every_profile() {
    let mut linter = Linter::of("certificates with a single fault, under every profile");
    let mut random = Random::for_purpose("faults under every profile");
    let faults = catalogue();
    let rounds = cases(12_000).div_ceil(ALL.len() * ALL.len() * faults.len());
    for made_for in ALL {
        for fault in faults.iter().filter(|fault| fault.exists_in(*made_for)) {
            for _ in 0..rounds {
                let mut pair = correct(*made_for, &mut random);
                fault.apply(&mut pair, &mut random);
                let case = pair.encode();
                compare(&mut linter, &fault.name, ALL, (&case.certificate, &case.issuer), &mut random);
            }
        }
    }
    let met = linter.finish();
    hold_met(&met, &["findings", "refused 7 side 0"]);
    for rule in ALL.iter().flat_map(|profile| existing_rules(*profile)) {
        hold_met(&met, &[&format!("rule {rule}")]);
    }
}

#[test]
fn mixed_faults_are_judged_alike_under_every_profile() {
    let mut linter = Linter::of("certificates with mixed faults, under every profile");
    let mut random = Random::for_purpose("mixed faults under every profile");
    let faults = catalogue();
    for _ in 0..cases(8_000) / ALL.len() {
        let case = mix(*random.choose(ALL), &faults, &mut random).encode();
        compare(&mut linter, "mixed faults", ALL, (&case.certificate, &case.issuer), &mut random);
    }
    let met = linter.finish();
    hold_met(&met, &["findings", "refused 7 side 0"]);
}

// Mutations

#[test]
fn mutated_certificates_are_answered_alike() {
    let mut linter = Linter::of("mutated certificates");
    let mut random = Random::for_purpose("rooms of mutants");
    for mutant in Mutants::new("mutants for two linters").take(cases(20_000)) {
        linter.compare("a mutant", call(mutant.profile, &mutant.certificate, &mutant.issuer, &mut random));
    }
    let met = linter.finish();
    let refused =
        ["refused 4 side 1", "refused 4 side 2", "refused 5 side 1", "refused 6 side 1", "refused 6 side 2"];
    hold_met(&met, &[&["no finding", "findings", "refused 7 side 0"], &refused[..]].concat());
}

#[test]
fn every_change_of_a_short_certificate_is_answered_alike() {
    let mut linter = Linter::of("every change of an octet or an element of a short certificate");
    let mut random = Random::for_purpose("every change of a short certificate");
    let good = plain(1).encode();
    let tree = shortest_with_every_field().element();
    let octets = tree.octets();
    let by_octet = every_change_of_an_octet(&octets);
    let by_element = every_change_of_an_element(&tree).into_iter().map(|tree| tree.octets());
    for (turn, changed) in by_octet.into_iter().chain(by_element).enumerate() {
        let profile = ALL[turn % ALL.len()];
        if turn % 4 == 3 {
            compare(&mut linter, "an issuer changed", &[profile], (&good.certificate, &changed), &mut random);
        } else {
            compare(&mut linter, "a certificate changed", &[profile], (&changed, &octets), &mut random);
        }
    }
    let met = linter.finish();
    hold_met(
        &met,
        &["findings", "refused 4 side 1", "refused 4 side 2", "refused 6 side 1", "refused 6 side 2"],
    );
}

#[test]
fn changes_at_every_octet_of_plain_certificates_are_answered_alike() {
    let mut linter = Linter::of("plain certificates with one octet changed");
    let mut random = Random::for_purpose("changes at every octet");
    for profile in ALL {
        let good = plain(*profile).encode();
        for position in 0..good.certificate.len() {
            for _ in 0..cases(26_000).div_ceil(ALL.len() * good.certificate.len()).min(255) {
                let mut changed = good.certificate.clone();
                changed[position] = random.octet();
                compare(&mut linter, "an octet changed", &[*profile], (&changed, &good.issuer), &mut random);
            }
        }
    }
    let met = linter.finish();
    hold_met(&met, &["no finding", "findings", "refused 4 side 1", "refused 6 side 1"]);
}

// Fields by chance

#[test]
fn chance_validities_are_judged_alike() {
    let mut linter = Linter::of("certificates with chance validities");
    let mut random = Random::for_purpose("chance validities");
    let (mut near, mut years) = (BTreeSet::new(), BTreeSet::new());
    for _ in 0..cases(4_000) {
        let profile = *random.choose(ALL);
        let mut pair = plain(profile);
        let start = chance_moment(&mut random);
        let end = chance_end(start, &mut random);
        pair.certificate.not_before = in_some_form(start, &mut random);
        pair.certificate.not_after = in_some_form(end, &mut random);
        let case = pair.encode();
        linter.compare("a validity", call(profile, &case.certificate, &case.issuer, &mut random));
        let seconds = end.seconds - last_permitted_second(profile, start).seconds;
        if (-2..=2).contains(&seconds) {
            near.insert((profile, seconds));
            years.extend([start.fields().year, end.fields().year]);
        }
    }
    let met = linter.finish();
    hold_met(&met, &["no finding", "findings", "rule 109", "rule 110", "rule 111"]);
    assert_eq!(near.len(), 5 * ALL.len(), "each second about the last permitted one, in each profile");
    assert!(years.contains(&0) && years.contains(&9999), "from the first year to the last");
}

/// Any moment, or one about whole days after the start or before it, or about some profile's last permitted second.
fn chance_end(start: Moment, random: &mut Random) -> Moment {
    let seconds = random.between(0, 4) as i64 - 2;
    let end = match random.below(6) {
        0 => chance_moment(random),
        1 => start.later(random.below(500) as i64 * DAY + seconds),
        2 => start.later(seconds - random.below(5_000) as i64 * DAY),
        _ => last_permitted_second(*random.choose(ALL), start).later(seconds),
    };
    end.clamp(Moment::at(0, 1, 1), Moment::last())
}

fn chance_moment(random: &mut Random) -> Moment {
    let year = match random.below(5) {
        0 => random.between(0, 9999),
        1 => *random.choose(&[1950, 1999, 2000, 2048, 2049, 2050, 2099, 2100]),
        2 => *random.choose(&[0, 4, 9989, 9990, 9998, 9999]),
        _ => random.between(2020, 2052),
    };
    let (year, month) = (year as i64, random.between(1, 12) as i64);
    let month = if random.once_in(4) { 2 } else { month };
    let day = random.between(1, days_of_month(year, month) as usize) as i64;
    let (hour, minute, second) = (random.between(0, 23), random.between(0, 59), random.between(0, 59));
    let (hour, minute, second) = (hour as i64, minute as i64, second as i64);
    Moment::at_time(Fields { year, month, day, hour, minute, second })
}

/// UTCTime where it can say the year, but not always.
fn in_some_form(moment: Moment, random: &mut Random) -> Element {
    if (1950..=2049).contains(&moment.fields().year) && random.below(4) > 0 {
        moment.utc()
    } else {
        moment.generalized()
    }
}

#[test]
fn chance_keys_are_judged_alike() {
    let mut linter = Linter::of("certificates with chance keys");
    let mut random = Random::for_purpose("chance keys");
    for _ in 0..cases(4_000) {
        let profile = *random.choose(ALL);
        let mut pair = plain(profile);
        let modulus = chance_modulus(&mut random);
        let exponent = chance_exponent(&mut random);
        use_rsa(&mut pair.certificate, &modulus, &exponent);
        let case = pair.encode();
        linter.compare("a key", call(profile, &case.certificate, &case.issuer, &mut random));
    }
    let met = linter.finish();
    hold_met(&met, &["no finding", "findings", "rule 205", "rule 206", "rule 207", "rule 208"]);
}

/// A good modulus, a multiple of a small prime or of any odd number, or any number of about the
/// right length or a short one.
fn chance_modulus(random: &mut Random) -> Vec<u8> {
    let size = *random.choose(&GOOD_SIZES);
    let modulus = good_modulus(size, random);
    match random.below(5) {
        0 => modulus,
        1 => multiple_below(&modulus, *random.choose(small_primes())),
        2 => multiple_below(&modulus, 2 * random.between(376, 2000) as u32 + 1),
        3 => {
            let length = size / 8 + random.below(4) - 1;
            random.octets(length)
        }
        _ => {
            let length = random.between(1, 24);
            random.octets(length)
        }
    }
}

fn chance_exponent(random: &mut Random) -> Vec<u8> {
    let edges = ["01", "03", "FFFF", "010000", "010001", "010002", "010003"];
    match random.below(4) {
        0 => hex::octets(edges[random.below(edges.len())]),
        1 => {
            let mut exponent = vec![0xFF; random.between(31, 33)];
            *exponent.last_mut().expect("it has octets") = random.between(0xFA, 0xFF) as u8;
            exponent
        }
        2 => vec![1, 0, 1],
        _ => {
            let length = random.between(1, 40);
            random.octets(length)
        }
    }
}

#[test]
fn chance_names_are_judged_alike() {
    let mut linter = Linter::of("certificates with chance names");
    let mut random = Random::for_purpose("chance names");
    for _ in 0..cases(6_000) {
        let profile = *random.choose(ALL);
        let mut pair = plain(profile);
        let names: Vec<Element> = (0..random.between(1, 5)).map(|_| chance_name(&mut random)).collect();
        if random.once_in(2) {
            // A common name like one of the names, in letters of another case perhaps.
            let name = random.choose(&names).octets();
            let mut text = name[2 + usize::from(name[1] == 0x81)..].to_vec();
            if random.once_in(2) {
                text.make_ascii_uppercase();
            }
            pair.certificate.subject.attribute(&oid::common_name()).value =
                Element::primitive(*random.choose(&[tag::PRINTABLE_STRING, tag::UTF8_STRING]), &text);
        }
        set_extension(&mut pair, 7, general_names(names));
        let case = pair.encode();
        linter.compare("names", call(profile, &case.certificate, &case.issuer, &mut random));
    }
    let met = linter.finish();
    hold_met(&met, &["no finding", "findings", "rule 120", "rule 412", "rule 413", "rule 414"]);
}

/// A host name out of labels that are mostly good, or a URI.
fn chance_name(random: &mut Random) -> Element {
    let mut text = String::new();
    for label in 0..random.between(1, 6) {
        if label > 0 {
            text.push('.');
        }
        let length = *random.choose(&[0, 1, 2, 2, 3, 3, 5, 8, 8, 62, 63, 64]);
        let odd = random.once_in(4);
        for _ in 0..length {
            let letters: &[u8] = if odd { b"aZ0-_9~" } else { b"abcXYZ0189" };
            text.push(char::from(*random.choose(letters)));
        }
    }
    text.truncate(255);
    if random.once_in(12) {
        uri(&text)
    } else {
        dns(&text)
    }
}

// Outside certificates

#[test]
fn outside_certificates_are_answered_alike() {
    let mut linter = Linter::of("outside certificates with themselves and others as issuers");
    let mut random = Random::for_purpose("outside pairs");
    let items = outside::certificates();
    let generated = plain(1).encode();
    let others = cases(18_000).div_ceil(ALL.len() * items.len());
    for (position, item) in items.iter().enumerate() {
        let itself = (&item.octets[..], &item.octets[..]);
        compare(&mut linter, &item.name, ALL, itself, &mut random);
        compare(&mut linter, &item.name, ALL, (&item.octets, &generated.issuer), &mut random);
        compare(&mut linter, &item.name, ALL, (&generated.certificate, &item.octets), &mut random);
        let before = &items[(position + items.len() - 1) % items.len()].octets;
        compare(&mut linter, &item.name, ALL, (&item.octets, before), &mut random);
        for _ in 0..others {
            let other = &random.choose(&items).octets;
            compare(&mut linter, &item.name, ALL, (&item.octets, other), &mut random);
        }
    }
    let met = linter.finish();
    hold_met(&met, &["findings", "refused 6 side 1", "refused 6 side 2"]);
}

#[test]
fn other_outside_structures_are_refused_alike() {
    let mut linter = Linter::of("other outside structures on either side");
    let mut random = Random::for_purpose("outside structures");
    let good = plain(2).encode();
    let structures: Vec<Outside> =
        outside::revocation_lists().into_iter().chain(outside::not_certificates()).collect();
    for item in structures {
        let mut changed = item.octets.clone();
        mutate_octets(&mut changed, &mut random);
        for octets in [&item.octets, &changed] {
            for sides in [(&octets[..], &good.issuer[..]), (&good.certificate, octets), (octets, octets)] {
                compare(&mut linter, &item.name, ALL, sides, &mut random);
            }
        }
    }
    let met = linter.finish();
    hold_met(&met, &["refused 6 side 1", "refused 6 side 2"]);
}

// Refusals

/// The octets of the certificate after it was made exactly this long.
fn of_length(mut certificate: Certificate, length: usize) -> Vec<u8> {
    certificate.lengthen_to(length);
    certificate.element().octets()
}

/// Sides of 0, 1, 8,192 and 8,193 octets, good ones among them, and short ones with every refusal.
fn sides(good: &Certificate) -> Vec<Vec<u8>> {
    let octet_string = |length: usize| Element::octet_string(&vec![0; length - 4]).octets();
    let mut sides = vec![vec![], vec![0x30], vec![0x05], good.element().octets()];
    for length in [8191, 8192, 8193] {
        sides.extend([of_length(good.clone(), length), octet_string(length), vec![0x30; length]]);
    }
    sides.extend(["30 00", "30 80 00 00", "31 06 02 01 02 02 01 01", "30 03 01 01 01"].map(hex::octets));
    assert!([0, 1, 8192, 8193].iter().all(|length| sides.iter().any(|side| side.len() == *length)));
    sides
}

#[test]
fn refusals_come_in_their_order_for_all_sides_profiles_and_rooms() {
    let mut linter = Linter::of("sides, profiles and rooms in every combination");
    let pair = plain(1);
    let issuers = sides(&pair.issuer);
    for certificate in sides(&pair.certificate) {
        for issuer in &issuers {
            for profile in [0, 1, 2, 3, 4, 5, 255] {
                for room in [0, 1, ENTRY, 600] {
                    linter.compare("sides", Call::new(profile, &certificate, issuer, room));
                }
            }
        }
    }
    for profile in 0..=255 {
        let case = pair.encode();
        linter.compare("a profile", Call::new(profile, &case.certificate, &case.issuer, 100));
    }
    let met = linter.finish();
    let (first, second) = (
        ["refused 1 side 1", "refused 4 side 1", "refused 5 side 1", "refused 6 side 1"],
        ["refused 2 side 2", "refused 4 side 2", "refused 5 side 2", "refused 6 side 2"],
    );
    hold_met(
        &met,
        &[&first[..], &second, &["refused 3 side 0", "refused 7 side 0", "no finding", "findings"]].concat(),
    );
}

#[test]
fn malformed_certificates_are_refused_alike_beside_every_side() {
    let mut linter = Linter::of("malformed certificates beside sides of every kind");
    let pair = plain(3);
    let unordered = hex::octets("31 06 02 01 02 02 01 01");
    let case = pair.encode();
    for certificate in [&pair.certificate, &pair.issuer] {
        for item in malformed(&with_every_field(certificate.clone())) {
            let octets = item.tree.octets();
            for other in [&case.certificate[..], &unordered, &[0x30], &[0x30, 0], &octets] {
                linter.compare(&item.what, Call::new(3, &octets, other, 40));
                linter.compare(&item.what, Call::new(3, other, &octets, 40));
            }
        }
    }
    let met = linter.finish();
    hold_met(&met, &["refused 4 side 2", "refused 5 side 2", "refused 6 side 2"]);
}

#[test]
fn a_frame_that_makes_no_call_is_told() {
    let linter = Linter::of("frames that make no call");
    let whole = [1, 0, 0, 0, 0, 2, 0x30, 0, 0x30, 0];
    // Of a head that is cut short the missing octets count as 0: a call needs six octets at least.
    let mut frames: Vec<&[u8]> = (0..6).map(|length| &whole[..length]).collect();
    frames.push(&whole[..7]);
    // 65,536 octets of room are the most there are.
    let one_more = [[1, 1, 0, 1].as_slice(), &whole[4..]].concat();
    frames.extend([one_more.as_slice(), &[1, 0xFF, 0xFF, 0xFF, 0xFF, 0xFF]]);
    linter.hold_frames(&frames, &"no call\n".repeat(frames.len()));
    // The issuer may be empty.
    linter.hold_frames(&[&whole, &whole[..8]], "refused 6 side 1 at 0\nrefused 2 side 2 at 0\n");
}

// Rooms

/// Rooms for one finding and two, and an octet less and more.
const SHORT_ROOMS: [usize; 8] = [0, 1, ENTRY - 1, ENTRY, ENTRY + 1, 2 * ENTRY - 1, 2 * ENTRY, 2 * ENTRY + 1];
/// From just enough room on, so many octets to either side are tried: an entry, and one octet more.
const TO_EITHER_SIDE: usize = ENTRY + 1;
/// So many rooms are tried for each report, or fewer where they fall together.
const ROOMS: usize = SHORT_ROOMS.len() + 2 * TO_EITHER_SIDE + 1;

fn hold_rooms(linter: &mut Linter, what: &str, case: &Case) {
    let call = Call::new(case.profile, &case.certificate, &case.issuer, AMPLE_ROOM);
    let needed = octets_needed(&call.reference());
    let around = needed.saturating_sub(TO_EITHER_SIDE)..=needed + TO_EITHER_SIDE;
    let rooms: BTreeSet<usize> = SHORT_ROOMS.into_iter().chain(around).collect();
    for room in rooms {
        linter.compare(what, call.in_room(room));
    }
}

#[test]
fn rooms_of_every_length_around_the_report_are_kept_alike() {
    let mut linter = Linter::of("rooms of every length around the report");
    let mut random = Random::for_purpose("rooms for two linters");
    let faults = catalogue();
    for turn in 0..cases(7_000) / ROOMS {
        let case = mix(ALL[turn % ALL.len()], &faults, &mut random).encode();
        hold_rooms(&mut linter, "a report", &case);
        if turn % 4 == 0 {
            linter
                .compare("ample room", Call::new(case.profile, &case.certificate, &case.issuer, AMPLE_ROOM));
        }
    }
    for profile in ALL {
        hold_rooms(&mut linter, "no finding", &plain(*profile).encode());
        hold_rooms(&mut linter, "the densest report", &densest(*profile).encode());
        let case = Pair { certificate: shortest(), ..plain(*profile) }.encode();
        hold_rooms(&mut linter, "the shortest certificate", &case);
    }
    let met = linter.finish();
    hold_met(&met, &["no finding", "findings", "refused 7 side 0"]);
}

// Issuers

/// Extensions that give an issuer no key identifier, a bad one, or several.
fn key_identifiers() -> Vec<(&'static str, Vec<Extension>)> {
    let own = oid::subject_key_identifier();
    let good = |octets: &[u8]| Extension::new(own.clone(), false, Element::octet_string(octets));
    let bad = |octets: &str| Extension {
        value: vec![Part::Octets(hex::octets(octets))],
        ..Extension::new(own.clone(), true, Element::null())
    };
    let (a, b) = ([0xA5; 20], [0x5A; 20]);
    vec![
        ("one", vec![good(&a)]),
        ("an empty one", vec![good(&[])]),
        ("a long one", vec![good(&[0xA5; 300])]),
        ("none", vec![Extension::new(vec![0x2A], false, Element::null())]),
        ("an empty value", vec![bad("")]),
        ("a value cut short", vec![bad("04 03 A5 A5")]),
        ("another type", vec![bad("0C 02 A5 A5")]),
        ("more behind it", vec![bad("04 02 A5 A5 05 00")]),
        ("a long length", vec![bad("04 81 02 A5 A5")]),
        ("two, the wanted first", vec![good(&a), good(&b)]),
        ("two, the wanted second", vec![good(&b), good(&a)]),
        ("a bad one and the wanted", vec![bad("05 00"), good(&a)]),
        ("the wanted and a bad one", vec![good(&a), bad("05 00")]),
        ("the wanted twice", vec![good(&a), good(&a)]),
    ]
}

/// Authority key ids with the identifier, with others, and without any.
fn authority_key_ids() -> Vec<Element> {
    let of = |octets: &[u8]| Element::sequence(vec![Element::primitive(0x80, octets)]);
    let issuer = Element::constructed(0xA1, vec![uri("http://a.example/")]);
    let rest = || vec![issuer.clone(), Element::primitive(0x82, &[1])];
    vec![
        of(&[0xA5; 20]),
        of(&[0x5A; 20]),
        of(&[0xA5; 19]),
        of(&[0xA5; 21]),
        of(&[0xA5; 300]),
        of(&[0xA5, 0xA5]),
        of(&[]),
        Element::sequence(vec![]),
        Element::sequence(rest()),
        Element::sequence([vec![Element::primitive(0x80, &[0xA5; 20])], rest()].concat()),
    ]
}

#[test]
fn issuers_with_every_kind_of_key_identifier_are_taken_alike() {
    let mut linter = Linter::of("issuers with key identifiers of every kind");
    let mut random = Random::for_purpose("key identifiers of issuers");
    for profile in ALL {
        for (what, extensions) in key_identifiers() {
            for value in authority_key_ids() {
                let mut pair = plain(*profile);
                pair.issuer
                    .extensions
                    .retain(|extension| extension.identifier != oid::subject_key_identifier());
                pair.issuer.extensions.extend(extensions.clone());
                pair.extension(1).set_value(value);
                let case = pair.encode();
                linter.compare(what, call(*profile, &case.certificate, &case.issuer, &mut random));
                let alone = Certificate { extensions: extensions.clone(), ..pair.issuer.clone() };
                let alone = alone.element().octets();
                linter.compare(what, call(*profile, &case.certificate, &alone, &mut random));
            }
        }
    }
    for profile in ALL {
        let mut pair = plain(*profile);
        pair.issuer.extensions.clear();
        let case = pair.encode();
        linter.compare("no extension", call(*profile, &case.certificate, &case.issuer, &mut random));
    }
    let met = linter.finish();
    hold_met(&met, &["no finding", "findings"]);
}

#[test]
fn issuers_that_agree_in_name_and_key_identifier_give_the_same_answer() {
    let linter = Linter::of("issuers that agree");
    if !linter.is_there() {
        return;
    }
    let mut random = Random::for_purpose("issuers that agree");
    let faults = catalogue();
    let rounds = cases(1_500) / 300;
    for _ in 0..rounds {
        let pairs: Vec<[Call; 2]> = (0..300).map(|_| calls_that_agree(&faults, &mut random)).collect();
        let outcomes = linter.outcomes(&pairs.iter().flatten().collect::<Vec<_>>());
        for (calls, outcomes) in pairs.iter().zip(outcomes.chunks_exact(2)) {
            assert_eq!(outcomes[0], outcomes[1], "{:?}", calls[0]);
            assert_eq!(outcomes[1..], calls[1].reference_reply());
        }
    }
    say("pairs of issuers that agree in what counts: the same answer", 300 * rounds);
}

/// Two calls that differ in the issuer alone, and there not in what counts.
fn calls_that_agree(faults: &[Fault], random: &mut Random) -> [Call; 2] {
    let profile = *random.choose(ALL);
    let pair = mix(profile, faults, random);
    let case = pair.encode();
    let issuer = other_issuer(&pair.issuer, random).element().octets();
    assert_ne!(case.issuer, issuer, "the issuers differ");
    let first = call(profile, &case.certificate, &case.issuer, random);
    [first.clone(), Call { issuer, ..first }]
}

/// An issuer with the subject name and the key identifier of this one, and all else changed.
fn other_issuer(issuer: &Certificate, random: &mut Random) -> Certificate {
    let mut other =
        if random.once_in(2) { shortest_with_every_field() } else { correct(1, random).certificate };
    other.subject = issuer.subject.clone();
    let own = oid::subject_key_identifier();
    other.extensions.retain(|extension| extension.identifier != own);
    let kept = issuer.extensions.iter().filter(|extension| extension.identifier == own).cloned();
    let position = random.below(other.extensions.len() + 1);
    other.extensions.splice(position..position, kept.map(|kept| Extension { critical: true, ..kept }));
    other
}
