//! Every example of document 01, as document 02 changes it, those marked P too, as far as the public functions reach
//! them.

use comparison::calendar::{Fields, Moment, DAY};
use comparison::certificate::node;
use comparison::correct::{plain, Pair};
use comparison::deck::{blocks_of, BLOCK};
use comparison::element::{tag, Element, Mark, Part};
use comparison::general_names::policy;
use comparison::hex;
use comparison::holding::AMPLE_ROOM;
use comparison::keys::{use_good_elliptic_curve, use_rsa};
use comparison::linters::hold_at_once;
use comparison::object_identifiers as oid;
use comparison::profile::{ALL, END_ENTITY, SERVER};
use comparison::random::Random;
use reference::{block_check, lint, listing, soundness, write_record, Answer, Refusal, Soundness};

/// What the linter answers to these octets as a certificate, with a good issuer, under profile 1.
fn as_certificate(octets: &[u8]) -> Answer {
    lint(octets, &plain(1).encode().issuer, 1, AMPLE_ROOM)
}

fn refused(number: u8, place: usize) -> Answer {
    Answer::Refused(Refusal { number, side: 1, place })
}

fn hold(what: &str, pair: &Pair) {
    hold_at_once(what, &pair.encode());
}

#[test]
fn p1_an_empty_sequence_is_sound_and_no_certificate() {
    assert_eq!(soundness(&hex::octets("30 00")), Soundness::Sound);
    assert_eq!(as_certificate(&hex::octets("30 00")), refused(6, 0));
}

#[test]
fn p2_to_p4_lengths_that_are_not_sound() {
    for text in ["30 81 00", "30 80 00 00", "30 00 00"] {
        assert_eq!(soundness(&hex::octets(text)), Soundness::Unsound(0), "{text}");
        assert_eq!(as_certificate(&hex::octets(text)), refused(4, 0), "{text}");
    }
}

#[test]
fn p5_integers_are_minimal_and_have_a_sign() {
    assert_eq!(soundness(&hex::octets("02 02 00 7F")), Soundness::Unsound(0));
    assert_eq!(as_certificate(&hex::octets("02 02 00 7F")), refused(4, 0));
    assert_eq!(soundness(&hex::octets("02 02 00 80")), Soundness::Sound);
    assert_eq!(soundness(&hex::octets("02 01 80")), Soundness::Sound);
    for profile in SERVER {
        let mut pair = plain(*profile);
        pair.certificate.serial = Element::integer(&hex::octets("00 80"));
        hold("a serial of 128", &pair);
        pair.certificate.serial = Element::integer(&hex::octets("80")).breaking(102);
        hold("a serial of -128", &pair);
    }
}

#[test]
fn p6_a_boolean_of_01_is_not_sound() {
    assert_eq!(soundness(&hex::octets("30 03 01 01 01")), Soundness::Unsound(2));
    assert_eq!(as_certificate(&hex::octets("30 03 01 01 01")), refused(4, 2));
}

#[test]
fn p7_a_set_out_of_order() {
    assert_eq!(soundness(&hex::octets("31 06 02 01 02 02 01 01")), Soundness::Unordered(0));
    assert_eq!(as_certificate(&hex::octets("31 06 02 01 02 02 01 01")), refused(5, 0));
}

#[test]
fn p8_the_arc_alone_is_not_below_itself() {
    let arc = hex::octets("60 86 48 01 65 03 02 01 03");
    assert_eq!(oid::federal_policy_arc(), arc);
    assert_eq!(oid::federal_policy(), [arc.as_slice(), &[0x0D]].concat());
    for profile in ALL {
        let mut pair = plain(*profile);
        let forum = pair.extension(6).value().members().nth(1).cloned();
        let with = |identifier: Vec<u8>| {
            Element::sequence([vec![policy(identifier, vec![])], forum.iter().cloned().collect()].concat())
        };
        pair.extension(6).set_value(with([arc.as_slice(), &[0x0D]].concat()));
        hold("a policy below the arc", &pair);
        pair.extension(6).set_value(with(arc.clone()));
        pair.extension(6).breaks_at_value(409);
        hold("the arc alone", &pair);
    }
}

/// The plain pair with two times written out.
fn with_times(profile: u8, not_before: Element, not_after: Element, broken: &[u16]) -> Pair {
    let mut pair = plain(profile);
    pair.certificate.not_before = not_before;
    pair.certificate.not_after = not_after;
    pair.certificate.validity_marks.extend(broken.iter().map(|rule| Mark::Breaks(*rule)));
    pair
}

fn utc(text: &str) -> Element {
    Element::primitive(tag::UTC_TIME, text.as_bytes())
}

fn generalized(text: &str) -> Element {
    Element::primitive(tag::GENERALIZED_TIME, text.as_bytes())
}

#[test]
fn p9_two_digits_of_a_year() {
    for profile in ALL {
        // If 49 is 2049, a GeneralizedTime of 2050 comes a second after it.
        hold("49 is 2049", &with_times(*profile, utc("491231235959Z"), generalized("20500101000000Z"), &[]));
        // If 50 is 1950, it lies a century before 2049: too long, and the other way round
        // backwards.
        hold("50 is 1950", &with_times(*profile, utc("500101000000Z"), utc("491231235959Z"), &[111]));
        hold("50 is 1950", &with_times(*profile, utc("491231235959Z"), utc("500101000000Z"), &[110]));
        let same = Element::primitive(tag::GENERALIZED_TIME, b"19500101000000Z").breaking(109);
        hold("50 is 1950", &with_times(*profile, utc("500101000000Z"), same, &[]));
    }
}

/// P10 as document 02 changes it: "250130000000Z now breaks 111 and 250129235959Z keeps it."
#[test]
fn p10_the_longest_validity_of_a_server() {
    let start = || utc("240101000000Z");
    for profile in SERVER {
        hold("395 days", &with_times(*profile, start(), utc("250129235959Z"), &[]));
        hold("a second more", &with_times(*profile, start(), utc("250130000000Z"), &[111]));
        // Document 01's own second that is too late still is.
        hold("two seconds more", &with_times(*profile, start(), utc("250130000001Z"), &[111]));
    }
    hold("45 days", &with_times(3, start(), utc("240214235959Z"), &[]));
    hold("a second more", &with_times(3, start(), utc("240215000000Z"), &[111]));
    hold("ten years", &with_times(4, start(), utc("331231235959Z"), &[]));
    hold("a second more", &with_times(4, start(), utc("340101000000Z"), &[111]));
    let start = Moment::at(2024, 1, 1);
    assert_eq!(start.later(395 * DAY), Moment::at(2025, 1, 30));
    assert_eq!(start.later(45 * DAY), Moment::at(2024, 2, 15));
    let last = Fields { year: 2049, month: 12, day: 31, hour: 23, minute: 59, second: 59 };
    assert_eq!(Moment::at_time(last).later(1), Moment::at(2050, 1, 1));
}

#[test]
fn p11_usage_by_kind_of_key() {
    let mut random = Random::for_purpose("P11");
    for profile in SERVER {
        let mut pair = plain(*profile);
        pair.extension(4).value = vec![Part::Octets(hex::octets("03 02 05 A0"))];
        hold("digitalSignature and keyEncipherment with RSA", &pair);
        use_good_elliptic_curve(&mut pair.certificate, &mut random);
        pair.extension(4).breaks_at_value(405);
        hold("digitalSignature and keyEncipherment with EC", &pair);
        let mut pair = plain(*profile);
        pair.extension(4).value = vec![Part::Octets(hex::octets("03 02 00 80"))];
        pair.extension(4).breaks_at_value(344);
        hold("zero bits at the end", &pair);
    }
}

/// The block of P12.
fn small_block() -> Vec<u8> {
    write_record(1, 1, &[0x30, 0], &[0x30, 0], 512).expect("the record is good")
}

#[test]
fn p12_the_check_of_a_small_record() {
    let block = small_block();
    assert_eq!(block.len(), BLOCK);
    assert_eq!(block[..8], hex::octets("00 00 00 01 00 07 00 00"));
    assert_eq!(block[8..15], hex::octets("01 00 02 30 00 30 00"));
    assert!(block[15..510].iter().all(|octet| *octet == 0));
    assert_eq!(block[510..], hex::octets("05 2E"));
    assert_eq!(block_check(&block), 0x052E);
    assert_eq!(vec![block], blocks_of(1, &hex::octets("01 00 02 30 00 30 00")));
}

#[test]
fn what_the_program_prints_for_three_blocks() {
    let deck = [small_block(), vec![0; BLOCK], vec![0; 100]].concat();
    let printed = String::from_utf8(listing(&deck)).expect("a listing is ASCII");
    let expected = "record 1 profile 1 refused 6 side 1 at 0\n\
                    lost 1 unsound\n\
                    lost 2 short\n\
                    records 1 blocks 3 lost 2\n";
    assert_eq!(printed, expected);
}

#[test]
fn what_the_program_prints_for_findings() {
    let mut pair = plain(3);
    pair.certificate.serial = Element::integer(&[0]).breaking(102).breaking(104);
    let place = pair.certificate.element().encode().place_of(node::SERIAL);
    assert_eq!((place.start, place.length), (13, 3), "the place of the paper's example");
    let case = pair.encode();
    let deck = write_record(1, 3, &case.certificate, &case.issuer, AMPLE_ROOM).expect("the record is good");
    let printed = String::from_utf8(listing(&deck)).expect("a listing is ASCII");
    let blocks = deck.len() / BLOCK;
    let findings =
        ["record 1 profile 3 findings 2", "  102 at 13 length 3 must", "  104 at 13 length 3 must"];
    let expected = format!("{}\nrecords 1 blocks {blocks} lost 0\n", findings.join("\n"));
    assert_eq!(printed, expected);
}

#[test]
fn the_exponent_65537_is_good_for_all_that_judge_it() {
    let mut random = Random::for_purpose("the exponent");
    for profile in END_ENTITY {
        let mut pair = plain(*profile);
        let modulus = comparison::keys::good_modulus(2048, &mut random);
        use_rsa(&mut pair.certificate, &modulus, &hex::octets("01 00 01"));
        hold("65,537", &pair);
        use_rsa(&mut pair.certificate, &modulus, &hex::octets("FF FF"));
        pair.certificate.key_bits.find(node::EXPONENT).marks.push(Mark::Breaks(206));
        hold("65,535", &pair);
    }
}

#[test]
fn trap_three_bad_purposes_are_three_entries() {
    for profile in END_ENTITY {
        let mut pair = plain(*profile);
        for identifier in [oid::code_signing(), oid::code_signing(), oid::email_protection()] {
            pair.extension(5).value().push(Element::object_identifier(&identifier).breaking(408));
        }
        let case = pair.encode();
        assert!(matches!(&case.expected, Answer::Report(entries) if entries.len() == 3));
        hold("three bad purposes", &pair);
    }
}

#[test]
fn trap_a_serial_of_80_hex_is_not_positive() {
    for profile in SERVER {
        let mut pair = plain(*profile);
        pair.certificate.serial = Element::integer(&[0x80]).breaking(102);
        hold("a serial of 80 hex", &pair);
    }
}

#[test]
fn trap_part_0_of_one_record_does_not_join_part_1_of_another() {
    let certificate = Element::octet_string(&[9; 600]).octets();
    let record =
        |number| write_record(number, 1, &certificate, &[0x30, 0], AMPLE_ROOM).expect("the record is good");
    let (first, second) = (record(1), record(2));
    assert_eq!(first.len(), 2 * BLOCK);
    let deck = [&first[..BLOCK], &second[BLOCK..]].concat();
    let printed = String::from_utf8(listing(&deck)).expect("a listing is ASCII");
    assert_eq!(printed, "lost 0 stray\nlost 1 stray\nrecords 0 blocks 2 lost 2\n");
}
