//! Faults of the fields, rules 101 to 122.

use super::Aspect::*;
use super::Catalogue;
use crate::calendar::{Moment, DAY};
use crate::certificate::{algorithm, version, Attribute, Name, RelativeName};
use crate::correct::{Pair, AUTHORITY_NAMES};
use crate::element::{tag, Element, Mark};
use crate::general_names::dns;
use crate::object_identifiers as oid;
use crate::profile::*;
use crate::random::Random;
use crate::variations::{any_moment, positive_contents};

pub(super) fn add(faults: &mut Catalogue) {
    add_version(faults);
    add_serial(faults);
    add_algorithms(faults);
    add_issuer_name(faults);
    add_times(faults);
    add_ten_years(faults);
    add_subject_attributes(faults);
    add_count_of_common_names(faults);
    add_common_name(faults);
    add_name_of_authority(faults);
    add_country(faults);
    add_organization(faults);
    add_state(faults);
    add_subject_sets(faults);
}

fn add_version(faults: &mut Catalogue) {
    let mut faults = faults.touching(&[Version]);
    faults.add("no version", &[101], ALL, |pair, _, _| {
        pair.certificate.version = None;
        pair.certificate.tbs_marks.push(Mark::Breaks(101));
    });
    faults.add("version v2", &[101], ALL, |pair, _, _| {
        pair.certificate.version = Some(version(1).breaking(101));
    });
}

fn add_serial(faults: &mut Catalogue) {
    let mut faults = faults.touching(&[Serial]);
    faults.add("serial of zero", &[102], SERVER_AND_AUTHORITY, |pair, _, _| {
        pair.certificate.serial = Element::integer(&[0]).breaking(102);
    });
    faults.add("serial of zero, too short as well", &[102, 104], RESPONDER, |pair, _, _| {
        pair.certificate.serial = Element::integer(&[0]).breaking(102).breaking(104);
    });
    faults.add("serial of 80 hex", &[102], SERVER_AND_AUTHORITY, |pair, _, _| {
        pair.certificate.serial = Element::integer(&[0x80]).breaking(102);
    });
    faults.add("negative serial", &[102], ALL, |pair, random, _| {
        let length = random.between(8, 20);
        pair.certificate.serial = Element::integer(&negative_contents(length, random)).breaking(102);
    });
    faults.add("serial of 21 octets or more", &[103], ALL, |pair, random, _| {
        let length = if random.once_in(2) { 21 } else { random.between(22, 200) };
        pair.certificate.serial = Element::integer(&positive_contents(length, random)).breaking(103);
    });
    faults.add("negative serial of 21 octets", &[102, 103], ALL, |pair, random, _| {
        let contents = negative_contents(21, random);
        pair.certificate.serial = Element::integer(&contents).breaking(102).breaking(103);
    });
    faults.add("serial of 7 octets or fewer", &[104], RESPONDER, |pair, random, _| {
        let length = if random.once_in(2) { 7 } else { random.between(1, 6) };
        pair.certificate.serial = Element::integer(&positive_contents(length, random)).breaking(104);
    });
}

fn negative_contents(length: usize, random: &mut Random) -> Vec<u8> {
    let mut contents = random.octets(length);
    contents[0] |= 0x80;
    if contents[0] == 0xFF && length > 1 {
        contents[1] &= 0x7F;
    }
    contents
}

fn add_algorithms(faults: &mut Catalogue) {
    let mut faults = faults.touching(&[Algorithms]);
    faults.add("inner algorithm wrong", &[105, 107], ALL, |pair, random, _| {
        pair.certificate.inner_algorithm = wrong_algorithm(random).breaking(105);
        pair.certificate.outer_algorithm.marks.push(Mark::Breaks(107));
    });
    faults.add("outer algorithm wrong", &[106, 107], ALL, |pair, random, _| {
        pair.certificate.outer_algorithm = wrong_algorithm(random).breaking(106).breaking(107);
    });
    faults.add("both algorithms wrong and equal", &[105, 106], ALL, |pair, random, _| {
        let wrong = wrong_algorithm(random);
        pair.certificate.inner_algorithm = wrong.clone().breaking(105);
        pair.certificate.outer_algorithm = wrong.breaking(106);
    });
    faults.add("both algorithms wrong and unequal", &[105, 106, 107], ALL, |pair, _, _| {
        let inner = algorithm(oid::sha256_with_rsa(), None);
        let outer = algorithm(oid::sha1_with_rsa(), Some(Element::null()));
        pair.certificate.inner_algorithm = inner.breaking(105);
        pair.certificate.outer_algorithm = outer.breaking(106).breaking(107);
    });
}

fn wrong_algorithm(random: &mut Random) -> Element {
    match random.below(5) {
        0 => algorithm(oid::sha256_with_rsa(), None),
        1 => algorithm(oid::sha256_with_rsa(), Some(Element::octet_string(&[]))),
        2 => algorithm(oid::sha1_with_rsa(), Some(Element::null())),
        3 => algorithm(oid::rsa_encryption(), Some(Element::null())),
        _ => algorithm(oid::ecdsa_with_sha256(), None),
    }
}

fn add_issuer_name(faults: &mut Catalogue) {
    let mut faults = faults.touching(&[IssuerName]);
    faults.add("issuer name in another string type", &[108], ALL, |pair, _, _| {
        let same = |kind| Name::of(vec![Attribute::new(oid::common_name(), Element::primitive(kind, b"CA"))]);
        pair.issuer.subject = same(tag::PRINTABLE_STRING);
        pair.certificate.issuer = same(tag::UTF8_STRING);
        pair.certificate.issuer.breaks(108);
    });
    faults.add("issuer name shorter by a set", &[108], ALL, |pair, _, _| {
        pair.issuer.subject = pair.certificate.issuer.clone();
        let more = Attribute::new(oid::locality(), Element::printable("Washington"));
        pair.issuer.subject.push(more);
        pair.certificate.issuer.breaks(108);
    });
    faults.add("issuer name empty", &[108], ALL, |pair, _, _| {
        let named = Attribute::new(oid::common_name(), Element::printable("CA"));
        pair.issuer.subject = Name::of(vec![named]);
        pair.certificate.issuer = Name::default();
        pair.certificate.issuer.breaks(108);
    });
    faults.add("issuer name in another case", &[108], ALL, |pair, _, _| {
        let name = |text| Name::of(vec![Attribute::new(oid::common_name(), Element::printable(text))]);
        pair.issuer.subject = name("US Federal TLS CA 2");
        pair.certificate.issuer = name("US Federal TLS ca 2");
        pair.certificate.issuer.breaks(108);
    });
}

fn add_times(faults: &mut Catalogue) {
    let mut faults = faults.touching(&[Times]);
    faults.add("notBefore a GeneralizedTime before 2050", &[109], ALL, |pair, random, _| {
        let not_before =
            if random.once_in(2) { Moment::at(2049, 12, 31).later(DAY - 1) } else { early(random) };
        pair.certificate.not_before = not_before.generalized().breaking(109);
        pair.certificate.not_after = not_before.later(DAY).due_form();
    });
    faults.add("both times GeneralizedTime before 2050", &[109], ALL, |pair, _, _| {
        let not_before = Moment::at(2024, 2, 29);
        pair.certificate.not_before = not_before.generalized().breaking(109);
        pair.certificate.not_after = not_before.later(7 * DAY).generalized().breaking(109);
    });
    faults.add("notAfter a GeneralizedTime before 2050", &[109], ALL, |pair, random, _| {
        let not_before = early(random);
        pair.certificate.not_before = not_before.utc();
        pair.certificate.not_after = not_before.later(DAY).generalized().breaking(109);
    });
    faults.add("times of the first years", &[109], ALL, |pair, _, _| {
        let not_before = Moment::at(0, 2, 29);
        pair.certificate.not_before = not_before.generalized().breaking(109);
        pair.certificate.not_after = not_before.later(DAY).generalized().breaking(109);
    });
    faults.add("notAfter before notBefore", &[110], ALL, |pair, random, _| {
        let not_after = any_moment(random);
        let seconds = if random.once_in(2) { 1 } else { random.between(1, 500 * DAY as usize) as i64 };
        pair.certificate.not_before = not_after.later(seconds).due_form();
        pair.certificate.not_after = not_after.due_form();
        pair.certificate.validity_marks.push(Mark::Breaks(110));
    });
    faults.add("valid a second too long or more", &[111], ALL, |pair, random, _| {
        let over = if random.once_in(2) { 1 } else { random.between(1, 4000 * DAY as usize) as i64 };
        // Ten years and eleven later there is still a year to write.
        too_long(pair, any_moment(random).min(Moment::at(9970, 1, 1)), over);
    });
    faults.add("too long from a UTCTime to a GeneralizedTime", &[111], ALL, |pair, _, _| {
        too_long(pair, Moment::at(2049, 12, 31), 1);
    });
}

fn add_ten_years(faults: &mut Catalogue) {
    let mut faults = faults.touching(&[Times]);
    faults.add("too long from a 29 February", &[111], AUTHORITY, |pair, random, _| {
        let year = *random.choose(&[1952, 2024, 2040, 2048, 2096, 2396, 9972]);
        let start = Moment::at(year, 2, 29).later(random.below(DAY as usize) as i64);
        // A day over is still before 1 March at the same time, which might be taken for the anniversary.
        too_long(pair, start, *random.choose(&[1, DAY]));
    });
    faults.add("too long at the end of all years", &[111], AUTHORITY, |pair, _, _| {
        // The anniversary is the last second that can be written.
        too_long(pair, Moment::at(9990, 1, 1).later(-1), 1);
    });
}

/// A moment that has a UTCTime, a day before the end of 2049 or earlier.
fn early(random: &mut Random) -> Moment {
    Moment::at(random.between(1950, 2048) as i64, 6, 30)
}

/// Ends the validity so many seconds after the last one that is permitted.
fn too_long(pair: &mut Pair, not_before: Moment, over: i64) {
    let not_after = last_permitted_second(pair.profile, not_before).later(over);
    pair.certificate.not_before = not_before.due_form();
    pair.certificate.not_after = not_after.due_form();
    pair.certificate.validity_marks.push(Mark::Breaks(111));
}

fn add_subject_attributes(faults: &mut Catalogue) {
    let mut faults = faults.touching(&[OtherAttributes]);
    faults.add("a subject attribute too many", &[112], ALL, |pair, random, _| {
        add_strange_attributes(pair, 1, random);
    });
    faults.add("three subject attributes too many", &[112], ALL, |pair, random, _| {
        add_strange_attributes(pair, 3, random);
    });
    faults.add("a good organization where none belongs", &[112], DOMAIN, |pair, _, _| {
        let organization = Attribute::new(oid::organization(), Element::printable("U.S. Government"));
        pair.certificate.subject.push(organization.breaking(112));
    });
    faults.add("an organizational unit where none belongs", &[112], SERVER_AND_AUTHORITY, |pair, _, _| {
        let unit = Attribute::new(oid::organizational_unit(), Element::printable("Bureau"));
        pair.certificate.subject.push(unit.breaking(112));
    });
    faults.add("a state where none belongs", &[112], &[1, 3, 4], |pair, _, _| {
        let state = Attribute::new(oid::state(), Element::printable("District of Columbia"));
        pair.certificate.subject.push(state.breaking(112));
    });
}

fn add_strange_attributes(pair: &mut Pair, count: usize, random: &mut Random) {
    for _ in 0..count {
        let kind = random.choose(&[oid::locality, oid::serial_number, oid::domain_component])();
        let attribute = Attribute::new(kind, Element::printable("x")).breaking(112);
        let set = RelativeName::of(vec![attribute]);
        let position = random.below(pair.certificate.subject.sets.len() + 1);
        pair.certificate.subject.sets.insert(position, set);
    }
}

fn add_count_of_common_names(faults: &mut Catalogue) {
    let mut faults = faults.touching(&[CommonName]);
    faults.add("no CN", &[113], ALL, |pair, _, _| {
        pair.certificate.subject.remove(&oid::common_name());
        pair.certificate.subject.breaks(113);
    });
    faults.add("a second CN", &[113], END_ENTITY, |pair, _, _| {
        let further = Attribute::new(oid::common_name(), Element::utf8("unknown")).breaking(113);
        pair.certificate.subject.push(further);
    });
    faults.add("three further CNs", &[113], END_ENTITY, |pair, _, _| {
        for text in ["one", "two", "two"] {
            let further = Attribute::new(oid::common_name(), Element::utf8(text)).breaking(113);
            pair.certificate.subject.push(further);
        }
    });
    faults.add("a second CN that is good", &[113], AUTHORITY, |pair, _, _| {
        let further = Attribute::new(oid::common_name(), Element::printable("US Federal Test TLS CA 1"));
        pair.certificate.subject.push(further.breaking(113));
    });
    faults.add("three further CNs that are wrong", &[113, 122], AUTHORITY, |pair, random, _| {
        for _ in 0..3 {
            let further = Attribute::new(oid::common_name(), wrong_authority(random));
            pair.certificate.subject.push(further.breaking(113).breaking(122));
        }
    });
}

fn add_name_of_authority(faults: &mut Catalogue) {
    let mut faults = faults.touching(&[CommonName]);
    faults.add("CN not the name of a subordinate CA", &[122], AUTHORITY, |pair, random, _| {
        spoil_attribute(pair, &oid::common_name(), wrong_authority(random), 122);
    });
}

fn wrong_authority(random: &mut Random) -> Element {
    let mut wrong = wrong_authorities();
    wrong.swap_remove(random.below(wrong.len()))
}

/// Values of a CN that are not the name of a subordinate CA.
pub fn wrong_authorities() -> Vec<Element> {
    let mut values = Vec::new();
    for words in AUTHORITY_NAMES {
        let numbers =
            ["", "0", "00", "01", "1 ", " 1", "1a", "a", "-1", "+1", "1.0", "1,000", "1\0", "\u{661}"];
        values.extend(numbers.map(|number| Element::printable(&format!("{words}{number}"))));
        values.push(Element::printable(words.trim_end()));
        values.push(Element::printable(&format!("{}1", words.trim_end())));
        values.push(Element::printable(&format!("{words}1").to_lowercase()));
        values.push(Element::printable(&format!("{words}1").to_uppercase()));
        values.push(Element::printable(&format!(" {words}1")));
        values.push(Element::utf8(&format!("{words}1")));
        let kinds = [tag::IA5_STRING, tag::TELETEX_STRING, tag::OCTET_STRING, tag::context(19)];
        values.extend(kinds.map(|kind| Element::primitive(kind, format!("{words}1").as_bytes())));
    }
    let others = [
        "",
        "1",
        "US Federal test TLS CA 1",
        "US Federal TEST TLS CA 1",
        "US Federal Test Test TLS CA 1",
        "US Federal  TLS CA 1",
        "US Federal TLS Test CA 1",
        "US Federal TLS CA1",
        "US Federal TLS ca 1",
        "US Federal Root CA 1",
        "Test US Federal TLS CA 1",
        "www.agency.example",
    ];
    values.extend(others.map(Element::printable));
    values
}

fn add_common_name(faults: &mut Catalogue) {
    let mut faults = faults.touching(&[CommonName, Extension(7)]);
    faults.add("CN no host name of the certificate", &[120], SERVER, |pair, _, _| {
        set_common_name(pair, b"elsewhere.agency.example");
    });
    faults.add("CN a beginning of the host name", &[120], SERVER, |pair, _, _| {
        pair.extension(7).set_value(Element::sequence(vec![dns("www.agency.example")]));
        set_common_name(pair, b"www.agency.exampl");
    });
    faults.add("CN longer than the host name", &[120], SERVER, |pair, _, _| {
        pair.extension(7).set_value(Element::sequence(vec![dns("a.b"), dns("www.agency.example")]));
        set_common_name(pair, b"www.agency.example.");
    });
    faults.add("CN empty", &[120], SERVER, |pair, _, _| set_common_name(pair, b""));
    faults.add("CN unlike by more than case", &[120], SERVER, |pair, _, _| {
        // A hyphen and a carriage return differ by the very bit that parts the two cases of a
        // letter.
        pair.extension(7).set_value(Element::sequence(vec![dns("a-b.agency.example")]));
        set_common_name(pair, b"a\rb.agency.example");
    });
}

fn set_common_name(pair: &mut Pair, text: &[u8]) {
    let attribute = pair.certificate.subject.attribute(&oid::common_name());
    attribute.value = Element::primitive(tag::UTF8_STRING, text);
    attribute.marks.push(Mark::Breaks(120));
}

fn add_country(faults: &mut Catalogue) {
    let mut faults = faults.touching(&[Country]);
    faults.add("no C", &[114], ALL, |pair, _, _| {
        pair.certificate.subject.remove(&oid::country());
        pair.certificate.subject.breaks(114);
    });
    faults.add("a second C", &[114], ALL, |pair, _, _| {
        pair.certificate.subject.push(Attribute::new(oid::country(), Element::printable("US")).breaking(114));
    });
    faults.add("a second C that is wrong", &[114, 115], ALL, |pair, _, _| {
        let further = Attribute::new(oid::country(), Element::printable("CA"));
        pair.certificate.subject.push(further.breaking(114).breaking(115));
    });
    faults.add("C not the PrintableString US", &[115], ALL, |pair, random, _| {
        let wrong = match random.below(6) {
            0 => Element::utf8("US"),
            1 => Element::printable("us"),
            2 => Element::printable("USA"),
            3 => Element::printable("U"),
            4 => Element::printable(""),
            _ => Element::primitive(tag::IA5_STRING, b"US"),
        };
        spoil_attribute(pair, &oid::country(), wrong, 115);
    });
}

fn spoil_attribute(pair: &mut Pair, kind: &[u8], value: Element, rule: u16) {
    let attribute = pair.certificate.subject.attribute(kind);
    attribute.value = value;
    attribute.marks.push(Mark::Breaks(rule));
}

fn add_organization(faults: &mut Catalogue) {
    let mut faults = faults.touching(&[Organization]);
    faults.add("no O", &[116], WITH_ORGANIZATION, |pair, _, _| {
        pair.certificate.subject.remove(&oid::organization());
        pair.certificate.subject.breaks(116);
    });
    faults.add("a second O", &[116], WITH_ORGANIZATION, |pair, _, _| {
        let further = Attribute::new(oid::organization(), Element::printable("U.S. Government"));
        pair.certificate.subject.push(further.breaking(116));
    });
    faults.add("a second O that is wrong", &[116, 117], WITH_ORGANIZATION, |pair, _, _| {
        let further = Attribute::new(oid::organization(), Element::utf8("Bureau"));
        pair.certificate.subject.push(further.breaking(116).breaking(117));
    });
    faults.add("O with another text", &[117], WITH_ORGANIZATION, |pair, random, _| {
        let texts = ["U.S.Government", "u.s. government", "U.S. Government ", "U.S. Governmen", ""];
        let text = random.choose(&texts);
        spoil_attribute(pair, &oid::organization(), Element::printable(text), 117);
    });
    faults.add("O in another string type", &[117], WITH_ORGANIZATION, |pair, random, _| {
        let kind = *random.choose(&[tag::IA5_STRING, tag::TELETEX_STRING, tag::OCTET_STRING]);
        spoil_attribute(pair, &oid::organization(), Element::primitive(kind, b"U.S. Government"), 117);
    });
    faults.add("O in a UTF8String", &[117], AUTHORITY, |pair, _, _| {
        spoil_attribute(pair, &oid::organization(), Element::utf8("U.S. Government"), 117);
    });
}

fn add_state(faults: &mut Catalogue) {
    let mut faults = faults.touching(&[State]);
    faults.add("no ST", &[118], ORGANIZATION, |pair, _, _| {
        pair.certificate.subject.remove(&oid::state());
        pair.certificate.subject.breaks(118);
    });
    faults.add("a second ST", &[118], ORGANIZATION, |pair, _, _| {
        let further = Attribute::new(oid::state(), Element::utf8("District of Columbia"));
        pair.certificate.subject.push(further.breaking(118));
    });
    faults.add("ST with another text", &[119], ORGANIZATION, |pair, random, _| {
        let text = random.choose(&["DC", "District Of Columbia", "District of Columbia.", ""]);
        spoil_attribute(pair, &oid::state(), Element::utf8(text), 119);
    });
    faults.add("ST in another string type", &[119], ORGANIZATION, |pair, _, _| {
        let value = Element::primitive(tag::TELETEX_STRING, b"District of Columbia");
        spoil_attribute(pair, &oid::state(), value, 119);
    });
}

fn add_subject_sets(faults: &mut Catalogue) {
    let mut faults = faults.touching(&[OtherAttributes]);
    faults.add("a subject set with two members or more", &[121], RESPONDER, |pair, random, _| {
        add_crowded_sets(pair, 1, random);
    });
    faults.add("two subject sets with too many members", &[121], RESPONDER, |pair, random, _| {
        add_crowded_sets(pair, 2, random);
    });
}

fn add_crowded_sets(pair: &mut Pair, count: usize, random: &mut Random) {
    for _ in 0..count {
        let unit = |text: &str| Attribute::new(oid::organizational_unit(), Element::printable(text));
        let mut attributes = vec![unit("east"), unit("west")];
        // Equal members are allowed in a SET OF, and two of them are still two.
        if random.once_in(2) {
            attributes.push(unit("west"));
        }
        let set = RelativeName { attributes, marks: vec![Mark::Breaks(121)] };
        let position = random.below(pair.certificate.subject.sets.len() + 1);
        pair.certificate.subject.sets.insert(position, set);
    }
}
