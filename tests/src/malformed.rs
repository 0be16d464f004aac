//! Certificates that are turned away with 4, 5 or 6, each with the one place where that must be
//! said.

use crate::certificate::{node, Attribute, Certificate};
use crate::element::{tag, Element, LengthForm, Mark, Part};
use crate::object_identifiers as oid;
use crate::random::Random;
use crate::variations::any_moment;

pub struct Malformed {
    pub what: String,
    pub number: u8,
    pub tree: Element,
}

/// A certificate that has every field, so that every field can be spoiled.
pub fn with_every_field(mut certificate: Certificate) -> Certificate {
    certificate.issuer_unique = Some(Element::primitive(tag::context(1), &[0, 1]));
    certificate.subject_unique = Some(Element::primitive(tag::context(2), &[]));
    certificate.extensions[0].critical = true;
    certificate
}

/// Every malformed variant of a certificate that has every field.
pub fn malformed(certificate: &Certificate) -> Vec<Malformed> {
    let mut all = Collection { base: certificate.element(), items: Vec::new() };
    add_unsound_types(&mut all);
    add_wrongly_constructed(&mut all);
    add_unsound_headers(&mut all);
    add_unsound_depths(&mut all);
    add_unordered(&mut all);
    add_wrong_elements(&mut all);
    add_elements_of_a_like_type(&mut all);
    add_missing_elements(&mut all);
    add_missing_stretches(&mut all);
    add_extra_elements(&mut all);
    add_misplaced_elements(&mut all);
    add_wrong_values(&mut all);
    add_wrong_times(&mut all);
    all.items
}

struct Collection {
    base: Element,
    items: Vec<Malformed>,
}

impl Collection {
    /// A copy of the certificate with one change; the change marks where the refusal is due.
    fn add(&mut self, what: &str, number: u8, change: impl FnOnce(&mut Element)) {
        let mut tree = self.base.clone();
        change(&mut tree);
        self.items.push(Malformed { what: what.to_string(), number, tree });
    }

    /// A change of one node, at which the refusal is due.
    fn add_at(&mut self, what: &str, number: u8, name: &str, change: impl FnOnce(&mut Element)) {
        self.add(&format!("{name}: {what}"), number, |tree| {
            let found = tree.find(name);
            change(found);
            found.marks.push(Mark::Refused(number));
        });
    }
}

fn refuse(element: &mut Element, number: u8) {
    element.marks.push(Mark::Refused(number));
}

fn add_unsound_types(all: &mut Collection) {
    let contents: [(&str, &str, &[u8]); 18] = [
        (node::CRITICAL, "BOOLEAN of 01", &[1]),
        (node::CRITICAL, "BOOLEAN of no octet", &[]),
        (node::CRITICAL, "BOOLEAN of two octets", &[0xFF, 0xFF]),
        (node::SERIAL, "INTEGER of no octet", &[]),
        (node::SERIAL, "INTEGER with a zero octet too many", &[0, 0x7F]),
        (node::SERIAL, "INTEGER with an FF octet too many", &[0xFF, 0x80]),
        (node::VERSION_NUMBER, "INTEGER of no octet", &[]),
        (node::VERSION_NUMBER, "INTEGER with a zero octet too many", &[0, 2]),
        (node::SIGNATURE, "BIT STRING of no octet", &[]),
        (node::SIGNATURE, "BIT STRING with eight unused bits", &[8, 0]),
        (node::SIGNATURE, "BIT STRING with unused bits set", &[3, 0xF4]),
        (node::SIGNATURE, "BIT STRING with unused bits of nothing", &[1]),
        (node::KEY_BITS, "BIT STRING of FF unused bits", &[0xFF, 0]),
        (node::ATTRIBUTE_TYPE, "OID of no octet", &[]),
        (node::ATTRIBUTE_TYPE, "OID that stops in an arc", &[0x55, 0x84]),
        (node::ATTRIBUTE_TYPE, "OID with an arc starting 80", &[0x55, 0x80, 3]),
        (node::EXTENSION_IDENTIFIER, "OID starting 80", &[0x80, 0x1D]),
        (node::EXTENSION_IDENTIFIER, "OID whose last octet is FF", &[0x55, 0xFF]),
    ];
    for (name, what, octets) in contents {
        all.add_at(what, 4, name, |element| element.set_octets(octets));
    }
    all.add("NULL with contents", 4, |tree| {
        let null = Element::primitive(tag::NULL, &[0]).refused(4);
        tree.find(node::INNER_ALGORITHM).contents[1] = Part::Element(null);
    });
}

/// Types that are constructed and must not be, and the reverse.
fn add_wrongly_constructed(all: &mut Collection) {
    for (name, identifier) in [
        (node::CERTIFICATE, 0x10),
        (node::TBS, 0x10),
        (node::RELATIVE_NAME, 0x11),
        (node::SERIAL, 0x22),
        (node::SIGNATURE, 0x23),
        (node::EXTENSION_VALUE, 0x24),
        (node::ATTRIBUTE_TYPE, 0x26),
        (node::ATTRIBUTE_VALUE, 0x2C),
        (node::ATTRIBUTE_VALUE, 0x33),
        (node::NOT_BEFORE, 0x37),
        (node::CRITICAL, 0x21),
    ] {
        all.add_at(&format!("identifier octet {identifier:02X}"), 4, name, |element| {
            element.identifier = identifier
        });
    }
}

fn add_unsound_headers(all: &mut Collection) {
    for identifier in [0x00, 0x20, 0x1F, 0x3F, 0x5F, 0x7F, 0x9F, 0xBF, 0xDF, 0xFF] {
        for name in [node::CERTIFICATE, node::ISSUER, node::ATTRIBUTE_VALUE, node::SIGNATURE] {
            let what = format!("identifier octet {identifier:02X}");
            all.add_at(&what, 4, name, |element| element.identifier = identifier);
        }
    }
    for name in [node::CERTIFICATE, node::TBS, node::VALIDITY, node::EXTENSION, node::SERIAL, node::SIGNATURE]
    {
        all.add_at("indefinite length", 4, name, |element| element.length_form = LengthForm::Indefinite);
        all.add_at("length in four octets", 4, name, |element| element.length_form = LengthForm::Long(4));
        all.add_at("length in nine octets", 4, name, |element| element.length_form = LengthForm::Long(9));
    }
    all.add_at("one octet too long", 4, node::SIGNATURE, |element| claim(element, 1));
    all.add_at("one octet too long", 4, node::NOT_AFTER, |element| claim(element, 1));
    all.add_at("one octet too long", 4, node::EXTENSION_VALUE, |element| claim(element, 1));
    all.add_at("far too long", 4, node::SERIAL, |element| element.length_form = LengthForm::Claimed(60_000));
    all.add_at("far too long", 4, node::ATTRIBUTE_VALUE, |element| {
        element.length_form = LengthForm::Claimed(127)
    });
    all.add_at("one octet too long", 4, node::CERTIFICATE, |element| claim(element, 1));
    all.add_at("one octet too short", 4, node::CERTIFICATE, |element| {
        let length = contents_length(element);
        element.length_form = LengthForm::Claimed(length - 1);
    });
    all.add("a stray octet at the end of the validity", 4, |tree| {
        // One octet alone is a header that passes its container's end.
        let stray = Element { length_form: LengthForm::Claimed(1), ..Element::primitive(tag::NULL, &[]) };
        tree.find(node::VALIDITY).push(stray.refused(4));
    });
}

/// How many octets the contents of an element take.
fn contents_length(element: &Element) -> usize {
    let length = |part: &Part| match part {
        Part::Octets(octets) => octets.len(),
        Part::Element(member) => member.octets().len(),
    };
    element.contents.iter().map(length).sum()
}

fn claim(element: &mut Element, more: usize) {
    element.length_form = LengthForm::Claimed(contents_length(element) + more);
}

fn add_unsound_depths(all: &mut Collection) {
    // An attribute's value stands at depth 6: certificate, TBS, name, set, attribute, value.
    all.add("an element at depth 17", 4, |tree| {
        *tree.find(node::ATTRIBUTE_VALUE) = nested(6, 17, Element::null().refused(4));
    });
    all.add("an element at depth 17 before one at 20", 4, |tree| {
        let deeper = nested(17, 20, Element::null());
        *tree.find(node::ATTRIBUTE_VALUE) = nested(6, 17, deeper.refused(4));
    });
}

/// An element at depth `from` with nothing but SEQUENCEs down to `inner` at depth `to`.
pub fn nested(from: usize, to: usize, inner: Element) -> Element {
    (from..to).fold(inner, |inside, _| Element::sequence(vec![inside]))
}

/// A SET whose members stand as given.
fn set_as_given(members: Vec<Element>) -> Element {
    Element::constructed(tag::SET, members)
}

fn add_unordered(all: &mut Collection) {
    let attribute = |text: &str| Attribute::new(oid::locality(), Element::printable(text)).element();
    all.add("a name's set out of order", 5, |tree| {
        let set = set_as_given(vec![attribute("b"), attribute("a")]).refused(5);
        tree.find(node::SUBJECT).push(set);
    });
    all.add("a SET out of order in an attribute's value", 5, |tree| {
        let set = set_as_given(vec![Element::integer(&[2]), Element::integer(&[1])]);
        *tree.find(node::ATTRIBUTE_VALUE) = set.refused(5);
    });
    all.add("a SET out of order in a SET in order", 5, |tree| {
        let inner = set_as_given(vec![Element::null(), Element::integer(&[1])]).refused(5);
        *tree.find(node::ATTRIBUTE_VALUE) = set_as_given(vec![Element::integer(&[1]), inner]);
    });
    all.add("a SET out of order in a SET out of order", 5, |tree| {
        let inner = set_as_given(vec![Element::null(), Element::integer(&[1])]);
        *tree.find(node::ATTRIBUTE_VALUE) = set_as_given(vec![inner, Element::integer(&[1])]).refused(5);
    });
    all.add("two SETs out of order", 5, |tree| {
        let unordered = || set_as_given(vec![Element::integer(&[2]), Element::integer(&[1])]);
        *tree.find(node::ATTRIBUTE_VALUE) = unordered().refused(5);
        *tree.find(node::SUBJECT).find(node::ATTRIBUTE_VALUE) = unordered();
    });
    all.add("a SET where a shorter member follows", 5, |tree| {
        let set = set_as_given(vec![Element::octet_string(&[1, 2]), Element::octet_string(&[9])]);
        *tree.find(node::ATTRIBUTE_VALUE) = set.refused(5);
    });
    all.add("a SET out of order and an element that is unsound after it", 4, |tree| {
        let set = set_as_given(vec![Element::integer(&[2]), Element::integer(&[1])]);
        *tree.find(node::ATTRIBUTE_VALUE) = set;
        tree.find(node::SIGNATURE).set_octets(&[]);
        refuse(tree.find(node::SIGNATURE), 4);
    });
    all.add("a SET out of order after what no certificate has", 5, |tree| {
        *tree.find(node::SERIAL) = Element::null();
        let set = set_as_given(vec![Element::integer(&[2]), Element::integer(&[1])]);
        *tree.find(node::ATTRIBUTE_VALUE) = set.refused(5);
    });
}

fn add_wrong_elements(all: &mut Collection) {
    for name in [
        node::CERTIFICATE,
        node::TBS,
        node::VERSION,
        node::VERSION_NUMBER,
        node::SERIAL,
        node::INNER_ALGORITHM,
        node::ISSUER,
        node::RELATIVE_NAME,
        node::ATTRIBUTE,
        node::ATTRIBUTE_TYPE,
        node::VALIDITY,
        node::NOT_BEFORE,
        node::NOT_AFTER,
        node::SUBJECT,
        node::KEY,
        node::KEY_ALGORITHM,
        node::KEY_BITS,
        node::ISSUER_UNIQUE,
        node::SUBJECT_UNIQUE,
        node::EXTENSIONS,
        node::EXTENSION_LIST,
        node::EXTENSION,
        node::EXTENSION_IDENTIFIER,
        node::CRITICAL,
        node::EXTENSION_VALUE,
        node::OUTER_ALGORITHM,
        node::SIGNATURE,
    ] {
        all.add_at("a NULL instead", 6, name, |element| *element = Element::null());
        all.add_at("an application tag instead", 6, name, |element| *element = Element::primitive(0x41, &[]));
    }
}

fn add_elements_of_a_like_type(all: &mut Collection) {
    for name in [node::CERTIFICATE, node::TBS, node::ISSUER, node::VALIDITY, node::KEY, node::EXTENSION_LIST]
    {
        all.add_at("a universal 8 instead of a SEQUENCE", 6, name, |element| element.identifier = 0x28);
    }
    all.add_at("a primitive [0]", 6, node::VERSION, |element| {
        *element = Element::primitive(tag::context(0), &[2])
    });
    all.add_at("a constructed [1]", 6, node::ISSUER_UNIQUE, |element| *element = constructed(1));
    all.add_at("a constructed [2]", 6, node::SUBJECT_UNIQUE, |element| *element = constructed(2));
    all.add_at("a primitive [3]", 6, node::EXTENSIONS, |element| element.identifier = tag::context(3));
    all.add_at("a SEQUENCE instead of the set", 6, node::RELATIVE_NAME, |element| {
        element.identifier = tag::SEQUENCE
    });
    all.add_at("an ENUMERATED instead", 6, node::SERIAL, |element| element.identifier = tag::ENUMERATED);
    all.add_at("a BIT STRING instead", 6, node::EXTENSION_VALUE, |element| {
        *element = Element::bit_string(0, &[])
    });
    all.add_at("an OCTET STRING instead", 6, node::SIGNATURE, |element| {
        element.identifier = tag::OCTET_STRING
    });
    all.add_at("a PrintableString instead", 6, node::NOT_AFTER, |element| {
        element.identifier = tag::PRINTABLE_STRING
    });
}

fn constructed(number: u8) -> Element {
    Element::constructed(tag::context_constructed(number), vec![])
}

fn add_missing_elements(all: &mut Collection) {
    // (the container, what is taken out of it, where reading then fails)
    for (container, missing, place) in [
        (node::CERTIFICATE, node::SIGNATURE, node::CERTIFICATE),
        (node::CERTIFICATE, node::OUTER_ALGORITHM, node::SIGNATURE),
        (node::TBS, node::SERIAL, node::INNER_ALGORITHM),
        (node::TBS, node::INNER_ALGORITHM, node::RELATIVE_NAME),
        (node::TBS, node::ISSUER, node::NOT_BEFORE),
        (node::TBS, node::SUBJECT, node::KEY_ALGORITHM),
        (node::TBS, node::KEY, node::ISSUER_UNIQUE),
        (node::VERSION, node::VERSION_NUMBER, node::VERSION),
        (node::VALIDITY, node::NOT_BEFORE, node::VALIDITY),
        (node::VALIDITY, node::NOT_AFTER, node::VALIDITY),
        (node::RELATIVE_NAME, node::ATTRIBUTE, node::RELATIVE_NAME),
        (node::ATTRIBUTE, node::ATTRIBUTE_TYPE, node::ATTRIBUTE_VALUE),
        (node::ATTRIBUTE, node::ATTRIBUTE_VALUE, node::ATTRIBUTE),
        (node::KEY, node::KEY_ALGORITHM, node::KEY_BITS),
        (node::KEY, node::KEY_BITS, node::KEY),
        (node::EXTENSIONS, node::EXTENSION_LIST, node::EXTENSIONS),
        (node::EXTENSION, node::EXTENSION_IDENTIFIER, node::CRITICAL),
        (node::EXTENSION, node::EXTENSION_VALUE, node::EXTENSION),
    ] {
        all.add(&format!("no {missing}"), 6, |tree| {
            tree.find(container).remove(missing);
            refuse(tree.find(place), 6);
        });
    }
}

fn add_missing_stretches(all: &mut Collection) {
    all.add("no validity", 6, |tree| {
        tree.find(node::TBS).remove(node::VALIDITY);
        refuse(tree.find(node::SUBJECT).find(node::RELATIVE_NAME), 6);
    });
    all.add("no TBS structure", 6, |tree| {
        // The outer algorithm is then read as one, and starts with an identifier where the serial
        // should be.
        tree.remove(node::TBS);
        let identifier = tree.find(node::OUTER_ALGORITHM).members_mut().next().expect("it has an identifier");
        refuse(identifier, 6);
    });
    all.add("nothing after the subject", 6, |tree| {
        let tbs = tree.find(node::TBS);
        for name in [node::KEY, node::ISSUER_UNIQUE, node::SUBJECT_UNIQUE, node::EXTENSIONS] {
            tbs.remove(name);
        }
        refuse(tbs, 6);
    });
    for name in [
        node::CERTIFICATE,
        node::TBS,
        node::INNER_ALGORITHM,
        node::VALIDITY,
        node::KEY,
        node::EXTENSION_LIST,
        node::EXTENSION,
        node::ATTRIBUTE,
        node::KEY_ALGORITHM,
        node::OUTER_ALGORITHM,
        node::VERSION,
    ] {
        all.add_at("empty", 6, name, |element| element.contents.clear());
    }
}

fn add_extra_elements(all: &mut Collection) {
    for name in [
        node::CERTIFICATE,
        node::TBS,
        node::VERSION,
        node::INNER_ALGORITHM,
        node::ISSUER,
        node::ATTRIBUTE,
        node::VALIDITY,
        node::SUBJECT,
        node::KEY,
        node::KEY_ALGORITHM,
        node::EXTENSIONS,
        node::EXTENSION_LIST,
        node::EXTENSION,
        node::OUTER_ALGORITHM,
    ] {
        all.add(&format!("{name}: a NULL too many at the end"), 6, |tree| {
            tree.find(name).push(Element::null().refused(6));
        });
    }
}

fn add_misplaced_elements(all: &mut Collection) {
    all.add("a NULL among the attributes of a set", 6, |tree| {
        tree.find(node::RELATIVE_NAME).insert(0, Element::null().refused(6));
    });
    all.add("extensions twice", 6, |tree| {
        let mut second = tree.find(node::EXTENSIONS).clone();
        refuse(&mut second, 6);
        tree.find(node::TBS).push(second);
    });
    all.add("unique identifiers exchanged", 6, |tree| {
        let tbs = tree.find(node::TBS);
        let mut first = tbs.remove(node::ISSUER_UNIQUE);
        refuse(&mut first, 6);
        let position = tbs.contents.len() - 1;
        tbs.insert(position, first);
    });
    all.add("the issuer's unique identifier twice", 6, |tree| {
        let tbs = tree.find(node::TBS);
        let mut second = tbs.find(node::ISSUER_UNIQUE).clone();
        refuse(&mut second, 6);
        let position = tbs.contents.len() - 2;
        tbs.insert(position, second);
    });
    all.add("critical twice", 6, |tree| {
        tree.find(node::EXTENSION).insert(1, Element::boolean(true));
        refuse(tree.find(node::CRITICAL), 6);
    });
    all.add("a version after the serial", 6, |tree| {
        let tbs = tree.find(node::TBS);
        let mut version = tbs.remove(node::VERSION);
        refuse(&mut version, 6);
        tbs.insert(1, version);
    });
}

fn add_wrong_values(all: &mut Collection) {
    for (what, contents) in
        [("v1 written", &[0][..]), ("v4", &[3]), ("of -1", &[0xFF]), ("of 256", &[1, 0]), ("of 258", &[1, 2])]
    {
        all.add_at(what, 6, node::VERSION_NUMBER, |element| element.set_octets(contents));
    }
    all.add_at("FALSE written", 6, node::CRITICAL, |element| element.set_octets(&[0]));
}

/// Texts that are no UTCTime of the certificate.
pub const WRONG_UTC_TIMES: [&str; 26] = [
    "",
    "Z",
    "2401010000Z",
    "240101000000",
    "240101000000z",
    "240101000000+0000",
    "2401010000000Z",
    "240001000000Z",
    "241301000000Z",
    "240100000000Z",
    "240132000000Z",
    "240230000000Z",
    "230229000000Z",
    "240431000000Z",
    "240631000000Z",
    "240931000000Z",
    "241131000000Z",
    "240101240000Z",
    "240101006000Z",
    "240101000060Z",
    "24010100000 Z",
    "2401010000:0Z",
    "2401010000/0Z",
    "-40101000000Z",
    "20240101000000Z",
    "240101000000.Z",
];

/// Texts that are no GeneralizedTime of the certificate.
pub const WRONG_GENERALIZED_TIMES: [&str; 16] = [
    "",
    "205001010000Z",
    "20500101000000",
    "20500101000000.0Z",
    "20500101000000+0000",
    "20501301000000Z",
    "20500001000000Z",
    "20500230000000Z",
    "21000229000000Z",
    "22000229000000Z",
    "19000229000000Z",
    "20500101240000Z",
    "20500101006000Z",
    "20500101000060Z",
    "500101000000Z",
    "2050010100000aZ",
];

fn add_wrong_times(all: &mut Collection) {
    for name in [node::NOT_BEFORE, node::NOT_AFTER] {
        for text in WRONG_UTC_TIMES {
            all.add_at(&format!("UTCTime {text:?}"), 6, name, |element| {
                element.identifier = tag::UTC_TIME;
                element.set_octets(text.as_bytes());
            });
        }
        for text in WRONG_GENERALIZED_TIMES {
            all.add_at(&format!("GeneralizedTime {text:?}"), 6, name, |element| {
                element.identifier = tag::GENERALIZED_TIME;
                element.set_octets(text.as_bytes());
            });
        }
    }
}

/// A malformed variant with chance in it: one digit of a time replaced so that no date is left.
pub fn with_a_broken_time(certificate: &Certificate, random: &mut Random) -> Element {
    let mut tree = certificate.element();
    let mut time = any_moment(random).due_form();
    let mut text = time.octets()[2..].to_vec();
    let position = random.below(text.len());
    text[position] = *random.choose(b"/:z+ \0\xFF");
    time.set_octets(&text);
    let name = *random.choose(&[node::NOT_BEFORE, node::NOT_AFTER]);
    let marks = tree.find(name).marks.clone();
    *tree.find(name) = Element { marks, ..time };
    refuse(tree.find(name), 6);
    tree
}
