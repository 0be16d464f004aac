//! Extension values that are not exactly one sound element of their RFC 5280 type (rules 341 to
//! 351), and values on the edge that are.

use crate::certificate::{Attribute, Name, RelativeName};
use crate::correct::{plain_value, HOST, ISSUER_KEY_IDENTIFIER};
use crate::element::{tag, Element, LengthForm, Part};
use crate::general_names::*;
use crate::object_identifiers as oid;
use crate::profile::{judging_profile, AUTHORITY};

/// A value and what is said about it.
pub struct Value {
    pub what: String,
    pub parts: Vec<Part>,
}

fn value(what: &str, element: Element) -> Value {
    Value { what: what.to_string(), parts: vec![Part::Element(element)] }
}

fn octets(what: &str, octets: &[u8]) -> Value {
    Value { what: what.to_string(), parts: vec![Part::Octets(octets.to_vec())] }
}

fn sequence(members: Vec<Element>) -> Element {
    Element::sequence(members)
}

/// Bad values of one extension, one fault each.
pub fn bad_values(slot: u8) -> Vec<Value> {
    let mut values = match slot {
        1 => bad_authority_key_identifiers(),
        2 => bad_basic_constraints(),
        3 => bad_subject_key_identifiers(),
        4 => bad_key_usages(),
        5 => bad_purposes(),
        6 => bad_policies(),
        7 => bad_alternative_names(),
        8 => bad_accesses(),
        9 => bad_points(),
        10 => bad_nochecks(),
        11 => bad_name_constraints(),
        _ => panic!("the table has no row {slot}"),
    };
    values.extend(bad_for_any(slot));
    values
}

/// Faults that every type of value can have, made of a good value.
fn bad_for_any(slot: u8) -> Vec<Value> {
    let good = plain_value(slot, judging_profile(slot));
    let whole = good.octets();
    let mut values = vec![octets("nothing", &[])];
    values.push(octets("one octet after the element", &[whole.as_slice(), &[0]].concat()));
    values.push(octets("two elements", &[whole.as_slice(), whole.as_slice()].concat()));
    values.push(octets("cut by an octet", &whole[..whole.len() - 1]));
    values.push(octets("the identifier octet alone", &whole[..1]));
    values.push(value("length in the long form", good.clone().with_length_form(LengthForm::Long(3))));
    values.push(value("another identifier octet", Element { identifier: tag::context(0), ..good.clone() }));
    values.push(value("a SET around it", Element::set_of(vec![good.clone()])));
    if slot != 3 {
        // The subject key identifier is an OCTET STRING itself, whatever it holds.
        values.push(value("an OCTET STRING around it", Element::octet_string(&whole)));
    }
    values.push(value("a tag number of 31", Element { identifier: good.identifier | 0x1F, ..good.clone() }));
    if good.identifier == tag::SEQUENCE {
        values.push(value("indefinite length", good.clone().with_length_form(LengthForm::Indefinite)));
        let mut more = good.clone();
        more.push(Element::null());
        values.push(value("a NULL after the last member", more));
        values.push(octets("a primitive SEQUENCE", &[&[0x10], &whole[1..]].concat()));
    }
    values
}

fn context(number: u8, contents: &[u8]) -> Element {
    Element::primitive(tag::context(number), contents)
}

fn constructed(number: u8, members: Vec<Element>) -> Element {
    Element::constructed(tag::context_constructed(number), members)
}

fn bad_authority_key_identifiers() -> Vec<Value> {
    let key = || context(0, &[1; 20]);
    vec![
        value(
            "key identifier constructed",
            sequence(vec![constructed(0, vec![Element::octet_string(&[1])])]),
        ),
        value("an OCTET STRING without its implicit tag", sequence(vec![Element::octet_string(&[1; 20])])),
        value("key identifier twice", sequence(vec![key(), key()])),
        value(
            "no names in the list of issuers",
            sequence(vec![key(), constructed(1, vec![]), context(2, &[1])]),
        ),
        value("issuers primitive", sequence(vec![key(), context(1, &[])])),
        value("a bad name among the issuers", sequence(vec![key(), constructed(1, vec![Element::null()])])),
        value("serial empty", sequence(vec![key(), context(2, &[])])),
        value("serial not minimal", sequence(vec![key(), context(2, &[0, 0x7F])])),
        value("serial negative and not minimal", sequence(vec![key(), context(2, &[0xFF, 0x80])])),
        value("fields out of order", sequence(vec![context(2, &[1]), key()])),
        value("an unknown field", sequence(vec![key(), context(3, &[])])),
    ]
}

fn bad_basic_constraints() -> Vec<Value> {
    let path = |contents: &[u8]| Element::integer(contents);
    vec![
        value("cA FALSE written", sequence(vec![Element::boolean(false)])),
        value("cA FALSE with a path length", sequence(vec![Element::boolean(false), path(&[0])])),
        value("cA neither 00 nor FF", sequence(vec![Element::primitive(tag::BOOLEAN, &[1])])),
        value("path length negative", sequence(vec![Element::boolean(true), path(&[0xFF])])),
        value("path length of -128 alone", sequence(vec![path(&[0x80])])),
        value("path length not minimal", sequence(vec![Element::boolean(true), path(&[0, 1])])),
        value("path length before cA", sequence(vec![path(&[0]), Element::boolean(true)])),
        value("two path lengths", sequence(vec![path(&[0]), path(&[0])])),
        value("two cAs", sequence(vec![Element::boolean(true), Element::boolean(true)])),
        value("path length ENUMERATED", sequence(vec![Element::primitive(tag::ENUMERATED, &[0])])),
    ]
}

fn bad_subject_key_identifiers() -> Vec<Value> {
    vec![
        octets("twenty octets without a header", &[7; 20]),
        octets("a constructed OCTET STRING", &[0x24, 3, 4, 1, 7]),
        value("a BIT STRING", Element::bit_string(0, &[7; 20])),
        value("a SEQUENCE of it", sequence(vec![Element::octet_string(&[7; 20])])),
    ]
}

fn bad_key_usages() -> Vec<Value> {
    vec![
        value("trailing zero bits", Element::bit_string(0, &[0x80])),
        value("all bits clear in one octet", Element::bit_string(7, &[0])),
        value("all bits clear in an octet without unused bits", Element::bit_string(0, &[0])),
        value("a trailing zero octet", Element::bit_string(0, &[0x80, 0])),
        value("one zero bit too many", Element::bit_string(4, &[0xA0])),
        value("unused bits that are set", Element::primitive(tag::BIT_STRING, &[7, 0xC0])),
        value("eight unused bits", Element::primitive(tag::BIT_STRING, &[8, 0x80])),
        value("unused bits of nothing", Element::primitive(tag::BIT_STRING, &[1])),
        value("no octet at all", Element::primitive(tag::BIT_STRING, &[])),
        octets("a constructed BIT STRING", &[0x23, 4, 3, 2, 7, 0x80]),
        value("an INTEGER", Element::integer(&[1])),
    ]
}

fn bad_purposes() -> Vec<Value> {
    let purpose = || Element::object_identifier(&oid::server_auth());
    vec![
        value("no purpose", sequence(vec![])),
        value("an empty purpose", sequence(vec![purpose(), Element::object_identifier(&[])])),
        value("an unfinished arc", sequence(vec![purpose(), Element::object_identifier(&[0x2B, 0x86])])),
        value("an arc starting 80", sequence(vec![purpose(), Element::object_identifier(&[0x2B, 0x80, 1])])),
        value("first arc starting 80", sequence(vec![purpose(), Element::object_identifier(&[0x80, 1])])),
        value("a text for a purpose", sequence(vec![purpose(), Element::utf8("serverAuth")])),
        value("a list in the list", sequence(vec![sequence(vec![purpose()])])),
    ]
}

fn bad_policies() -> Vec<Value> {
    let identifier = || Element::object_identifier(&oid::federal_policy());
    let good = || policy(oid::domain_validated(), vec![]);
    let with = |qualifiers: Element| sequence(vec![good(), sequence(vec![identifier(), qualifiers])]);
    let statement = || qualifier(oid::practice_statement(), Element::primitive(tag::IA5_STRING, b"http://a"));
    vec![
        value("no policy", sequence(vec![])),
        value("a policy without identifier", sequence(vec![good(), sequence(vec![])])),
        value("a bare identifier for a policy", sequence(vec![identifier()])),
        value("no qualifier in the list", with(sequence(vec![]))),
        value("qualifiers in a SET", with(Element::set_of(vec![statement()]))),
        value("a qualifier without contents", with(sequence(vec![sequence(vec![identifier()])]))),
        value("a qualifier without identifier", with(sequence(vec![sequence(vec![Element::null()])]))),
        value("an empty qualifier", with(sequence(vec![sequence(vec![])]))),
        value(
            "a qualifier with three members",
            with(sequence(vec![sequence(vec![identifier(), Element::null(), Element::null()])])),
        ),
        value(
            "two lists of qualifiers",
            sequence(vec![sequence(vec![
                identifier(),
                sequence(vec![statement()]),
                sequence(vec![statement()]),
            ])]),
        ),
        value(
            "unsound contents of a qualifier",
            with(sequence(vec![qualifier(oid::user_notice(), bad_boolean())])),
        ),
        value(
            "a SET out of order in a qualifier",
            with(sequence(vec![qualifier(oid::user_notice(), bad_set())])),
        ),
    ]
}

fn bad_boolean() -> Element {
    Element::primitive(tag::BOOLEAN, &[1])
}

/// A SET whose members descend.
fn bad_set() -> Element {
    Element::constructed(tag::SET, vec![Element::integer(&[2]), Element::integer(&[1])])
}

/// Faults of a single GeneralName, for the three extensions that hold such names.
fn bad_general_names() -> Vec<(&'static str, Element)> {
    let identifier = Element::object_identifier(&oid::private_extension());
    let mut names = vec![
        ("a name of form 9", context(9, &[])),
        ("a universal string", Element::primitive(tag::IA5_STRING, b"www.agency.example")),
        ("an explicit IA5String", constructed(2, vec![Element::primitive(tag::IA5_STRING, b"a.b")])),
        ("a constructed URI", constructed(6, vec![])),
        ("a constructed address", constructed(7, vec![])),
        ("a constructed mail address", constructed(1, vec![])),
        ("a constructed registered identifier", constructed(8, vec![identifier])),
        ("an empty registered identifier", context(8, &[])),
        ("a registered identifier with an arc starting 80", context(8, &[0x2A, 0x80, 1])),
        ("an unfinished registered identifier", context(8, &[0x2A, 0x86])),
        ("a primitive x400Address", context(3, &[])),
        ("a primitive ediPartyName", context(5, &[])),
        ("an x400Address that is not sound", constructed(3, vec![bad_boolean()])),
        ("an x400Address with a SET out of order", constructed(3, vec![bad_set()])),
        ("an ediPartyName that is not sound", constructed(5, vec![Element::integer(&[])])),
    ];
    names.extend(bad_directory_names());
    names.extend(bad_other_names());
    names
}

fn bad_directory_names() -> Vec<(&'static str, Element)> {
    let attribute = |text: &str| Attribute::new(oid::common_name(), Element::printable(text)).element();
    let name_of = |set: Element| constructed(4, vec![sequence(vec![set])]);
    // An attribute's type, and so many values behind it.
    let attribute_of = |values: usize| {
        let mut members = vec![Element::object_identifier(&oid::private_extension())];
        members.resize(1 + values, Element::null());
        sequence(members)
    };
    let unordered = Element::constructed(tag::SET, vec![attribute("b"), attribute("a")]);
    vec![
        ("a primitive directory name", context(4, &[0x30, 0])),
        ("an empty directory name choice", constructed(4, vec![])),
        (
            "a directory name without its SEQUENCE",
            constructed(4, vec![Element::set_of(vec![attribute("a")])]),
        ),
        ("two directory names in one", constructed(4, vec![sequence(vec![]), sequence(vec![])])),
        ("a directory name with an empty set", name_of(Element::set_of(vec![]))),
        ("a directory name with an unordered set", name_of(unordered)),
        ("an attribute without value", name_of(Element::set_of(vec![attribute_of(0)]))),
        ("an attribute of three members", name_of(Element::set_of(vec![attribute_of(2)]))),
    ]
}

fn bad_other_names() -> Vec<(&'static str, Element)> {
    let kind = || Element::object_identifier(&oid::private_extension());
    let valued = |value: Element| constructed(0, vec![kind(), value]);
    vec![
        ("a primitive other name", context(0, &[])),
        ("an empty other name", constructed(0, vec![])),
        ("an other name without value", constructed(0, vec![kind()])),
        ("an other name with an untagged value", valued(Element::utf8("x"))),
        ("an other name with an empty value tag", valued(constructed(0, vec![]))),
        ("an other name with two values", valued(constructed(0, vec![Element::null(), Element::null()]))),
        ("an other name with a primitive value tag", valued(context(0, &[5, 0]))),
    ]
}

fn bad_alternative_names() -> Vec<Value> {
    let mut values = vec![value("no name", sequence(vec![]))];
    for (what, name) in bad_general_names() {
        values.push(value(what, sequence(vec![dns(HOST), name])));
    }
    values
}

fn bad_accesses() -> Vec<Value> {
    let method = || Element::object_identifier(&oid::access_by_ocsp());
    let good = || access(oid::access_to_issuers(), uri("http://a/b"));
    let mut values = vec![
        value("no access", sequence(vec![])),
        value("an access without location", sequence(vec![good(), sequence(vec![method()])])),
        value("an access without method", sequence(vec![good(), sequence(vec![uri("http://a")])])),
        value("an access with two locations", sequence(vec![sequence(vec![method(), uri("a"), uri("b")])])),
        value("a bare location", sequence(vec![uri("http://a")])),
    ];
    for (what, name) in bad_general_names() {
        values.push(value(what, sequence(vec![good(), access(oid::access_by_ocsp(), name)])));
    }
    values
}

fn bad_points() -> Vec<Value> {
    let good = || point(vec![full_name(vec![uri("http://a/b")])]);
    let with = |fields: Vec<Element>| sequence(vec![good(), point(fields)]);
    let attribute = |text: &str| Attribute::new(oid::common_name(), Element::printable(text)).element();
    let relative = |members: Vec<Element>| constructed(0, vec![constructed(1, members)]);
    let mut values = vec![
        value("no point", sequence(vec![])),
        value("an empty choice of names", with(vec![constructed(0, vec![])])),
        value("an empty full name", with(vec![full_name(vec![])])),
        value("a full name without its explicit tag", with(vec![constructed(0, vec![uri("http://a")])])),
        value(
            "both a full and a relative name",
            with(vec![constructed(
                0,
                vec![constructed(0, vec![uri("a")]), constructed(1, vec![attribute("a")])],
            )]),
        ),
        value("an empty relative name", with(vec![relative(vec![])])),
        value("a relative name out of order", with(vec![relative(vec![attribute("b"), attribute("a")])])),
        value("a relative name of no attribute", with(vec![relative(vec![Element::null()])])),
        value(
            "a relative name in a SET besides",
            with(vec![relative(vec![Element::set_of(vec![attribute("a")])])]),
        ),
        value("a name choice of form 2", with(vec![constructed(0, vec![constructed(2, vec![uri("a")])])])),
        value("names instead of a point", sequence(vec![constructed(0, vec![uri("http://a")])])),
    ];
    for (what, name) in bad_general_names() {
        values.push(value(what, with(vec![full_name(vec![name])])));
    }
    values.extend(bad_fields_of_points().map(|(what, fields)| value(what, with(fields))));
    values
}

/// Fields of a point behind its name, or in a wrong order.
fn bad_fields_of_points() -> [(&'static str, Vec<Element>); 12] {
    [
        ("reasons constructed", vec![constructed(1, vec![])]),
        ("reasons without octets", vec![context(1, &[])]),
        ("reasons with trailing zero bits", vec![reasons(0, &[0x40])]),
        ("reasons with eight unused bits", vec![reasons(8, &[0x40])]),
        ("reasons with set unused bits", vec![reasons(7, &[0xC0])]),
        ("reasons with unused bits of nothing", vec![reasons(3, &[])]),
        ("reasons twice", vec![reasons(6, &[0x40]), reasons(6, &[0x40])]),
        ("fields out of order", vec![reasons(6, &[0x40]), full_name(vec![uri("http://a")])]),
        ("an empty list issuer", vec![list_issuer(vec![])]),
        ("a primitive list issuer", vec![context(2, &[])]),
        ("a bad list issuer", vec![list_issuer(vec![context(9, &[])])]),
        ("an unknown field", vec![context(3, &[])]),
    ]
}

fn bad_nochecks() -> Vec<Value> {
    vec![
        octets("NULL with contents", &[5, 1, 0]),
        value("an empty SEQUENCE", sequence(vec![])),
        value("an empty OCTET STRING", Element::octet_string(&[])),
        octets("NULL with a long length", &[5, 0x81, 0]),
    ]
}

fn bad_name_constraints() -> Vec<Value> {
    let good = || subtree(dns("agency.example"), vec![]);
    let permitted = |subtrees: Vec<Element>| sequence(vec![subtree_list(0, subtrees)]);
    let mut values = vec![
        value("no subtree is permitted", permitted(vec![])),
        value("no subtree is excluded", sequence(vec![subtree_list(1, vec![])])),
        value("no subtree is excluded, one permitted", {
            sequence(vec![subtree_list(0, vec![good()]), subtree_list(1, vec![])])
        }),
        value("excluded before permitted", {
            sequence(vec![subtree_list(1, vec![good()]), subtree_list(0, vec![good()])])
        }),
        value(
            "permitted twice",
            sequence(vec![subtree_list(0, vec![good()]), subtree_list(0, vec![good()])]),
        ),
        value("an unknown list", sequence(vec![subtree_list(2, vec![good()])])),
        value("a list without its tag", sequence(vec![sequence(vec![good()])])),
        value("an explicit tag", sequence(vec![constructed(0, vec![sequence(vec![good()])])])),
        value("a primitive list", sequence(vec![context(0, &[])])),
        value("a name instead of a subtree", permitted(vec![dns("agency.example")])),
        value("a subtree in a SET", permitted(vec![Element::set_of(vec![dns("agency.example")])])),
        value("the second of two subtrees is empty", permitted(vec![good(), sequence(vec![])])),
        value("a subtree without its base", permitted(vec![sequence(vec![minimum(&[1]), maximum(&[2])])])),
        value("two bases", permitted(vec![sequence(vec![dns("a.b"), dns("a.b")])])),
    ];
    for (what, name) in bad_general_names() {
        values.push(value(what, permitted(vec![good(), subtree(name, vec![])])));
    }
    for (what, distances) in bad_distances() {
        values.push(value(what, sequence(vec![subtree_list(1, vec![subtree(dns("a.b"), distances)])])));
    }
    values
}

/// Distances behind the base of a subtree.
fn bad_distances() -> [(&'static str, Vec<Element>); 13] {
    [
        ("a minimum of 0 written", vec![minimum(&[0])]),
        ("a minimum of 0 with a maximum", vec![minimum(&[0]), maximum(&[1])]),
        ("a negative minimum", vec![minimum(&[0xFF])]),
        ("a minimum that is not minimal", vec![minimum(&[0, 1])]),
        ("a minimum of 0 in two octets", vec![minimum(&[0, 0])]),
        ("an empty minimum", vec![minimum(&[])]),
        ("a constructed minimum", vec![constructed(0, vec![Element::integer(&[1])])]),
        ("a negative maximum", vec![maximum(&[0x80])]),
        ("an empty maximum", vec![maximum(&[])]),
        ("a maximum that is not minimal", vec![maximum(&[0, 0x7F])]),
        ("maximum before minimum", vec![maximum(&[2]), minimum(&[1])]),
        ("an unknown distance", vec![context(2, &[1])]),
        ("an INTEGER without its tag", vec![Element::integer(&[1])]),
    ]
}

/// A good value with every field, and with every form of name where it holds names.
pub fn fullest_value(slot: u8) -> Element {
    let names = every_form_of_name;
    match slot {
        1 => sequence(vec![context(0, &[1]), constructed(1, names()), context(2, &[1])]),
        2 => sequence(vec![Element::boolean(true), Element::integer(&[1])]),
        3 => Element::octet_string(&[7, 7]),
        4 => named_bits(&[0, 8]),
        5 => {
            sequence(vec![Element::object_identifier(&[0x2A]), Element::object_identifier(&[0x81, 0x34, 3])])
        }
        6 => {
            let qualifiers =
                vec![qualifier(vec![0x2A], Element::null()), qualifier(vec![0x2B], sequence(vec![]))];
            sequence(vec![policy(vec![0x2A], vec![]), policy(vec![0x2B], qualifiers)])
        }
        7 => general_names(names()),
        8 => sequence(names().into_iter().map(|name| access(vec![0x2A], name)).collect()),
        9 => sequence(vec![
            point(vec![full_name(names()), reasons(7, &[0x40, 0x80]), list_issuer(short_names())]),
            point(vec![relative_name(vec![short_attribute("a"), short_attribute("b")])]),
            point(vec![]),
        ]),
        10 => Element::null(),
        11 => {
            let bases = names().into_iter();
            let near = vec![minimum(&[1]), maximum(&[0, 0x80])];
            let permitted = bases.map(|base| subtree(base, vec![])).collect();
            name_constraints(permitted, vec![subtree(uri("a"), near), subtree(uri("b"), vec![maximum(&[0])])])
        }
        _ => panic!("the table has no row {slot}"),
    }
}

fn short_attribute(text: &str) -> Element {
    Attribute::new(vec![0x2A], Element::printable(text)).element()
}

fn short_names() -> Vec<Element> {
    vec![uri("a")]
}

/// A name of each form, [0] to [8].
fn every_form_of_name() -> Vec<Element> {
    let attributes = vec![short_attribute("a"), short_attribute("b")];
    vec![
        other_name(vec![0x2A], Element::null()),
        mail("a"),
        dns("a"),
        x400(vec![]),
        constructed(4, vec![sequence(vec![Element::set_of(attributes)])]),
        edi_party(vec![Element::null()]),
        uri("a"),
        internet_address(&[1]),
        registered_identifier(&[0x2A, 0x86, 1]),
    ]
}

/// A value that nests this many elements, the outermost counted. Depth starts afresh in a value.
pub fn nested_other_name(depth: usize) -> Element {
    // names, other name, explicit tag: three levels above the innermost stack.
    let mut inner = Element::null();
    for _ in 4..depth {
        inner = sequence(vec![inner]);
    }
    general_names(vec![dns(HOST), other_name(oid::private_extension(), inner)])
}

/// A value that is good by the ASN.1, and the rules that it breaks at the OCTET STRING all the same, where a profile has
/// them.
type EdgeValue = (Value, Vec<u16>);

fn good(what: &str, element: Element) -> EdgeValue {
    (value(what, element), vec![])
}

fn breaking(rules: &[u16], what: &str, element: Element) -> EdgeValue {
    (value(what, element), rules.to_vec())
}

/// Values at the edge of what is good.
pub fn edge_values(slot: u8) -> Vec<EdgeValue> {
    match slot {
        1 => edge_authority_keys(),
        2 => edge_basic_constraints(),
        3 => vec![
            breaking(&[403], "no octet", Element::octet_string(&[])),
            breaking(&[403], "nineteen octets", Element::octet_string(&[1; 19])),
            breaking(&[403], "twenty-one octets", Element::octet_string(&[1; 21])),
        ],
        4 => vec![
            breaking(&[404, 422], "no bit", Element::bit_string(0, &[])),
            breaking(&[405, 422], "a bit past the named ones", named_bits(&[0, 9])),
            breaking(&[405, 422], "a bit far past the named ones", named_bits(&[0, 77])),
            breaking(&[405, 422], "decipherOnly, in the second octet", named_bits(&[0, 8])),
            breaking(&[404, 405], "what an authority needs and a bit far past", named_bits(&[5, 6, 77])),
        ],
        7 => vec![good("a host name twice", general_names(vec![dns(HOST), dns(HOST)]))],
        8 => vec![good("any form of name with an unknown method", accesses_of_every_form())],
        9 => edge_points(),
        11 => edge_name_constraints(),
        _ => vec![],
    }
}

fn edge_authority_keys() -> Vec<EdgeValue> {
    let key = || context(0, &ISSUER_KEY_IDENTIFIER);
    let nameless = constructed(1, vec![directory(&Name::default())]);
    vec![
        breaking(&[401], "no field at all", sequence(vec![])),
        good("issuers without serial", sequence(vec![key(), constructed(1, vec![uri("")])])),
        good("serial without issuers", sequence(vec![key(), context(2, &[0x80])])),
        good("issuer in a name without sets", sequence(vec![key(), nameless])),
        breaking(&[401], "serial alone", sequence(vec![context(2, &[0])])),
        breaking(&[401], "key identifier empty", sequence(vec![context(0, &[])])),
    ]
}

fn edge_basic_constraints() -> Vec<EdgeValue> {
    let long = vec![Element::boolean(true), Element::integer(&[0, 0x80])];
    vec![
        breaking(&[421], "empty", sequence(vec![])),
        breaking(&[402, 421], "cA TRUE", sequence(vec![Element::boolean(true)])),
        breaking(&[402, 421], "a path length without cA", sequence(vec![Element::integer(&[0])])),
        breaking(&[402, 421], "cA with a path length of 128", sequence(long)),
        breaking(&[402, 421], "a path length of forty octets", sequence(vec![Element::integer(&[0x55; 40])])),
        breaking(&[402], "cA TRUE with a path length of 0", plain_value(2, AUTHORITY[0])),
    ]
}

/// Two attributes that a set puts in order.
fn two_attributes() -> Vec<Attribute> {
    ["b", "a"].map(|text| Attribute::new(oid::common_name(), Element::printable(text))).to_vec()
}

fn accesses_of_every_form() -> Element {
    let name = Name { sets: vec![RelativeName::of(two_attributes())], marks: vec![] };
    let unknown = |location: Element| access(oid::private_extension(), location);
    sequence(vec![
        access(oid::access_by_ocsp(), uri("http://a")),
        access(oid::access_to_issuers(), uri("http://a")),
        unknown(directory(&name)),
        unknown(x400(vec![])),
        unknown(edi_party(vec![])),
        unknown(internet_address(&[1, 2, 3])),
        unknown(mail("\u{e9}")),
    ])
}

fn edge_points() -> Vec<EdgeValue> {
    let attributes = two_attributes().iter().map(Attribute::element).collect();
    let points = vec![point(vec![full_name(vec![uri("http://a")])]), point(vec![relative_name(attributes)])];
    vec![
        breaking(&[418], "an empty point alone", sequence(vec![point(vec![])])),
        good("a relative name of two in order", sequence(points)),
    ]
}

fn edge_name_constraints() -> Vec<EdgeValue> {
    let permitted =
        |base: Element, distances: Vec<Element>| name_constraints(vec![subtree(base, distances)], vec![]);
    let mut values = vec![
        good("neither list", sequence(vec![])),
        good("a minimum of 1", permitted(dns(""), vec![minimum(&[1])])),
        good("a minimum of 128", permitted(dns(""), vec![minimum(&[0, 0x80])])),
        good("a maximum of 0", permitted(dns(""), vec![maximum(&[0])])),
        good("a maximum of 2040 bits", permitted(dns(""), vec![maximum(&[0x7F; 255])])),
        good("a maximum below the minimum", permitted(dns(""), vec![minimum(&[9]), maximum(&[1])])),
        good("excluded alone", name_constraints(vec![], vec![subtree(uri("\u{e9}"), vec![])])),
        good("the same subtree twice", name_constraints(vec![subtree(dns("a"), vec![]); 2], vec![])),
        good("a directory name without sets", permitted(directory(&Name::default()), vec![])),
    ];
    for length in [0, 1, 4, 5, 8, 16, 32, 33] {
        values
            .push(good("an address of any length", permitted(internet_address(&vec![0xFF; length]), vec![])));
    }
    values.extend(
        every_form_of_name().into_iter().map(|name| good("any form of name", permitted(name, vec![]))),
    );
    values
}
