//! A certificate as its fields, each of which can be changed before it is encoded.

use crate::element::{tag, Element, Mark, Part};
use crate::object_identifiers as oid;

/// Names of the nodes, for finding them in the tree and their places in the encoding.
pub mod node {
    pub const CERTIFICATE: &str = "certificate";
    pub const TBS: &str = "TBS structure";
    pub const VERSION: &str = "version";
    pub const VERSION_NUMBER: &str = "version number";
    pub const SERIAL: &str = "serial";
    pub const INNER_ALGORITHM: &str = "inner algorithm";
    pub const INNER_ALGORITHM_IDENTIFIER: &str = "inner algorithm's identifier";
    pub const ISSUER: &str = "issuer name";
    pub const VALIDITY: &str = "validity";
    pub const NOT_BEFORE: &str = "notBefore";
    pub const NOT_AFTER: &str = "notAfter";
    pub const SUBJECT: &str = "subject name";
    pub const RELATIVE_NAME: &str = "a name's set";
    pub const ATTRIBUTE: &str = "attribute";
    pub const ATTRIBUTE_TYPE: &str = "attribute's type";
    pub const ATTRIBUTE_VALUE: &str = "attribute's value";
    pub const KEY: &str = "key";
    pub const KEY_ALGORITHM: &str = "key's algorithm";
    pub const KEY_BITS: &str = "key's bits";
    pub const MODULUS: &str = "modulus";
    pub const EXPONENT: &str = "exponent";
    pub const ISSUER_UNIQUE: &str = "issuer's unique identifier";
    pub const SUBJECT_UNIQUE: &str = "subject's unique identifier";
    pub const EXTENSIONS: &str = "extensions";
    pub const EXTENSION_LIST: &str = "extension list";
    pub const EXTENSION: &str = "extension";
    pub const EXTENSION_IDENTIFIER: &str = "extension's identifier";
    pub const CRITICAL: &str = "critical";
    pub const EXTENSION_VALUE: &str = "extension's value";
    pub const OUTER_ALGORITHM: &str = "outer algorithm";
    pub const SIGNATURE: &str = "signature";
}

#[derive(Clone, Copy, Debug, PartialEq, Eq)]
pub enum KeyKind {
    Rsa,
    EllipticCurve,
    Other,
}

#[derive(Clone, Debug)]
pub struct Certificate {
    /// The [0], if written.
    pub version: Option<Element>,
    pub serial: Element,
    pub inner_algorithm: Element,
    pub issuer: Name,
    pub not_before: Element,
    pub not_after: Element,
    pub subject: Name,
    pub key_kind: KeyKind,
    pub key_algorithm: Element,
    pub key_bits: Element,
    pub issuer_unique: Option<Element>,
    pub subject_unique: Option<Element>,
    pub extensions: Vec<Extension>,
    pub outer_algorithm: Element,
    pub signature: Element,
    pub tbs_marks: Vec<Mark>,
    pub validity_marks: Vec<Mark>,
    /// Marks at the extension list, or at the TBS structure where there is no list.
    pub list_marks: Vec<Mark>,
}

#[derive(Clone, Debug, Default)]
pub struct Name {
    pub sets: Vec<RelativeName>,
    pub marks: Vec<Mark>,
}

#[derive(Clone, Debug, Default)]
pub struct RelativeName {
    pub attributes: Vec<Attribute>,
    pub marks: Vec<Mark>,
}

#[derive(Clone, Debug)]
pub struct Attribute {
    pub kind: Vec<u8>,
    pub value: Element,
    pub marks: Vec<Mark>,
}

#[derive(Clone, Debug)]
pub struct Extension {
    pub identifier: Vec<u8>,
    pub critical: bool,
    /// What the OCTET STRING holds.
    pub value: Vec<Part>,
    /// Marks at the Extension.
    pub marks: Vec<Mark>,
    /// Marks at the OCTET STRING.
    pub value_marks: Vec<Mark>,
}

impl Attribute {
    pub fn new(kind: Vec<u8>, value: Element) -> Attribute {
        Attribute { kind, value, marks: Vec::new() }
    }

    pub fn breaking(mut self, rule: u16) -> Attribute {
        self.marks.push(Mark::Breaks(rule));
        self
    }

    pub fn element(&self) -> Element {
        let kind = Element::object_identifier(&self.kind).named(node::ATTRIBUTE_TYPE);
        let value = self.value.clone().named(node::ATTRIBUTE_VALUE);
        marked(Element::sequence(vec![kind, value]), &self.marks).named(node::ATTRIBUTE)
    }
}

impl RelativeName {
    pub fn of(attributes: Vec<Attribute>) -> RelativeName {
        RelativeName { attributes, marks: Vec::new() }
    }

    pub fn element(&self) -> Element {
        let members = self.attributes.iter().map(Attribute::element).collect();
        marked(Element::set_of(members), &self.marks).named(node::RELATIVE_NAME)
    }
}

impl Name {
    /// A name with each attribute in a set of its own.
    pub fn of(attributes: Vec<Attribute>) -> Name {
        let sets = attributes.into_iter().map(|attribute| RelativeName::of(vec![attribute])).collect();
        Name { sets, marks: Vec::new() }
    }

    pub fn element(&self) -> Element {
        marked(Element::sequence(self.sets.iter().map(RelativeName::element).collect()), &self.marks)
    }

    pub fn push(&mut self, attribute: Attribute) {
        self.sets.push(RelativeName::of(vec![attribute]));
    }

    /// The first attribute of a kind, where no set holds two of that kind.
    pub fn attribute(&mut self, kind: &[u8]) -> &mut Attribute {
        let mut attributes = self.sets.iter_mut().flat_map(|set| set.attributes.iter_mut());
        attributes.find(|attribute| attribute.kind == kind).expect("the name has such an attribute")
    }

    pub fn remove(&mut self, kind: &[u8]) {
        for set in &mut self.sets {
            set.attributes.retain(|attribute| attribute.kind != kind);
        }
        self.sets.retain(|set| !set.attributes.is_empty());
    }

    pub fn breaks(&mut self, rule: u16) {
        self.marks.push(Mark::Breaks(rule));
    }
}

impl Extension {
    pub fn new(identifier: Vec<u8>, critical: bool, value: Element) -> Extension {
        let value = vec![Part::Element(value)];
        Extension { identifier, critical, value, marks: Vec::new(), value_marks: Vec::new() }
    }

    pub fn breaking(mut self, rule: u16) -> Extension {
        self.marks.push(Mark::Breaks(rule));
        self
    }

    pub fn breaks_at_extension(&mut self, rule: u16) {
        self.marks.push(Mark::Breaks(rule));
    }

    pub fn breaks_at_value(&mut self, rule: u16) {
        self.value_marks.push(Mark::Breaks(rule));
    }

    /// The one element of a value that is good so far.
    pub fn value(&mut self) -> &mut Element {
        match self.value.first_mut() {
            Some(Part::Element(element)) => element,
            _ => panic!("the value is not an element"),
        }
    }

    pub fn set_value(&mut self, value: Element) {
        self.value = vec![Part::Element(value)];
    }

    pub fn element(&self) -> Element {
        let mut members =
            vec![Element::object_identifier(&self.identifier).named(node::EXTENSION_IDENTIFIER)];
        if self.critical {
            members.push(Element::boolean(true).named(node::CRITICAL));
        }
        let value = Element::of_parts(tag::OCTET_STRING, self.value.clone());
        members.push(marked(value, &self.value_marks).named(node::EXTENSION_VALUE));
        marked(Element::sequence(members), &self.marks).named(node::EXTENSION)
    }
}

impl Certificate {
    /// The first extension with this identifier.
    pub fn extension(&mut self, identifier: &[u8]) -> &mut Extension {
        let found = self.extensions.iter_mut().find(|extension| extension.identifier == identifier);
        found.expect("the certificate has such an extension")
    }

    pub fn has_extension(&self, identifier: &[u8]) -> bool {
        self.extensions.iter().any(|extension| extension.identifier == identifier)
    }

    pub fn remove_extension(&mut self, identifier: &[u8]) {
        self.extensions.retain(|extension| extension.identifier != identifier);
    }

    /// Takes a signature that makes the certificate exactly this long, which is over 5,000 octets.
    pub fn lengthen_to(&mut self, length: usize) {
        self.signature = Element::bit_string(0, &[0; 5000]);
        let missing = length - self.element().octets().len();
        self.signature = Element::bit_string(0, &vec![0; 5000 + missing]);
        assert_eq!(self.element().octets().len(), length);
    }

    pub fn element(&self) -> Element {
        Element::sequence(vec![
            self.tbs(),
            self.outer_algorithm.clone().named(node::OUTER_ALGORITHM),
            self.signature.clone().named(node::SIGNATURE),
        ])
        .named(node::CERTIFICATE)
    }

    fn tbs(&self) -> Element {
        let mut members = Vec::new();
        members.extend(self.version.clone().map(|version| version.named(node::VERSION)));
        members.push(self.serial.clone().named(node::SERIAL));
        members.push(self.inner_algorithm.clone().named(node::INNER_ALGORITHM));
        members.push(self.issuer.element().named(node::ISSUER));
        members.push(self.validity());
        members.push(self.subject.element().named(node::SUBJECT));
        members.push(self.key());
        members.extend(self.issuer_unique.clone().map(|unique| unique.named(node::ISSUER_UNIQUE)));
        members.extend(self.subject_unique.clone().map(|unique| unique.named(node::SUBJECT_UNIQUE)));
        let mut marks = self.tbs_marks.clone();
        if self.extensions.is_empty() {
            marks.extend(self.list_marks.iter().cloned());
        } else {
            let list = Element::sequence(self.extensions.iter().map(Extension::element).collect());
            let list = marked(list, &self.list_marks).named(node::EXTENSION_LIST);
            members
                .push(Element::constructed(tag::context_constructed(3), vec![list]).named(node::EXTENSIONS));
        }
        marked(Element::sequence(members), &marks).named(node::TBS)
    }

    fn validity(&self) -> Element {
        let not_before = self.not_before.clone().named(node::NOT_BEFORE);
        let not_after = self.not_after.clone().named(node::NOT_AFTER);
        marked(Element::sequence(vec![not_before, not_after]), &self.validity_marks).named(node::VALIDITY)
    }

    fn key(&self) -> Element {
        let algorithm = self.key_algorithm.clone().named(node::KEY_ALGORITHM);
        Element::sequence(vec![algorithm, self.key_bits.clone().named(node::KEY_BITS)]).named(node::KEY)
    }
}

/// The [0] with a version number.
pub fn version(number: u8) -> Element {
    Element::constructed(
        tag::context_constructed(0),
        vec![Element::integer(&[number]).named(node::VERSION_NUMBER)],
    )
}

pub fn algorithm(identifier: Vec<u8>, parameters: Option<Element>) -> Element {
    let mut members = vec![Element::object_identifier(&identifier)];
    members.extend(parameters);
    Element::sequence(members)
}

/// The only signature algorithm that the profiles allow.
pub fn signature_algorithm() -> Element {
    algorithm(oid::sha256_with_rsa(), Some(Element::null()))
}

fn marked(mut element: Element, marks: &[Mark]) -> Element {
    element.marks.extend(marks.iter().cloned());
    element
}
