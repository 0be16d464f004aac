//! Certificates put together from encoded parts.

/// An element with this identifier octet around these contents.
pub fn element(identifier: u8, contents: &[u8]) -> Vec<u8> {
    let length = contents.len();
    let mut octets = vec![identifier];
    match length {
        0..=0x7F => octets.push(length as u8),
        0x80..=0xFF => octets.extend([0x81, length as u8]),
        _ => octets.extend([0x82, (length >> 8) as u8, length as u8]),
    }
    octets.extend(contents);
    octets
}

pub fn joined(identifier: u8, parts: &[Vec<u8>]) -> Vec<u8> {
    element(identifier, &parts.concat())
}

pub fn sequence(parts: &[Vec<u8>]) -> Vec<u8> {
    joined(0x30, parts)
}

pub fn object_identifier(dotted: &str) -> Vec<u8> {
    let arcs: Vec<u32> = dotted.split('.').map(|arc| arc.parse().unwrap()).collect();
    let mut contents = Vec::new();
    let first = 40 * arcs[0] + arcs[1];
    for &arc in [first].iter().chain(&arcs[2..]) {
        for group in (1..5).rev().filter(|group| arc >> (7 * group) != 0) {
            contents.push(0x80 | (arc >> (7 * group)) as u8);
        }
        contents.push(arc as u8 & 0x7F);
    }
    element(0x06, &contents)
}

pub fn attribute(dotted: &str, identifier: u8, text: &str) -> Vec<u8> {
    sequence(&[
        object_identifier(dotted),
        element(identifier, text.as_bytes()),
    ])
}

pub fn extension(dotted: &str, is_critical: bool, value: &[u8]) -> Vec<u8> {
    let critical = if is_critical {
        vec![1, 1, 0xFF]
    } else {
        vec![]
    };
    sequence(&[object_identifier(dotted), critical, element(0x04, value)])
}

pub fn algorithm(dotted: &str, parameters: &[u8]) -> Vec<u8> {
    sequence(&[object_identifier(dotted), parameters.to_vec()])
}

pub const NULL: &[u8] = &[0x05, 0x00];
pub const SIGNATURE: &str = "1.2.840.113549.1.1.11";

/// 2^2047 plus the least number that leaves no small factor.
pub fn modulus() -> Vec<u8> {
    let mut octets = vec![0; 257];
    octets[1] = 0x80;
    let remainder = |octets: &[u8], divisor: u32| {
        octets
            .iter()
            .fold(0, |rest, &octet| (256 * rest + u32::from(octet)) % divisor)
    };
    for low in (1u16..).step_by(2) {
        octets[255..].copy_from_slice(&low.to_be_bytes());
        if (2..752).all(|divisor| remainder(&octets, divisor) != 0) {
            return octets;
        }
    }
    unreachable!()
}

pub fn rsa_key(modulus: &[u8], exponent: &[u8]) -> Vec<u8> {
    let numbers = sequence(&[element(2, modulus), element(2, exponent)]);
    let bits = [vec![0], numbers].concat();
    sequence(&[algorithm("1.2.840.113549.1.1.1", NULL), element(3, &bits)])
}

pub fn ec_key(curve: &str) -> Vec<u8> {
    let parameters = object_identifier(curve);
    sequence(&[
        algorithm("1.2.840.10045.2.1", &parameters),
        element(3, &[0, 4, 1, 1]),
    ])
}

pub fn uri(text: &str) -> Vec<u8> {
    element(0x86, text.as_bytes())
}

pub fn access(method: &str, location: Vec<u8>) -> Vec<u8> {
    sequence(&[object_identifier(method), location])
}

/// A certificate in its parts, each encoded.
#[derive(Clone)]
pub struct Draft {
    pub version: Vec<u8>,
    pub serial_number: Vec<u8>,
    pub inner: Vec<u8>,
    pub issuer: Vec<u8>,
    pub validity: Vec<u8>,
    pub subject: Vec<Vec<u8>>,
    pub key: Vec<u8>,
    pub unique: Vec<u8>,
    pub extensions: Vec<Vec<u8>>,
    pub outer: Vec<u8>,
}

impl Draft {
    pub fn encoded(&self) -> Vec<u8> {
        let extensions = match self.extensions.as_slice() {
            [] => vec![],
            extensions => joined(0xA3, &[sequence(extensions)]),
        };
        let to_be_signed = sequence(&[
            self.version.clone(),
            self.serial_number.clone(),
            self.inner.clone(),
            self.issuer.clone(),
            self.validity.clone(),
            sequence(&self.subject),
            self.key.clone(),
            self.unique.clone(),
            extensions,
        ]);
        sequence(&[to_be_signed, self.outer.clone(), element(3, &[0, 0x55])])
    }

    /// Puts another extension where the one with this identifier stands.
    pub fn replace(&mut self, dotted: &str, is_critical: bool, value: &[u8]) {
        let position = self.position(dotted);
        self.extensions[position] = extension(dotted, is_critical, value);
    }

    pub fn position(&self, dotted: &str) -> usize {
        let identifier = object_identifier(dotted);
        let holds = |extension: &Vec<u8>| extension[2..].starts_with(&identifier);
        self.extensions.iter().position(holds).unwrap()
    }
}

pub fn times(not_before: &str, not_after: &str) -> Vec<u8> {
    let time = |text: &str| element(if text.len() == 13 { 0x17 } else { 0x18 }, text.as_bytes());
    sequence(&[time(not_before), time(not_after)])
}

pub fn name(text: &str) -> Vec<u8> {
    sequence(&[joined(0x31, &[attribute("2.5.4.3", 0x13, text)])])
}

pub const KEY_IDENTIFIER: [u8; 20] = [0xA7; 20];

pub fn issuer() -> Vec<u8> {
    let mut draft = good(1);
    draft.subject = vec![joined(0x31, &[attribute("2.5.4.3", 0x13, "CA")])];
    draft.replace("2.5.29.14", false, &element(4, &KEY_IDENTIFIER));
    draft.encoded()
}

pub fn dns(text: &str) -> Vec<u8> {
    element(0x82, text.as_bytes())
}

pub const FEDERAL_POLICY: &str = "2.16.840.1.101.3.2.1.3.13";
pub const ACCESS: &str = "1.3.6.1.5.5.7.1.1";
pub const OCSP: &str = "1.3.6.1.5.5.7.48.1";
pub const CA_ISSUERS: &str = "1.3.6.1.5.5.7.48.2";
pub const NOCHECK: &str = "1.3.6.1.5.5.7.48.1.5";
pub const CONSTRAINTS: &str = "2.5.29.30";

/// The attributes of a good subject, each in a set of its own.
fn subject_of(profile: u8) -> Vec<Vec<u8>> {
    let common_name = match profile {
        4 => attribute("2.5.4.3", 0x13, "US Federal TLS CA 7"),
        _ => attribute("2.5.4.3", 0x0C, "Www.example.gov"),
    };
    let mut attributes = vec![attribute("2.5.4.6", 0x13, "US"), common_name];
    if profile != 1 {
        let string_type = if profile == 4 { 0x13 } else { 0x0C };
        attributes.push(attribute("2.5.4.10", string_type, "U.S. Government"));
    }
    if profile == 2 {
        attributes.push(attribute("2.5.4.8", 0x13, "District of Columbia"));
    }
    attributes
        .iter()
        .map(|attribute| element(0x31, attribute))
        .collect()
}

fn policies_of(profile: u8) -> Vec<u8> {
    let mut identifiers = vec![FEDERAL_POLICY];
    identifiers.extend(match profile {
        1 => Some("2.23.140.1.2.1"),
        2 | 4 => Some("2.23.140.1.2.2"),
        _ => None,
    });
    let policies = identifiers.iter().map(|dotted| object_identifier(dotted));
    sequence(
        &policies
            .map(|policy| sequence(&[policy]))
            .collect::<Vec<_>>(),
    )
}

/// The extensions that not every profile has.
fn own_extensions_of(profile: u8) -> Vec<Vec<u8>> {
    match profile {
        3 => vec![extension(NOCHECK, false, NULL)],
        4 => vec![
            extension("2.5.29.19", true, &[0x30, 6, 1, 1, 0xFF, 2, 1, 0]),
            extension(
                "2.5.29.31",
                false,
                &sequence(&[full_name(&[uri("http://c")])]),
            ),
            extension(CONSTRAINTS, true, &permitted(&[dns("gov")])),
        ],
        _ => vec![extension("2.5.29.19", true, &[0x30, 0])],
    }
}

/// A CRL point with a full name of these names.
pub fn full_name(names: &[Vec<u8>]) -> Vec<u8> {
    sequence(&[joined(0xA0, &[joined(0xA0, names)])])
}

/// Name constraints that permit one subtree of these fields.
pub fn permitted(fields: &[Vec<u8>]) -> Vec<u8> {
    sequence(&[joined(0xA0, &[sequence(fields)])])
}

fn extensions_of(profile: u8) -> Vec<Vec<u8>> {
    let is_responder = profile == 3;
    let purpose = if is_responder {
        "1.3.6.1.5.5.7.3.9"
    } else {
        "1.3.6.1.5.5.7.3.1"
    };
    let purposes = sequence(&[object_identifier(purpose)]);
    let usage: [u8; 4] = if profile == 4 {
        [3, 2, 1, 0x06]
    } else {
        [3, 2, 7, 0x80]
    };
    let names = sequence(&[dns("a.gov"), dns("wWw.example.gov")]);
    let accesses = sequence(&[
        access(OCSP, uri("http://a")),
        access(CA_ISSUERS, uri("HTTP://b")),
    ]);
    let shared = vec![
        extension(
            "2.5.29.35",
            false,
            &sequence(&[element(0x80, &KEY_IDENTIFIER)]),
        ),
        extension("2.5.29.14", false, &element(4, &[0x5B; 20])),
        extension("2.5.29.15", true, &usage),
        extension("2.5.29.37", is_responder, &purposes),
        extension("2.5.29.32", false, &policies_of(profile)),
        extension("2.5.29.17", false, &names),
        extension(ACCESS, false, &accesses),
    ];
    [shared, own_extensions_of(profile)].concat()
}

/// A certificate with no finding.
pub fn good(profile: u8) -> Draft {
    Draft {
        version: vec![0xA0, 3, 2, 1, 2],
        serial_number: element(2, &[0x11; 8]),
        inner: algorithm(SIGNATURE, NULL),
        issuer: name("CA"),
        validity: times("240101000000Z", "240201000000Z"),
        subject: subject_of(profile),
        key: rsa_key(&modulus(), &[1, 0, 1]),
        unique: vec![],
        extensions: extensions_of(profile),
        outer: algorithm(SIGNATURE, NULL),
    }
}
