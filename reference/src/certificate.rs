//! RFC 5280's Certificate. What does not fit it is refusal 6, at the place of the `Misfit`.

use crate::der::{
    constructed, primitive, Element, BIT_STRING, BOOLEAN, INTEGER, NULL, OBJECT_IDENTIFIER,
    OCTET_STRING, SEQUENCE,
};
use crate::name::check_name;
use crate::structure::{at_least_one, expect, Members, Misfit};
use crate::time::Time;

/// The fields of a certificate that the rules judge.
#[derive(Debug)]
pub struct Certificate<'a> {
    /// The TBSCertificate.
    pub to_be_signed: Element<'a>,
    pub version: Option<Version<'a>>,
    pub serial_number: Element<'a>,
    pub inner_algorithm: Algorithm<'a>,
    pub outer_algorithm: Algorithm<'a>,
    pub issuer: Element<'a>,
    pub validity: Validity<'a>,
    pub subject: Element<'a>,
    pub key: PublicKey<'a>,
    pub extension_list: Option<ExtensionList<'a>>,
}

/// A version that is written.
#[derive(Clone, Copy, Debug)]
pub struct Version<'a> {
    /// The [0].
    pub element: Element<'a>,
    pub is_v3: bool,
}

/// AlgorithmIdentifier
#[derive(Clone, Copy, Debug)]
pub struct Algorithm<'a> {
    pub element: Element<'a>,
    /// The contents of the OBJECT IDENTIFIER.
    pub identifier: &'a [u8],
    pub parameters: Option<Element<'a>>,
}

#[derive(Clone, Copy, Debug)]
pub struct Validity<'a> {
    pub element: Element<'a>,
    pub not_before: (Element<'a>, Time),
    pub not_after: (Element<'a>, Time),
}

/// SubjectPublicKeyInfo
#[derive(Clone, Copy, Debug)]
pub struct PublicKey<'a> {
    pub algorithm: Algorithm<'a>,
    /// The BIT STRING.
    pub bits: Element<'a>,
}

#[derive(Debug)]
pub struct ExtensionList<'a> {
    /// The SEQUENCE OF Extension inside [3].
    pub element: Element<'a>,
    pub extensions: Vec<Extension<'a>>,
}

#[derive(Clone, Copy, Debug)]
pub struct Extension<'a> {
    pub element: Element<'a>,
    /// The contents of the OBJECT IDENTIFIER.
    pub identifier: &'a [u8],
    pub is_critical: bool,
    /// The OCTET STRING.
    pub value: Element<'a>,
}

impl<'a> Certificate<'a> {
    /// Reads sound octets as a certificate.
    ///
    /// Certificate ::= SEQUENCE { tbsCertificate, signatureAlgorithm, signatureValue BIT STRING }
    pub fn read(outermost: Element<'a>) -> Result<Certificate<'a>, Misfit> {
        let mut members = Members::of(expect(outermost, SEQUENCE)?);
        let to_be_signed = ToBeSigned::read(members.any()?)?;
        let outer_algorithm = Algorithm::read(members.any()?)?;
        members.required(BIT_STRING)?;
        members.end()?;
        Ok(Certificate {
            to_be_signed: to_be_signed.element,
            version: to_be_signed.version,
            serial_number: to_be_signed.serial_number,
            inner_algorithm: to_be_signed.signature,
            outer_algorithm,
            issuer: to_be_signed.issuer,
            validity: to_be_signed.validity,
            subject: to_be_signed.subject,
            key: to_be_signed.key,
            extension_list: to_be_signed.extension_list,
        })
    }

    /// All extensions, in the order of the encoding.
    pub fn extensions(&self) -> &[Extension<'a>] {
        match &self.extension_list {
            Some(list) => &list.extensions,
            None => &[],
        }
    }
}

/// TBSCertificate
struct ToBeSigned<'a> {
    element: Element<'a>,
    version: Option<Version<'a>>,
    serial_number: Element<'a>,
    signature: Algorithm<'a>,
    issuer: Element<'a>,
    validity: Validity<'a>,
    subject: Element<'a>,
    key: PublicKey<'a>,
    extension_list: Option<ExtensionList<'a>>,
}

impl<'a> ToBeSigned<'a> {
    /// TBSCertificate ::= SEQUENCE { version [0] EXPLICIT DEFAULT v1, serialNumber, signature, issuer, validity,
    /// subject, subjectPublicKeyInfo, issuerUniqueID [1] OPTIONAL, subjectUniqueID [2] OPTIONAL,
    /// extensions [3] EXPLICIT OPTIONAL }
    fn read(element: Element<'a>) -> Result<ToBeSigned<'a>, Misfit> {
        let mut members = Members::of(expect(element, SEQUENCE)?);
        let version = match members.optional(constructed(0)) {
            Some(tagged) => Some(Version::read(tagged)?),
            None => None,
        };
        let serial_number = members.required(INTEGER)?;
        let signature = Algorithm::read(members.any()?)?;
        let issuer = read_name(members.any()?)?;
        let validity = Validity::read(members.any()?)?;
        let subject = read_name(members.any()?)?;
        let key = PublicKey::read(members.any()?)?;
        // "Unique identifiers (tags 81 and 82) are allowed, contents free."
        members.optional(primitive(1));
        members.optional(primitive(2));
        let extension_list = match members.optional(constructed(3)) {
            Some(tagged) => Some(ExtensionList::read(tagged)?),
            None => None,
        };
        members.end()?;
        Ok(ToBeSigned {
            element,
            version,
            serial_number,
            signature,
            issuer,
            validity,
            subject,
            key,
            extension_list,
        })
    }
}

impl<'a> Version<'a> {
    /// "Version, if written, is 1 (v2) or 2 (v3), and rules out no field"
    fn read(element: Element<'a>) -> Result<Version<'a>, Misfit> {
        let mut members = Members::of(element);
        let number = members.required(INTEGER)?;
        let is_v3 = match number.contents() {
            [1] => false,
            [2] => true,
            _ => return Err(Misfit::at(number)),
        };
        members.end()?;
        Ok(Version { element, is_v3 })
    }
}

impl<'a> Algorithm<'a> {
    /// AlgorithmIdentifier ::= SEQUENCE { algorithm OBJECT IDENTIFIER, parameters ANY OPTIONAL }
    fn read(element: Element<'a>) -> Result<Algorithm<'a>, Misfit> {
        let mut members = Members::of(expect(element, SEQUENCE)?);
        let identifier = members.required(OBJECT_IDENTIFIER)?.contents();
        let parameters = members.optional_any();
        members.end()?;
        Ok(Algorithm {
            element,
            identifier,
            parameters,
        })
    }

    pub fn has_null_parameters(&self) -> bool {
        self.parameters
            .is_some_and(|parameters| parameters.identifier() == NULL)
    }
}

fn read_name(element: Element<'_>) -> Result<Element<'_>, Misfit> {
    check_name(element)?;
    Ok(element)
}

impl<'a> Validity<'a> {
    /// Validity ::= SEQUENCE { notBefore Time, notAfter Time }
    fn read(element: Element<'a>) -> Result<Validity<'a>, Misfit> {
        let mut members = Members::of(expect(element, SEQUENCE)?);
        let not_before = read_time(members.any()?)?;
        let not_after = read_time(members.any()?)?;
        members.end()?;
        Ok(Validity {
            element,
            not_before,
            not_after,
        })
    }
}

fn read_time(element: Element<'_>) -> Result<(Element<'_>, Time), Misfit> {
    Ok((element, Time::read(element)?))
}

impl<'a> PublicKey<'a> {
    /// SubjectPublicKeyInfo ::= SEQUENCE { algorithm AlgorithmIdentifier, subjectPublicKey BIT STRING }
    fn read(element: Element<'a>) -> Result<PublicKey<'a>, Misfit> {
        let mut members = Members::of(expect(element, SEQUENCE)?);
        let algorithm = Algorithm::read(members.any()?)?;
        let bits = members.required(BIT_STRING)?;
        members.end()?;
        Ok(PublicKey { algorithm, bits })
    }
}

impl<'a> ExtensionList<'a> {
    /// [3] EXPLICIT Extensions, Extensions ::= SEQUENCE SIZE (1..MAX) OF Extension
    fn read(tagged: Element<'a>) -> Result<ExtensionList<'a>, Misfit> {
        let mut members = Members::of(tagged);
        let element = members.required(SEQUENCE)?;
        let extensions = at_least_one(element)?
            .map(Extension::read)
            .collect::<Result<Vec<_>, _>>()?;
        members.end()?;
        Ok(ExtensionList {
            element,
            extensions,
        })
    }
}

impl<'a> Extension<'a> {
    /// Extension ::= SEQUENCE { extnID OBJECT IDENTIFIER, critical BOOLEAN DEFAULT FALSE, extnValue OCTET STRING }
    fn read(element: Element<'a>) -> Result<Extension<'a>, Misfit> {
        let mut members = Members::of(expect(element, SEQUENCE)?);
        let identifier = members.required(OBJECT_IDENTIFIER)?.contents();
        // "critical, if written, is TRUE"
        let critical = members.optional(BOOLEAN);
        if let Some(falsehood) = critical.filter(|critical| critical.contents() != [0xFF]) {
            return Err(Misfit::at(falsehood));
        }
        let value = members.required(OCTET_STRING)?;
        members.end()?;
        Ok(Extension {
            element,
            identifier,
            is_critical: critical.is_some(),
            value,
        })
    }
}
