//! The values about keys: key identifiers, basic constraints, usages, nocheck.

use super::{is_named_bit_list, GeneralNames};
use crate::der::{
    constructed, primitive, Element, BIT_STRING, BOOLEAN, INTEGER, NULL, OBJECT_IDENTIFIER,
    OCTET_STRING, SEQUENCE,
};
use crate::number::is_negative;
use crate::soundness::is_integer;
use crate::structure::{at_least_one, expect, Members, Misfit};

#[derive(Debug)]
pub struct AuthorityKeyIdentifier<'a> {
    pub key_identifier: Option<&'a [u8]>,
}

impl<'a> AuthorityKeyIdentifier<'a> {
    /// AuthorityKeyIdentifier ::= SEQUENCE { keyIdentifier [0] OCTET STRING OPTIONAL,
    /// authorityCertIssuer [1] GeneralNames OPTIONAL, authorityCertSerialNumber [2] INTEGER OPTIONAL }
    pub fn read(element: Element<'a>) -> Result<AuthorityKeyIdentifier<'a>, Misfit> {
        let mut members = Members::of(expect(element, SEQUENCE)?);
        let key_identifier = members.optional(primitive(0));
        if let Some(names) = members.optional(constructed(1)) {
            GeneralNames::read_members(names)?;
        }
        if let Some(serial) = members.optional(primitive(2)) {
            if !is_integer(serial.contents()) {
                return Err(Misfit::at(serial));
            }
        }
        members.end()?;
        Ok(AuthorityKeyIdentifier {
            key_identifier: key_identifier.map(|identifier| identifier.contents()),
        })
    }
}

#[derive(Debug)]
pub struct BasicConstraints<'a> {
    pub is_authority: bool,
    /// The contents of the INTEGER.
    pub path_length: Option<&'a [u8]>,
}

impl<'a> BasicConstraints<'a> {
    /// BasicConstraints ::= SEQUENCE { cA BOOLEAN DEFAULT FALSE, pathLenConstraint INTEGER (0..MAX) OPTIONAL }
    pub fn read(element: Element<'a>) -> Result<BasicConstraints<'a>, Misfit> {
        let mut members = Members::of(expect(element, SEQUENCE)?);
        let authority = members.optional(BOOLEAN);
        if let Some(falsehood) = authority.filter(|authority| authority.contents() != [0xFF]) {
            return Err(Misfit::at(falsehood));
        }
        let path_length = members.optional(INTEGER);
        if let Some(negative) = path_length.filter(|length| is_negative(length.contents())) {
            return Err(Misfit::at(negative));
        }
        members.end()?;
        Ok(BasicConstraints {
            is_authority: authority.is_some(),
            path_length: path_length.map(|length| length.contents()),
        })
    }

    pub fn is_empty(&self) -> bool {
        !self.is_authority && self.path_length.is_none()
    }
}

#[derive(Debug)]
pub struct SubjectKeyIdentifier<'a> {
    pub octets: &'a [u8],
}

impl<'a> SubjectKeyIdentifier<'a> {
    /// SubjectKeyIdentifier ::= OCTET STRING
    pub fn read(element: Element<'a>) -> Result<SubjectKeyIdentifier<'a>, Misfit> {
        let octets = expect(element, OCTET_STRING)?.contents();
        Ok(SubjectKeyIdentifier { octets })
    }
}

/// The bits of a key usage, eight an octet, bit 0 highest in the first.
#[derive(Debug)]
pub struct KeyUsage<'a> {
    pub bits: &'a [u8],
}

impl<'a> KeyUsage<'a> {
    /// KeyUsage ::= BIT STRING { digitalSignature (0), … }
    pub fn read(element: Element<'a>) -> Result<KeyUsage<'a>, Misfit> {
        let contents = expect(element, BIT_STRING)?.contents();
        match contents {
            [_unused, bits @ ..] if is_named_bit_list(contents) => Ok(KeyUsage { bits }),
            _ => Err(Misfit::at(element)),
        }
    }
}

#[derive(Debug)]
pub struct ExtendedKeyUsage<'a> {
    element: Element<'a>,
}

impl<'a> ExtendedKeyUsage<'a> {
    /// ExtKeyUsageSyntax ::= SEQUENCE SIZE (1..MAX) OF OBJECT IDENTIFIER
    pub fn read(element: Element<'a>) -> Result<ExtendedKeyUsage<'a>, Misfit> {
        at_least_one(expect(element, SEQUENCE)?)?
            .try_for_each(|purpose| expect(purpose, OBJECT_IDENTIFIER).map(|_| ()))?;
        Ok(ExtendedKeyUsage { element })
    }

    /// The OBJECT IDENTIFIERs.
    pub fn purposes(&self) -> impl Iterator<Item = Element<'a>> {
        self.element.members()
    }
}

#[derive(Debug)]
pub struct NoCheck;

impl NoCheck {
    /// id-pkix-ocsp-nocheck: NULL
    pub fn read(element: Element) -> Result<NoCheck, Misfit> {
        expect(element, NULL)?;
        Ok(NoCheck)
    }
}
