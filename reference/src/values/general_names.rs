//! GeneralNames, in the alternative name and wherever else RFC 5280 has them.

use crate::der::{constructed, primitive, Element, OBJECT_IDENTIFIER, SEQUENCE};
use crate::name::check_name;
use crate::soundness::is_object_identifier;
use crate::structure::{at_least_one, expect, Members, Misfit};

const OTHER_NAME: u8 = constructed(0);
const RFC822_NAME: u8 = primitive(1);
const DNS_NAME: u8 = primitive(2);
const X400_ADDRESS: u8 = constructed(3);
const DIRECTORY_NAME: u8 = constructed(4);
const EDI_PARTY_NAME: u8 = constructed(5);
const UNIFORM_RESOURCE_IDENTIFIER: u8 = primitive(6);
const IP_ADDRESS: u8 = primitive(7);
const REGISTERED_ID: u8 = primitive(8);

/// One name of RFC 5280's nine forms.
#[derive(Clone, Copy, Debug)]
pub struct GeneralName<'a> {
    pub element: Element<'a>,
}

impl<'a> GeneralName<'a> {
    /// GeneralName ::= CHOICE { otherName [0], rfc822Name [1] IA5String, dNSName [2] IA5String, x400Address [3],
    /// directoryName [4] Name, ediPartyName [5], uniformResourceIdentifier [6] IA5String,
    /// iPAddress [7] OCTET STRING, registeredID [8] OBJECT IDENTIFIER }
    pub fn read(element: Element<'a>) -> Result<GeneralName<'a>, Misfit> {
        match element.identifier() {
            OTHER_NAME => check_other_name(element)?,
            DIRECTORY_NAME => check_directory_name(element)?,
            REGISTERED_ID if !is_object_identifier(element.contents()) => {
                return Err(Misfit::at(element));
            }
            // "characters, x400Address, ediPartyName and ANY values free"
            RFC822_NAME
            | DNS_NAME
            | X400_ADDRESS
            | EDI_PARTY_NAME
            | UNIFORM_RESOURCE_IDENTIFIER
            | IP_ADDRESS
            | REGISTERED_ID => (),
            _ => return Err(Misfit::at(element)),
        }
        Ok(GeneralName { element })
    }

    /// The octets of a dNSName; None of another form.
    pub fn dns_name(&self) -> Option<&'a [u8]> {
        (self.element.identifier() == DNS_NAME).then(|| self.element.contents())
    }

    pub fn is_uri(&self) -> bool {
        self.element.identifier() == UNIFORM_RESOURCE_IDENTIFIER
    }

    /// "an HTTP URI ("http://" in any case, then something)"
    pub fn is_http_uri(&self) -> bool {
        const SCHEME: &[u8] = b"http://";
        let octets = self.element.contents();
        self.is_uri()
            && octets.len() > SCHEME.len()
            && octets
                .get(..SCHEME.len())
                .is_some_and(|front| front.eq_ignore_ascii_case(SCHEME))
    }
}

/// OtherName ::= SEQUENCE { type-id OBJECT IDENTIFIER, value [0] EXPLICIT ANY }
fn check_other_name(element: Element) -> Result<(), Misfit> {
    let mut members = Members::of(element);
    members.required(OBJECT_IDENTIFIER)?;
    let mut tagged = Members::of(members.required(constructed(0))?);
    tagged.any()?;
    tagged.end()?;
    members.end()
}

/// directoryName [4] Name: explicit, since Name is a CHOICE.
fn check_directory_name(element: Element) -> Result<(), Misfit> {
    let mut members = Members::of(element);
    check_name(members.any()?)?;
    members.end()
}

/// GeneralNames ::= SEQUENCE SIZE (1..MAX) OF GeneralName
#[derive(Clone, Copy, Debug)]
pub struct GeneralNames<'a> {
    element: Element<'a>,
}

impl<'a> GeneralNames<'a> {
    pub fn read(element: Element<'a>) -> Result<GeneralNames<'a>, Misfit> {
        GeneralNames::read_members(expect(element, SEQUENCE)?)
    }

    /// GeneralNames under an implicit tag.
    pub fn read_members(element: Element<'a>) -> Result<GeneralNames<'a>, Misfit> {
        at_least_one(element)?.try_for_each(|member| GeneralName::read(member).map(|_| ()))?;
        Ok(GeneralNames { element })
    }

    pub fn names(&self) -> impl Iterator<Item = GeneralName<'a>> {
        self.element
            .members()
            .map(|element| GeneralName { element })
    }
}
