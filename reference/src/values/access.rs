//! Authority information access.

use super::GeneralName;
use crate::der::{Element, OBJECT_IDENTIFIER, SEQUENCE};
use crate::structure::{at_least_one, expect, Members, Misfit};

#[derive(Debug)]
pub struct AuthorityInformationAccess<'a> {
    pub descriptions: Vec<AccessDescription<'a>>,
}

#[derive(Clone, Copy, Debug)]
pub struct AccessDescription<'a> {
    pub element: Element<'a>,
    /// The contents of the OBJECT IDENTIFIER.
    pub method: &'a [u8],
    pub location: GeneralName<'a>,
}

impl<'a> AuthorityInformationAccess<'a> {
    /// AuthorityInfoAccessSyntax ::= SEQUENCE SIZE (1..MAX) OF AccessDescription
    pub fn read(element: Element<'a>) -> Result<AuthorityInformationAccess<'a>, Misfit> {
        let descriptions = at_least_one(expect(element, SEQUENCE)?)?
            .map(AccessDescription::read)
            .collect::<Result<_, _>>()?;
        Ok(AuthorityInformationAccess { descriptions })
    }
}

impl<'a> AccessDescription<'a> {
    /// AccessDescription ::= SEQUENCE { accessMethod OBJECT IDENTIFIER, accessLocation GeneralName }
    fn read(element: Element<'a>) -> Result<AccessDescription<'a>, Misfit> {
        let mut members = Members::of(expect(element, SEQUENCE)?);
        let method = members.required(OBJECT_IDENTIFIER)?.contents();
        let location = GeneralName::read(members.any()?)?;
        members.end()?;
        Ok(AccessDescription {
            element,
            method,
            location,
        })
    }
}
