//! RFC 5280's Name: a SEQUENCE OF SET OF AttributeTypeAndValue.

use crate::der::{Element, OBJECT_IDENTIFIER, SEQUENCE, SET};
use crate::structure::{at_least_one, expect, Members, Misfit};

/// AttributeTypeAndValue ::= SEQUENCE { type OBJECT IDENTIFIER, value ANY }
#[derive(Clone, Copy, Debug)]
pub struct Attribute<'a> {
    pub element: Element<'a>,
    /// The contents of the OBJECT IDENTIFIER.
    pub identifier: &'a [u8],
    pub value: Element<'a>,
}

impl<'a> Attribute<'a> {
    pub fn read(element: Element<'a>) -> Result<Attribute<'a>, Misfit> {
        let mut members = Members::of(expect(element, SEQUENCE)?);
        let identifier = members.required(OBJECT_IDENTIFIER)?.contents();
        let value = members.any()?;
        members.end()?;
        Ok(Attribute {
            element,
            identifier,
            value,
        })
    }
}

/// Whether `element` is a Name: "names, sets and extensions as RFC 5280, sets and extension lists non-empty".
/// A name may be empty, its sets may not.
pub fn check_name(element: Element) -> Result<(), Misfit> {
    expect(element, SEQUENCE)?
        .members()
        .try_for_each(|set| check_relative_name(expect(set, SET)?))
}

/// Whether the members of `set`, whatever its tag, make a RelativeDistinguishedName ::= SET SIZE (1..MAX) OF
/// AttributeTypeAndValue, their order aside.
pub fn check_relative_name(set: Element) -> Result<(), Misfit> {
    at_least_one(set)?.try_for_each(|member| Attribute::read(member).map(|_| ()))
}

/// The attributes of a name that `check_name` has passed, across and inside its sets, in the order of the encoding.
pub fn attributes<'a>(name: Element<'a>) -> impl Iterator<Item = Attribute<'a>> {
    name.members()
        .flat_map(|set| set.members())
        .filter_map(|member| Attribute::read(member).ok())
}
