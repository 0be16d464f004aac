//! Reading the members of a constructed element from left to right.
//!
//! "read left to right; the place is the first element not allowed there, or the enclosing one if it ends early"

use crate::der::{Element, Elements};
use std::iter::Peekable;

/// An element is not what the ASN.1 allows at its place, or ends early.
#[derive(Clone, Copy, Debug, PartialEq, Eq)]
pub struct Misfit {
    pub place: usize,
}

impl Misfit {
    pub fn at(element: Element) -> Misfit {
        Misfit {
            place: element.start(),
        }
    }
}

/// `element`, if it has this identifier octet.
pub fn expect(element: Element<'_>, identifier: u8) -> Result<Element<'_>, Misfit> {
    if element.identifier() == identifier {
        Ok(element)
    } else {
        Err(Misfit::at(element))
    }
}

/// The members of `enclosing`, of which there must be at least one.
pub fn at_least_one(enclosing: Element<'_>) -> Result<Elements<'_>, Misfit> {
    if enclosing.contents().is_empty() {
        Err(Misfit::at(enclosing))
    } else {
        Ok(enclosing.members())
    }
}

/// The members of an element that are yet to be read.
pub struct Members<'a> {
    enclosing: Element<'a>,
    unread: Peekable<Elements<'a>>,
}

impl<'a> Members<'a> {
    pub fn of(enclosing: Element<'a>) -> Members<'a> {
        Members {
            enclosing,
            unread: enclosing.members().peekable(),
        }
    }

    /// The next member, whatever it is.
    pub fn any(&mut self) -> Result<Element<'a>, Misfit> {
        self.unread.next().ok_or(Misfit::at(self.enclosing))
    }

    /// The next member, which must have this identifier octet.
    pub fn required(&mut self, identifier: u8) -> Result<Element<'a>, Misfit> {
        expect(self.any()?, identifier)
    }

    /// The next member, if it has this identifier octet; else it stays unread.
    pub fn optional(&mut self, identifier: u8) -> Option<Element<'a>> {
        self.unread
            .next_if(|member| member.identifier() == identifier)
    }

    /// The next member, if there is one.
    pub fn optional_any(&mut self) -> Option<Element<'a>> {
        self.unread.next()
    }

    /// No member is left.
    pub fn end(mut self) -> Result<(), Misfit> {
        match self.unread.next() {
            Some(extra) => Err(Misfit::at(extra)),
            None => Ok(()),
        }
    }
}
