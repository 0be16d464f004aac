//! Name constraints.

use super::GeneralName;
use crate::der::{constructed, primitive, Element, SEQUENCE};
use crate::number::is_negative;
use crate::soundness::is_integer;
use crate::structure::{at_least_one, expect, Members, Misfit};

/// "What the constraints name is not judged."
#[derive(Debug)]
pub struct NameConstraints;

impl NameConstraints {
    /// NameConstraints ::= SEQUENCE { permittedSubtrees [0] GeneralSubtrees OPTIONAL,
    /// excludedSubtrees [1] GeneralSubtrees OPTIONAL }
    pub fn read(element: Element) -> Result<NameConstraints, Misfit> {
        let mut members = Members::of(expect(element, SEQUENCE)?);
        for field in [constructed(0), constructed(1)] {
            if let Some(subtrees) = members.optional(field) {
                check_subtrees(subtrees)?;
            }
        }
        members.end()?;
        Ok(NameConstraints)
    }
}

/// GeneralSubtrees ::= SEQUENCE SIZE (1..MAX) OF GeneralSubtree, under an implicit tag.
fn check_subtrees(element: Element) -> Result<(), Misfit> {
    at_least_one(element)?.try_for_each(check_subtree)
}

/// GeneralSubtree ::= SEQUENCE { base GeneralName, minimum [0] BaseDistance DEFAULT 0,
/// maximum [1] BaseDistance OPTIONAL }
fn check_subtree(element: Element) -> Result<(), Misfit> {
    let mut members = Members::of(expect(element, SEQUENCE)?);
    GeneralName::read(members.any()?)?;
    if let Some(minimum) = members.optional(primitive(0)) {
        check_distance(minimum)?;
        // "defaults unwritten"
        if minimum.contents() == [0] {
            return Err(Misfit::at(minimum));
        }
    }
    if let Some(maximum) = members.optional(primitive(1)) {
        check_distance(maximum)?;
    }
    members.end()
}

/// BaseDistance ::= INTEGER (0..MAX), under an implicit tag.
fn check_distance(element: Element) -> Result<(), Misfit> {
    if is_integer(element.contents()) && !is_negative(element.contents()) {
        Ok(())
    } else {
        Err(Misfit::at(element))
    }
}
