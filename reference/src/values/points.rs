//! CRL distribution points.

use super::{is_named_bit_list, GeneralName, GeneralNames};
use crate::der::{constructed, primitive, Element, SEQUENCE};
use crate::name::check_relative_name;
use crate::soundness::is_ascending;
use crate::structure::{at_least_one, expect, Members, Misfit};

#[derive(Debug)]
pub struct DistributionPoints<'a> {
    pub points: Vec<DistributionPoint<'a>>,
}

#[derive(Clone, Copy, Debug)]
pub struct DistributionPoint<'a> {
    pub element: Element<'a>,
    pub full_name: Option<GeneralNames<'a>>,
    pub has_reasons: bool,
    pub has_crl_issuer: bool,
}

impl<'a> DistributionPoints<'a> {
    /// CRLDistributionPoints ::= SEQUENCE SIZE (1..MAX) OF DistributionPoint
    pub fn read(element: Element<'a>) -> Result<DistributionPoints<'a>, Misfit> {
        let points = at_least_one(expect(element, SEQUENCE)?)?
            .map(DistributionPoint::read)
            .collect::<Result<_, _>>()?;
        Ok(DistributionPoints { points })
    }

    /// The names of all full names, in the order of the encoding.
    pub fn full_names(&self) -> impl Iterator<Item = GeneralName<'a>> + '_ {
        self.points
            .iter()
            .filter_map(|point| point.full_name)
            .flat_map(|full_name| full_name.names())
    }
}

impl<'a> DistributionPoint<'a> {
    /// DistributionPoint ::= SEQUENCE { distributionPoint [0] DistributionPointName OPTIONAL,
    /// reasons [1] ReasonFlags OPTIONAL, cRLIssuer [2] GeneralNames OPTIONAL }
    fn read(element: Element<'a>) -> Result<DistributionPoint<'a>, Misfit> {
        let mut members = Members::of(expect(element, SEQUENCE)?);
        let full_name = match members.optional(constructed(0)) {
            Some(tagged) => read_point_name(tagged)?,
            None => None,
        };
        let reasons = members.optional(primitive(1));
        if let Some(reasons) = reasons.filter(|reasons| !is_named_bit_list(reasons.contents())) {
            return Err(Misfit::at(reasons));
        }
        let crl_issuer = members.optional(constructed(2));
        if let Some(names) = crl_issuer {
            GeneralNames::read_members(names)?;
        }
        members.end()?;
        Ok(DistributionPoint {
            element,
            full_name,
            has_reasons: reasons.is_some(),
            has_crl_issuer: crl_issuer.is_some(),
        })
    }
}

/// DistributionPointName ::= CHOICE { fullName [0] GeneralNames, nameRelativeToCRLIssuer [1]
/// RelativeDistinguishedName }, under an explicit tag, since it is a CHOICE. Answers the full name, if it is one.
fn read_point_name(tagged: Element<'_>) -> Result<Option<GeneralNames<'_>>, Misfit> {
    let mut members = Members::of(tagged);
    let full_name = match members.optional(constructed(0)) {
        Some(names) => Some(GeneralNames::read_members(names)?),
        None => {
            let relative_name = members.required(constructed(1))?;
            check_relative_name(relative_name)?;
            // A SET OF under an implicit tag: "SETs in order".
            if !is_ascending(&relative_name) {
                return Err(Misfit::at(relative_name));
            }
            None
        }
    };
    members.end()?;
    Ok(full_name)
}
