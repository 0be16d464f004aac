//! Certificate policies.

use crate::der::{Element, OBJECT_IDENTIFIER, SEQUENCE};
use crate::structure::{at_least_one, expect, Members, Misfit};

/// The policies of a certificate, and the qualifiers of all of them, in the order of the encoding.
#[derive(Debug, Default)]
pub struct CertificatePolicies<'a> {
    /// The contents of the OBJECT IDENTIFIERs.
    pub identifiers: Vec<&'a [u8]>,
    pub qualifiers: Vec<PolicyQualifier<'a>>,
}

/// PolicyQualifierInfo
#[derive(Clone, Copy, Debug)]
pub struct PolicyQualifier<'a> {
    pub element: Element<'a>,
    /// The contents of the OBJECT IDENTIFIER.
    pub identifier: &'a [u8],
}

impl<'a> CertificatePolicies<'a> {
    /// certificatePolicies ::= SEQUENCE SIZE (1..MAX) OF PolicyInformation
    pub fn read(element: Element<'a>) -> Result<CertificatePolicies<'a>, Misfit> {
        let mut policies = CertificatePolicies::default();
        for policy in at_least_one(expect(element, SEQUENCE)?)? {
            policies.read_policy(policy)?;
        }
        Ok(policies)
    }

    /// PolicyInformation ::= SEQUENCE { policyIdentifier OBJECT IDENTIFIER,
    /// policyQualifiers SEQUENCE SIZE (1..MAX) OF PolicyQualifierInfo OPTIONAL }
    fn read_policy(&mut self, element: Element<'a>) -> Result<(), Misfit> {
        let mut members = Members::of(expect(element, SEQUENCE)?);
        let identifier = members.required(OBJECT_IDENTIFIER)?.contents();
        self.identifiers.push(identifier);
        if let Some(qualifiers) = members.optional(SEQUENCE) {
            for qualifier in at_least_one(qualifiers)? {
                self.qualifiers.push(PolicyQualifier::read(qualifier)?);
            }
        }
        members.end()
    }
}

impl<'a> PolicyQualifier<'a> {
    /// PolicyQualifierInfo ::= SEQUENCE { policyQualifierId OBJECT IDENTIFIER, qualifier ANY }
    fn read(element: Element<'a>) -> Result<PolicyQualifier<'a>, Misfit> {
        let mut members = Members::of(expect(element, SEQUENCE)?);
        let identifier = members.required(OBJECT_IDENTIFIER)?.contents();
        members.any()?;
        members.end()?;
        Ok(PolicyQualifier {
            element,
            identifier,
        })
    }
}
