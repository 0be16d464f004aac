//! Rules 301 to 363: which extensions there are, whether they are critical, and whether their values are sound.

use super::Case;
use crate::certificate::Extension;
use crate::der::Element;
use crate::object_identifiers::PRIVATE_KEY_USAGE_PERIOD;
use crate::profile::{look_up, standings, Standing, ROWS};
use crate::report::Report;
use crate::structure::Misfit;
use crate::values::{
    read_value, AuthorityInformationAccess, AuthorityKeyIdentifier, BasicConstraints,
    CertificatePolicies, DistributionPoints, ExtendedKeyUsage, GeneralNames, KeyUsage,
    NameConstraints, NoCheck, SubjectKeyIdentifier, Value,
};
use std::collections::BTreeSet;

/// The values that the rules on values judge: None where the extension is missing or fails 340+s.
pub struct Values<'a> {
    pub authority_key_identifier: Option<Value<'a, AuthorityKeyIdentifier<'a>>>,
    pub basic_constraints: Option<Value<'a, BasicConstraints<'a>>>,
    pub subject_key_identifier: Option<Value<'a, SubjectKeyIdentifier<'a>>>,
    pub key_usage: Option<Value<'a, KeyUsage<'a>>>,
    pub extended_key_usage: Option<Value<'a, ExtendedKeyUsage<'a>>>,
    pub certificate_policies: Option<Value<'a, CertificatePolicies<'a>>>,
    pub subject_alternative_name: Option<Value<'a, GeneralNames<'a>>>,
    pub authority_information_access: Option<Value<'a, AuthorityInformationAccess<'a>>>,
    pub crl_distribution_points: Option<Value<'a, DistributionPoints<'a>>>,
}

/// Judges the extensions, and answers the values that pass.
pub fn judge<'a>(case: Case<'_, 'a>, report: &mut Report) -> Values<'a> {
    let mut extensions = Extensions::default();
    let mut seen = BTreeSet::new();
    for extension in case.certificate.extensions() {
        // "361 each later extension with an identifier seen before; other rules see the first only."
        if seen.insert(extension.identifier) {
            extensions.sort_in(case, extension, report);
        } else {
            report.add(361, extension.element);
        }
    }
    for (s, standing) in standings(case.profile) {
        match extensions.in_row(s) {
            Some(extension) => rules_321_to_331(s, standing, extension, report),
            None => rules_301_to_311(case, s, standing, report),
        }
    }
    extensions.rules_341_to_351(report)
}

/// The extensions that the table's rows want or allow: "An extension marked "no" or "other" gets neither."
#[derive(Default)]
struct Extensions<'a> {
    by_row: [Option<Extension<'a>>; ROWS],
}

impl<'a> Extensions<'a> {
    /// Puts an extension into its row, or judges it as one that has none.
    fn sort_in(&mut self, case: Case, extension: &Extension<'a>, report: &mut Report) {
        match look_up(extension.identifier, case.profile) {
            Some((s, Standing::Mandatory | Standing::MandatoryCritical | Standing::Optional)) => {
                if let Some(place) = self.by_row.get_mut(s - 1) {
                    *place = Some(*extension);
                }
            }
            neither => {
                let standing = neither.map_or(Standing::NotInTable, |(_, standing)| standing);
                rule_362(case, standing, extension, report);
                rule_363(case, standing, extension, report);
            }
        }
    }

    fn in_row(&self, s: usize) -> Option<&Extension<'a>> {
        self.by_row.get(s - 1)?.as_ref()
    }

    /// "340+s value is not exactly one sound element of its RFC ASN.1 …": the module `values` quotes it whole.
    fn rules_341_to_351(&self, report: &mut Report) -> Values<'a> {
        // No rule judges nocheck further, and "What the constraints name is not judged."
        self.value(10, NoCheck::read, report);
        self.value(11, NameConstraints::read, report);
        Values {
            authority_key_identifier: self.value(1, AuthorityKeyIdentifier::read, report),
            basic_constraints: self.value(2, BasicConstraints::read, report),
            subject_key_identifier: self.value(3, SubjectKeyIdentifier::read, report),
            key_usage: self.value(4, KeyUsage::read, report),
            extended_key_usage: self.value(5, ExtendedKeyUsage::read, report),
            certificate_policies: self.value(6, CertificatePolicies::read, report),
            subject_alternative_name: self.value(7, GeneralNames::read, report),
            authority_information_access: self.value(8, AuthorityInformationAccess::read, report),
            crl_distribution_points: self.value(9, DistributionPoints::read, report),
        }
    }

    /// The value in row s, if there is one and it passes. "(at the OCTET STRING; depth afresh)"
    fn value<Type>(
        &self,
        s: usize,
        read: impl Fn(Element<'a>) -> Result<Type, Misfit>,
        report: &mut Report,
    ) -> Option<Value<'a, Type>> {
        let octet_string = self.in_row(s)?.value;
        let value = read_value(octet_string, read);
        report.require(340 + s as u16, value.is_some(), octet_string);
        value
    }
}

/// "300+s an M missing (at the extension list, or TBS)."
fn rules_301_to_311(case: Case, s: usize, standing: Standing, report: &mut Report) {
    let place = match &case.certificate.extension_list {
        Some(list) => list.element,
        None => case.certificate.to_be_signed,
    };
    match standing {
        Standing::Mandatory | Standing::MandatoryCritical => report.add(300 + s as u16, place),
        Standing::Optional | Standing::No | Standing::Other | Standing::NotInTable => (),
    }
}

/// "320+s critical where the table has no "crit", or the reverse."
fn rules_321_to_331(s: usize, standing: Standing, extension: &Extension, report: &mut Report) {
    let must_be_critical = standing == Standing::MandatoryCritical;
    let is_kept = extension.is_critical == must_be_critical;
    report.require(320 + s as u16, is_kept, extension.element);
}

/// "362 O: each extension "no" or not in the table, save private key usage period 2.5.29.16."
fn rule_362(case: Case, standing: Standing, extension: &Extension, report: &mut Report) {
    if case.profile.has_rule(362) && matches!(standing, Standing::No | Standing::NotInTable) {
        let is_excepted = extension.identifier == PRIVATE_KEY_USAGE_PERIOD;
        report.require(362, is_excepted, extension.element);
    }
}

/// "363 S: each critical one that is "other" or not in the table."
fn rule_363(case: Case, standing: Standing, extension: &Extension, report: &mut Report) {
    if case.profile.has_rule(363) && matches!(standing, Standing::Other | Standing::NotInTable) {
        report.require(363, !extension.is_critical, extension.element);
    }
}
