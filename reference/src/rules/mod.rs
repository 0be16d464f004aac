//! The rules, in groups. Each function for a rule quotes the words it comes from.
//!
//! ""Each" gives one entry an item, without a verb an offending one; "one X" gives an entry at the subject name if
//! none, and at each further X. The place is the field or attribute judged, unless another is given."

mod extensions;
mod fields;
mod host_name;
mod key;
mod subject;
mod values;

use crate::certificate::Certificate;
use crate::profile::Profile;
use crate::report::Report;
use crate::Entry;

/// "The issuer counts only by its subject name and its key identifier"
pub struct Issuer<'a> {
    /// The octets of the subject name.
    pub subject: &'a [u8],
    /// The contents of the subject key id; None "if the issuer has none, or a bad one".
    pub key_identifier: Option<&'a [u8]>,
}

/// What the rules judge.
#[derive(Clone, Copy)]
struct Case<'c, 'a> {
    certificate: &'c Certificate<'a>,
    issuer: &'c Issuer<'a>,
    profile: Profile,
}

/// The findings on an accepted certificate, in their order.
pub fn findings(certificate: &Certificate, issuer: &Issuer, profile: Profile) -> Vec<Entry> {
    let case = Case {
        certificate,
        issuer,
        profile,
    };
    let mut report = Report::default();
    fields::judge(case, &mut report);
    key::judge(case, &mut report);
    let values = extensions::judge(case, &mut report);
    subject::judge(case, &values, &mut report);
    values::judge(case, &values, &mut report);
    report.into_entries()
}
