//! Rules 101 to 111: version, serial number, algorithms, issuer name, validity.

use super::Case;
use crate::certificate::Algorithm;
use crate::number::is_positive;
use crate::object_identifiers::SHA256_WITH_RSA_ENCRYPTION;
use crate::profile::Profile;
use crate::report::Report;
use crate::time::{days, Date, Time};

pub fn judge(case: Case, report: &mut Report) {
    rule_101(case, report);
    rules_102_to_104(case, report);
    rules_105_to_107(case, report);
    rule_108(case, report);
    rule_109(case, report);
    rules_110_and_111(case, report);
}

/// "101 version v3 (at its [0], or the TBS structure)."
fn rule_101(case: Case, report: &mut Report) {
    match case.certificate.version {
        Some(version) => report.require(101, version.is_v3, version.element),
        None => report.add(101, case.certificate.to_be_signed),
    }
}

fn rules_102_to_104(case: Case, report: &mut Report) {
    let serial_number = case.certificate.serial_number;
    let contents = serial_number.contents();
    // "102 serial above zero."
    report.require(102, is_positive(contents), serial_number);
    // "103 serial at most 20 content octets."
    report.require(103, contents.len() <= 20, serial_number);
    // "104 O: at least 8."
    if case.profile.has_rule(104) {
        report.require(104, contents.len() >= 8, serial_number);
    }
}

fn rules_105_to_107(case: Case, report: &mut Report) {
    let inner = case.certificate.inner_algorithm;
    let outer = case.certificate.outer_algorithm;
    // "105 inner, 106 outer algorithm is 1.2.840.113549.1.1.11 with NULL."
    let is_wanted = |algorithm: Algorithm| {
        algorithm.identifier == SHA256_WITH_RSA_ENCRYPTION && algorithm.has_null_parameters()
    };
    report.require(105, is_wanted(inner), inner.element);
    report.require(106, is_wanted(outer), outer.element);
    // "107 the two equal as octets (at outer)."
    let are_equal = inner.element.whole() == outer.element.whole();
    report.require(107, are_equal, outer.element);
}

/// "108 issuer name equals the issuer's subject, octet by octet."
fn rule_108(case: Case, report: &mut Report) {
    let name = case.certificate.issuer;
    report.require(108, name.whole() == case.issuer.subject, name);
}

/// "109 each GeneralizedTime before 2050."
fn rule_109(case: Case, report: &mut Report) {
    let validity = case.certificate.validity;
    for (element, time) in [validity.not_before, validity.not_after] {
        if matches!(time, Time::Generalized(date) if date.year < 2050) {
            report.add(109, element);
        }
    }
}

fn rules_110_and_111(case: Case, report: &mut Report) {
    let validity = case.certificate.validity;
    let not_before = validity.not_before.1.date();
    let not_after = validity.not_after.1.date();
    // "110 notAfter not before notBefore." "(110 and 111 at the validity)"
    let is_in_order = not_after.seconds() >= not_before.seconds();
    report.require(110, is_in_order, validity.element);
    // "RFC 5280 counts both ends of a validity": it is "the period of time from notBefore through notAfter, inclusive"
    // (4.1.2.5). "111 now compares notAfter minus notBefore plus one second with the limit". Times the wrong way round
    // are no second or fewer, which every limit allows.
    let is_within = not_before.seconds_through(not_after) <= limit(case.profile, not_before);
    report.require(111, is_within, validity.element);
}

/// So many seconds a validity that starts then may have: "at most 395 days (S), 45 days (O), of 86,400 seconds"; in
/// profile 4 "ten years: same month, day and time ten years on, 28 February for a start on 29 February", so that "the
/// last permitted second is the one before the tenth anniversary".
fn limit(profile: Profile, not_before: Date) -> i64 {
    match profile {
        Profile::DomainServer | Profile::OrganizationServer => days(395),
        Profile::Responder => days(45),
        Profile::SubordinateAuthority => {
            not_before.anniversary(10).seconds() - not_before.seconds()
        }
    }
}
