//! Rules 112 to 122: the subject name.

use super::extensions::Values;
use super::Case;
use crate::der::{Element, PRINTABLE_STRING, UTF8_STRING};
use crate::name::{attributes, Attribute};
use crate::object_identifiers::{
    COMMON_NAME, COUNTRY, ORGANIZATION, ORGANIZATIONAL_UNIT, STATE_OR_PROVINCE,
};
use crate::profile::Profile;
use crate::report::Report;

pub fn judge(case: Case, values: &Values, report: &mut Report) {
    let subject = Subject {
        name: case.certificate.subject,
        attributes: attributes(case.certificate.subject).collect(),
    };
    rule_112(case, &subject, report);
    rules_113_to_115(&subject, report);
    rules_116_and_117(case, &subject, report);
    rules_118_and_119(case, &subject, report);
    rule_120(case, &subject, values, report);
    rule_121(case, &subject, report);
    rule_122(case, &subject, report);
}

struct Subject<'a> {
    name: Element<'a>,
    attributes: Vec<Attribute<'a>>,
}

impl<'a> Subject<'a> {
    /// The attributes of one type, in the order of the encoding.
    fn each<'s>(&'s self, identifier: &'static [u8]) -> impl Iterator<Item = &'s Attribute<'a>> {
        self.attributes
            .iter()
            .filter(move |attribute| attribute.identifier == identifier)
    }

    /// ""one X" gives an entry at the subject name if none, and at each further X"
    fn require_one(&self, rule: u16, identifier: &'static [u8], report: &mut Report) {
        let mut found = self.each(identifier);
        if found.next().is_none() {
            report.add(rule, self.name);
        }
        for further in found {
            report.add(rule, further.element);
        }
    }
}

/// "112 each subject attribute besides CN, C (1); CN, C, O, ST (2); CN, C, O, OU (O)." In profile 4 "112 allows CN, C, O".
fn rule_112(case: Case, subject: &Subject, report: &mut Report) {
    let allowed: &[&[u8]] = match case.profile {
        Profile::DomainServer => &[COMMON_NAME, COUNTRY],
        Profile::OrganizationServer => &[COMMON_NAME, COUNTRY, ORGANIZATION, STATE_OR_PROVINCE],
        Profile::Responder => &[COMMON_NAME, COUNTRY, ORGANIZATION, ORGANIZATIONAL_UNIT],
        Profile::SubordinateAuthority => &[COMMON_NAME, COUNTRY, ORGANIZATION],
    };
    for attribute in &subject.attributes {
        report.require(
            112,
            allowed.contains(&attribute.identifier),
            attribute.element,
        );
    }
}

fn rules_113_to_115(subject: &Subject, report: &mut Report) {
    // "113 one CN."
    subject.require_one(113, COMMON_NAME, report);
    // "114 one C."
    subject.require_one(114, COUNTRY, report);
    // "115 each C is PrintableString "US"."
    for country in subject.each(COUNTRY) {
        let is_good = is_text(country.value, &[PRINTABLE_STRING], b"US");
        report.require(115, is_good, country.element);
    }
}

fn rules_116_and_117(case: Case, subject: &Subject, report: &mut Report) {
    if !case.profile.has_rule(116) {
        return;
    }
    // "116 one O (2, O)."
    subject.require_one(116, ORGANIZATION, report);
    // "117 each O is "U.S. Government" (2, O)." In profile 4 "113 to 117 hold, O in PrintableString only."
    let string_types = match case.profile {
        Profile::SubordinateAuthority => &[PRINTABLE_STRING],
        _ => STRING_TYPES,
    };
    for organization in subject.each(ORGANIZATION) {
        let is_good = is_text(organization.value, string_types, b"U.S. Government");
        report.require(117, is_good, organization.element);
    }
}

fn rules_118_and_119(case: Case, subject: &Subject, report: &mut Report) {
    if !case.profile.has_rule(118) {
        return;
    }
    // "118 one ST (2)."
    subject.require_one(118, STATE_OR_PROVINCE, report);
    // "119 each ST is "District of Columbia" (2)."
    for state in subject.each(STATE_OR_PROVINCE) {
        let is_good = is_text(state.value, STRING_TYPES, b"District of Columbia");
        report.require(119, is_good, state.element);
    }
}

/// "117 and 119 take PrintableString or UTF8String."
const STRING_TYPES: &[u8] = &[PRINTABLE_STRING, UTF8_STRING];

/// Whether a value is this text in one of these string types.
fn is_text(value: Element, string_types: &[u8], text: &[u8]) -> bool {
    string_types.contains(&value.identifier()) && value.contents() == text
}

/// "120 S: the first CN equals at least one dNSName of the subject alternative name, ASCII case ignored. Content
/// octets are compared; without a CN it is not judged." "Rules below, and 120, are not judged if the extension is
/// missing or fails 340+s."
fn rule_120(case: Case, subject: &Subject, values: &Values, report: &mut Report) {
    if !case.profile.has_rule(120) {
        return;
    }
    let Some(common_name) = subject.each(COMMON_NAME).next() else {
        return;
    };
    let Some(alternative_name) = &values.subject_alternative_name else {
        return;
    };
    let wanted = common_name.value.contents();
    let is_among_the_names = alternative_name
        .value
        .names()
        .filter_map(|name| name.dns_name())
        .any(|dns_name| dns_name.eq_ignore_ascii_case(wanted));
    report.require(120, is_among_the_names, common_name.element);
}

/// "121 O: each SET of a subject name with over one member."
fn rule_121(case: Case, subject: &Subject, report: &mut Report) {
    if !case.profile.has_rule(121) {
        return;
    }
    for set in subject.name.members() {
        report.require(121, set.members().count() <= 1, set);
    }
}

/// "New 122: each CN is a PrintableString "US Federal TLS CA x" or "US Federal Test TLS CA x", x a decimal number from 1
/// without leading zeros."
fn rule_122(case: Case, subject: &Subject, report: &mut Report) {
    if !case.profile.has_rule(122) {
        return;
    }
    for common_name in subject.each(COMMON_NAME) {
        let value = common_name.value;
        let is_good = value.identifier() == PRINTABLE_STRING && is_authority(value.contents());
        report.require(122, is_good, common_name.element);
    }
}

/// Whether a text is the name of a subordinate CA, of production or of a test.
fn is_authority(text: &[u8]) -> bool {
    [&b"US Federal TLS CA "[..], b"US Federal Test TLS CA "]
        .iter()
        .filter_map(|words| text.strip_prefix(*words))
        .any(is_decimal_number_from_1)
}

/// However many digits there are, of which the first is not 0.
fn is_decimal_number_from_1(text: &[u8]) -> bool {
    matches!(text, [b'1'..=b'9', further @ ..] if further.iter().all(u8::is_ascii_digit))
}

#[cfg(test)]
mod tests {
    use super::is_authority;

    #[test]
    fn names_of_authorities() {
        for number in ["1", "9", "10", "12", "4294967296", &"9".repeat(200)] {
            assert!(is_authority(
                format!("US Federal TLS CA {number}").as_bytes()
            ));
            assert!(is_authority(
                format!("US Federal Test TLS CA {number}").as_bytes()
            ));
        }
        for rest in [
            "", " ", " 0", " 01", " 1 ", "  1", " 1a", " a", "1", " -1", " 1.0",
        ] {
            assert!(
                !is_authority(format!("US Federal TLS CA{rest}").as_bytes()),
                "{rest}"
            );
        }
        for name in [
            "US Federal test TLS CA 1",
            "us federal tls ca 1",
            "US Federal Test Test TLS CA 1",
            "US Federal TestTLS CA 1",
            "US Federal Root CA 1",
            " US Federal TLS CA 1",
            "1",
            "",
        ] {
            assert!(!is_authority(name.as_bytes()), "{name}");
        }
    }
}
