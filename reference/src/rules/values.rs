//! Rules 401 to 424: what the values of extensions say.
//!
//! "Rules below, and 120, are not judged if the extension is missing or fails 340+s. Place: the OCTET STRING, or the item
//! for "each"."

use super::extensions::Values;
use super::host_name::is_host_name;
use super::key::{kind_of, KeyKind};
use super::Case;
use crate::object_identifiers::{
    CA_ISSUERS_ACCESS, CLIENT_AUTHENTICATION, DOMAIN_VALIDATED, FEDERAL_POLICY_ARC, OCSP_ACCESS,
    OCSP_SIGNING, ORGANIZATION_VALIDATED, PRACTICE_STATEMENT_QUALIFIER, SERVER_AUTHENTICATION,
};
use crate::profile::Profile;
use crate::report::Report;
use crate::values::{
    AuthorityInformationAccess, AuthorityKeyIdentifier, BasicConstraints, CertificatePolicies,
    DistributionPoints, ExtendedKeyUsage, GeneralName, GeneralNames, KeyUsage,
    SubjectKeyIdentifier, Value,
};

pub fn judge(case: Case, values: &Values, report: &mut Report) {
    if let Some(value) = &values.authority_key_identifier {
        rule_401(case, value, report);
    }
    if let Some(value) = &values.basic_constraints {
        rules_402_and_421(case, value, report);
    }
    if let Some(value) = &values.subject_key_identifier {
        rule_403(value, report);
    }
    if let Some(value) = &values.key_usage {
        rules_404_and_405(case, value, report);
        rule_422(case, value, report);
    }
    if let Some(value) = &values.extended_key_usage {
        rules_407_and_408(case, value, report);
    }
    if let Some(value) = &values.certificate_policies {
        rules_409_to_411(case, value, report);
    }
    if let Some(value) = &values.subject_alternative_name {
        rules_412_to_414(case, value, report);
    }
    if let Some(value) = &values.authority_information_access {
        rules_415_to_417(case, value, report);
        rule_423(case, value, report);
    }
    if let Some(value) = &values.crl_distribution_points {
        rules_418_and_419(value, report);
        rule_424(case, value, report);
    }
}

/// "401 key identifier present and equal to the issuer's subject key id (broken if the issuer has none, or a bad one)."
fn rule_401(case: Case, authority: &Value<AuthorityKeyIdentifier>, report: &mut Report) {
    let is_kept = match (authority.value.key_identifier, case.issuer.key_identifier) {
        (Some(identifier), Some(of_issuer)) => identifier == of_issuer,
        _ => false,
    };
    report.require(401, is_kept, authority.octet_string);
}

fn rules_402_and_421(case: Case, constraints: &Value<BasicConstraints>, report: &mut Report) {
    let value = &constraints.value;
    // "402 S: basic constraints empty."
    if case.profile.has_rule(402) {
        report.require(402, value.is_empty(), constraints.octet_string);
    }
    // "421 basic constraints are cA true with path length 0"
    if case.profile.has_rule(421) {
        let is_kept = value.is_authority && value.path_length == Some(&[0]);
        report.require(421, is_kept, constraints.octet_string);
    }
}

/// "403 subject key id 20 octets."
fn rule_403(subject_key: &Value<SubjectKeyIdentifier>, report: &mut Report) {
    let is_kept = subject_key.value.octets.len() == 20;
    report.require(403, is_kept, subject_key.octet_string);
}

/// Bits of a key usage, in its first octet.
const DIGITAL_SIGNATURE: u8 = 0x80;
const KEY_ENCIPHERMENT: u8 = 0x20;
const KEY_AGREEMENT: u8 = 0x08;
const KEY_CERTIFICATE_SIGN: u8 = 0x04;
const CRL_SIGN: u8 = 0x02;

/// The first octet of a key usage's bits, and the later ones.
fn octets_of<'a>(usage: &KeyUsage<'a>) -> (u8, &'a [u8]) {
    match usage.bits {
        [first, later @ ..] => (*first, later),
        [] => (0, &[]),
    }
}

fn rules_404_and_405(case: Case, usage: &Value<KeyUsage>, report: &mut Report) {
    if !case.profile.has_rule(404) {
        return;
    }
    let (first, later) = octets_of(&usage.value);
    // "404 digitalSignature set."
    let is_signing = first & DIGITAL_SIGNATURE != 0;
    report.require(404, is_signing, usage.octet_string);
    // "405 no bit besides: keyEncipherment with RSA, keyAgreement with EC (S); none (O or another key)."
    let also_allowed = match (case.profile.is_server(), kind_of(&case.certificate.key)) {
        (true, KeyKind::Rsa) => KEY_ENCIPHERMENT,
        (true, KeyKind::EllipticCurve) => KEY_AGREEMENT,
        (true, KeyKind::Another) | (false, _) => 0,
    };
    let has_no_bit_besides =
        first & !(DIGITAL_SIGNATURE | also_allowed) == 0 && later.iter().all(|&octet| octet == 0);
    report.require(405, has_no_bit_besides, usage.octet_string);
}

/// "422 keyCertSign and cRLSign set"
fn rule_422(case: Case, usage: &Value<KeyUsage>, report: &mut Report) {
    const WANTED: u8 = KEY_CERTIFICATE_SIGN | CRL_SIGN;
    if case.profile.has_rule(422) {
        let (first, _) = octets_of(&usage.value);
        report.require(422, first & WANTED == WANTED, usage.octet_string);
    }
}

fn rules_407_and_408(case: Case, usage: &Value<ExtendedKeyUsage>, report: &mut Report) {
    // "407 serverAuth (S) or OCSPSigning (O) present." In profile 4 "407 (serverAuth)".
    let wanted = match case.profile {
        Profile::DomainServer | Profile::OrganizationServer | Profile::SubordinateAuthority => {
            SERVER_AUTHENTICATION
        }
        Profile::Responder => OCSP_SIGNING,
    };
    let is_present = usage
        .value
        .purposes()
        .any(|purpose| purpose.contents() == wanted);
    report.require(407, is_present, usage.octet_string);
    // "408 each other purpose, clientAuth excepted for S."
    if !case.profile.has_rule(408) {
        return;
    }
    for purpose in usage.value.purposes() {
        let is_excepted = case.profile.is_server() && purpose.contents() == CLIENT_AUTHENTICATION;
        report.require(408, purpose.contents() == wanted || is_excepted, purpose);
    }
}

fn rules_409_to_411(case: Case, policies: &Value<CertificatePolicies>, report: &mut Report) {
    let identifiers = &policies.value.identifiers;
    // "409 a policy below 2.16.840.1.101.3.2.1.3 (arc from 003)."
    let has_federal = identifiers
        .iter()
        .any(|policy| is_below_federal_arc(policy));
    report.require(409, has_federal, policies.octet_string);
    // "410 2.23.140.1.2.1 (1) or 2.23.140.1.2.2 (2), from the CA/Browser Forum." In profile 4 "410 (either forum policy)".
    let wanted: &[&[u8]] = match case.profile {
        Profile::DomainServer => &[DOMAIN_VALIDATED],
        Profile::OrganizationServer => &[ORGANIZATION_VALIDATED],
        Profile::SubordinateAuthority => &[DOMAIN_VALIDATED, ORGANIZATION_VALIDATED],
        Profile::Responder => &[],
    };
    if case.profile.has_rule(410) {
        let has_wanted = identifiers.iter().any(|policy| wanted.contains(policy));
        report.require(410, has_wanted, policies.octet_string);
    }
    // "411 each qualifier other than 1.3.6.1.5.5.7.2.1."
    if case.profile.has_rule(411) {
        for qualifier in &policies.value.qualifiers {
            let is_kept = qualifier.identifier == PRACTICE_STATEMENT_QUALIFIER;
            report.require(411, is_kept, qualifier.element);
        }
    }
}

/// "P8 arc `60 86 48 01 65 03 02 01 03` alone is not below; with `0D` it is."
fn is_below_federal_arc(policy: &[u8]) -> bool {
    policy
        .strip_prefix(FEDERAL_POLICY_ARC)
        .is_some_and(|further_arcs| !further_arcs.is_empty())
}

fn rules_412_to_414(case: Case, names: &Value<GeneralNames>, report: &mut Report) {
    for name in names.value.names() {
        let Some(dns_name) = name.dns_name() else {
            // "412 each name not a dNSName."
            if case.profile.has_rule(412) {
                report.add(412, name.element);
            }
            continue;
        };
        // "413 S: each dNSName with an underscore."
        if case.profile.has_rule(413) {
            report.require(413, !dns_name.contains(&b'_'), name.element);
        }
        // "414 each dNSName not of two or more labels …"
        if case.profile.has_rule(414) {
            report.require(414, is_host_name(dns_name), name.element);
        }
    }
}

fn rules_415_to_417(case: Case, access: &Value<AuthorityInformationAccess>, report: &mut Report) {
    let descriptions = &access.value.descriptions;
    let has_uri = |method: &[u8]| {
        descriptions
            .iter()
            .any(|description| description.method == method && description.location.is_uri())
    };
    // "415 S: an OCSP entry with a URI."
    if case.profile.has_rule(415) {
        report.require(415, has_uri(OCSP_ACCESS), access.octet_string);
    }
    // "416 a caIssuers entry with a URI."
    report.require(416, has_uri(CA_ISSUERS_ACCESS), access.octet_string);
    // "417 S: each caIssuers entry not an HTTP URI ("http://" in any case, then something)."
    if case.profile.has_rule(417) {
        require_http(417, CA_ISSUERS_ACCESS, access, report);
    }
}

/// "423 each OCSP entry not an HTTP URI"
fn rule_423(case: Case, access: &Value<AuthorityInformationAccess>, report: &mut Report) {
    if case.profile.has_rule(423) {
        require_http(423, OCSP_ACCESS, access, report);
    }
}

/// The rule is broken by each entry of this method that is "not an HTTP URI ("http://" in any case, then something)".
fn require_http(
    rule: u16,
    method: &[u8],
    access: &Value<AuthorityInformationAccess>,
    report: &mut Report,
) {
    for description in &access.value.descriptions {
        let is_kept = description.method != method || description.location.is_http_uri();
        report.require(rule, is_kept, description.element);
    }
}

fn rules_418_and_419(points: &Value<DistributionPoints>, report: &mut Report) {
    // "418 an HTTP URI in some full name."
    let has_http_uri = points.value.full_names().any(|name| name.is_http_uri());
    report.require(418, has_http_uri, points.octet_string);
    // "419 each point with reasons or cRLIssuer."
    for point in &points.value.points {
        let is_kept = !point.has_reasons && !point.has_crl_issuer;
        report.require(419, is_kept, point.element);
    }
}

/// "424 each URI in a CRL point's full name not HTTP"
fn rule_424(case: Case, points: &Value<DistributionPoints>, report: &mut Report) {
    if case.profile.has_rule(424) {
        for uri in points.value.full_names().filter(GeneralName::is_uri) {
            report.require(424, uri.is_http_uri(), uri.element);
        }
    }
}
