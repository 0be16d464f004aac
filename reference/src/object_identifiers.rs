//! The contents of the OBJECT IDENTIFIERs that the rules name.

// Attributes of names.
/// 2.5.4.3
pub const COMMON_NAME: &[u8] = &[0x55, 0x04, 0x03];
/// 2.5.4.6
pub const COUNTRY: &[u8] = &[0x55, 0x04, 0x06];
/// 2.5.4.8
pub const STATE_OR_PROVINCE: &[u8] = &[0x55, 0x04, 0x08];
/// 2.5.4.10
pub const ORGANIZATION: &[u8] = &[0x55, 0x04, 0x0A];
/// 2.5.4.11
pub const ORGANIZATIONAL_UNIT: &[u8] = &[0x55, 0x04, 0x0B];

// Algorithms and curves.
/// 1.2.840.113549.1.1.1
pub const RSA_ENCRYPTION: &[u8] = &[0x2A, 0x86, 0x48, 0x86, 0xF7, 0x0D, 0x01, 0x01, 0x01];
/// 1.2.840.113549.1.1.11
pub const SHA256_WITH_RSA_ENCRYPTION: &[u8] =
    &[0x2A, 0x86, 0x48, 0x86, 0xF7, 0x0D, 0x01, 0x01, 0x0B];
/// 1.2.840.10045.2.1
pub const EC_PUBLIC_KEY: &[u8] = &[0x2A, 0x86, 0x48, 0xCE, 0x3D, 0x02, 0x01];
/// 1.2.840.10045.3.1.7
pub const CURVE_P256: &[u8] = &[0x2A, 0x86, 0x48, 0xCE, 0x3D, 0x03, 0x01, 0x07];
/// 1.3.132.0.34
pub const CURVE_P384: &[u8] = &[0x2B, 0x81, 0x04, 0x00, 0x22];
/// 1.3.132.0.35
pub const CURVE_P521: &[u8] = &[0x2B, 0x81, 0x04, 0x00, 0x23];

// Extensions.
/// 2.5.29.35
pub const AUTHORITY_KEY_IDENTIFIER: &[u8] = &[0x55, 0x1D, 0x23];
/// 2.5.29.19
pub const BASIC_CONSTRAINTS: &[u8] = &[0x55, 0x1D, 0x13];
/// 2.5.29.14
pub const SUBJECT_KEY_IDENTIFIER: &[u8] = &[0x55, 0x1D, 0x0E];
/// 2.5.29.15
pub const KEY_USAGE: &[u8] = &[0x55, 0x1D, 0x0F];
/// 2.5.29.37
pub const EXTENDED_KEY_USAGE: &[u8] = &[0x55, 0x1D, 0x25];
/// 2.5.29.32
pub const CERTIFICATE_POLICIES: &[u8] = &[0x55, 0x1D, 0x20];
/// 2.5.29.17
pub const SUBJECT_ALTERNATIVE_NAME: &[u8] = &[0x55, 0x1D, 0x11];
/// 1.3.6.1.5.5.7.1.1
pub const AUTHORITY_INFORMATION_ACCESS: &[u8] = &[0x2B, 0x06, 0x01, 0x05, 0x05, 0x07, 0x01, 0x01];
/// 2.5.29.31
pub const CRL_DISTRIBUTION_POINTS: &[u8] = &[0x55, 0x1D, 0x1F];
/// 1.3.6.1.5.5.7.48.1.5
pub const OCSP_NOCHECK: &[u8] = &[0x2B, 0x06, 0x01, 0x05, 0x05, 0x07, 0x30, 0x01, 0x05];
/// 2.5.29.30
pub const NAME_CONSTRAINTS: &[u8] = &[0x55, 0x1D, 0x1E];
/// 2.5.29.16
pub const PRIVATE_KEY_USAGE_PERIOD: &[u8] = &[0x55, 0x1D, 0x10];

// Purposes of a key.
/// 1.3.6.1.5.5.7.3.1
pub const SERVER_AUTHENTICATION: &[u8] = &[0x2B, 0x06, 0x01, 0x05, 0x05, 0x07, 0x03, 0x01];
/// 1.3.6.1.5.5.7.3.2
pub const CLIENT_AUTHENTICATION: &[u8] = &[0x2B, 0x06, 0x01, 0x05, 0x05, 0x07, 0x03, 0x02];
/// 1.3.6.1.5.5.7.3.9
pub const OCSP_SIGNING: &[u8] = &[0x2B, 0x06, 0x01, 0x05, 0x05, 0x07, 0x03, 0x09];

// Policies and their qualifiers.
/// 2.16.840.1.101.3.2.1.3
pub const FEDERAL_POLICY_ARC: &[u8] = &[0x60, 0x86, 0x48, 0x01, 0x65, 0x03, 0x02, 0x01, 0x03];
/// 2.23.140.1.2.1
pub const DOMAIN_VALIDATED: &[u8] = &[0x67, 0x81, 0x0C, 0x01, 0x02, 0x01];
/// 2.23.140.1.2.2
pub const ORGANIZATION_VALIDATED: &[u8] = &[0x67, 0x81, 0x0C, 0x01, 0x02, 0x02];
/// 1.3.6.1.5.5.7.2.1
pub const PRACTICE_STATEMENT_QUALIFIER: &[u8] = &[0x2B, 0x06, 0x01, 0x05, 0x05, 0x07, 0x02, 0x01];

// Access methods.
/// 1.3.6.1.5.5.7.48.1
pub const OCSP_ACCESS: &[u8] = &[0x2B, 0x06, 0x01, 0x05, 0x05, 0x07, 0x30, 0x01];
/// 1.3.6.1.5.5.7.48.2
pub const CA_ISSUERS_ACCESS: &[u8] = &[0x2B, 0x06, 0x01, 0x05, 0x05, 0x07, 0x30, 0x02];

#[cfg(test)]
mod tests {
    use super::*;

    /// The contents for arcs written with dots (X.690, 8.19).
    fn encoded(dotted: &str) -> Vec<u8> {
        let arcs: Vec<u32> = dotted.split('.').map(|arc| arc.parse().unwrap()).collect();
        let mut contents = Vec::new();
        push_arc(&mut contents, 40 * arcs[0] + arcs[1]);
        for &arc in &arcs[2..] {
            push_arc(&mut contents, arc);
        }
        contents
    }

    fn push_arc(contents: &mut Vec<u8>, arc: u32) {
        let groups = (1..5).rev().filter(|group| arc >> (7 * group) != 0);
        contents.extend(groups.map(|group| 0x80 | (arc >> (7 * group)) as u8));
        contents.push(arc as u8 & 0x7F);
    }

    #[test]
    fn contents_are_the_encodings() {
        let named = [
            (COMMON_NAME, "2.5.4.3"),
            (COUNTRY, "2.5.4.6"),
            (STATE_OR_PROVINCE, "2.5.4.8"),
            (ORGANIZATION, "2.5.4.10"),
            (ORGANIZATIONAL_UNIT, "2.5.4.11"),
            (RSA_ENCRYPTION, "1.2.840.113549.1.1.1"),
            (SHA256_WITH_RSA_ENCRYPTION, "1.2.840.113549.1.1.11"),
            (EC_PUBLIC_KEY, "1.2.840.10045.2.1"),
            (CURVE_P256, "1.2.840.10045.3.1.7"),
            (CURVE_P384, "1.3.132.0.34"),
            (CURVE_P521, "1.3.132.0.35"),
            (AUTHORITY_KEY_IDENTIFIER, "2.5.29.35"),
            (BASIC_CONSTRAINTS, "2.5.29.19"),
            (SUBJECT_KEY_IDENTIFIER, "2.5.29.14"),
            (KEY_USAGE, "2.5.29.15"),
            (EXTENDED_KEY_USAGE, "2.5.29.37"),
            (CERTIFICATE_POLICIES, "2.5.29.32"),
            (SUBJECT_ALTERNATIVE_NAME, "2.5.29.17"),
            (AUTHORITY_INFORMATION_ACCESS, "1.3.6.1.5.5.7.1.1"),
            (CRL_DISTRIBUTION_POINTS, "2.5.29.31"),
            (OCSP_NOCHECK, "1.3.6.1.5.5.7.48.1.5"),
            (NAME_CONSTRAINTS, "2.5.29.30"),
            (PRIVATE_KEY_USAGE_PERIOD, "2.5.29.16"),
            (SERVER_AUTHENTICATION, "1.3.6.1.5.5.7.3.1"),
            (CLIENT_AUTHENTICATION, "1.3.6.1.5.5.7.3.2"),
            (OCSP_SIGNING, "1.3.6.1.5.5.7.3.9"),
            (FEDERAL_POLICY_ARC, "2.16.840.1.101.3.2.1.3"),
            (DOMAIN_VALIDATED, "2.23.140.1.2.1"),
            (ORGANIZATION_VALIDATED, "2.23.140.1.2.2"),
            (PRACTICE_STATEMENT_QUALIFIER, "1.3.6.1.5.5.7.2.1"),
            (OCSP_ACCESS, "1.3.6.1.5.5.7.48.1"),
            (CA_ISSUERS_ACCESS, "1.3.6.1.5.5.7.48.2"),
        ];
        for (contents, dotted) in named {
            assert_eq!(contents, encoded(dotted), "{dotted}");
        }
    }
}
