//! The values of the table's extensions, each of its RFC 5280 ASN.1: what does not fit breaks rule 340+s.
//!
//! "340+s value is not exactly one sound element of its RFC ASN.1, comments aside (at the OCTET STRING; depth afresh):
//! implicit tags judged as their type, SETs in order, named bit lists are empty or end in a set bit, defaults
//! unwritten, minimum sizes and ranges kept; characters, x400Address, ediPartyName and ANY values free, any OID a
//! policyQualifierId."

mod access;
mod general_names;
mod key_values;
mod name_constraints;
mod points;
mod policies;

pub use access::{AccessDescription, AuthorityInformationAccess};
pub use general_names::{GeneralName, GeneralNames};
pub use key_values::{
    AuthorityKeyIdentifier, BasicConstraints, ExtendedKeyUsage, KeyUsage, NoCheck,
    SubjectKeyIdentifier,
};
pub use name_constraints::NameConstraints;
pub use points::{DistributionPoint, DistributionPoints};
pub use policies::{CertificatePolicies, PolicyQualifier};

use crate::der::Element;
use crate::soundness::{is_bit_string, sound_element};
use crate::structure::Misfit;

/// A value that keeps rule 340+s, and the OCTET STRING it stands in.
#[derive(Debug)]
pub struct Value<'a, Type> {
    pub octet_string: Element<'a>,
    pub value: Type,
}

/// The value in an OCTET STRING; None if it breaks rule 340+s.
pub fn read_value<'a, Type>(
    octet_string: Element<'a>,
    read: impl Fn(Element<'a>) -> Result<Type, Misfit>,
) -> Option<Value<'a, Type>> {
    let element = sound_element(octet_string.contents(), octet_string.contents_start())?;
    let value = read(element).ok()?;
    Some(Value {
        octet_string,
        value,
    })
}

/// "named bit lists are empty or end in a set bit"
fn is_named_bit_list(contents: &[u8]) -> bool {
    is_bit_string(contents)
        && match contents {
            [unused, .., last] => last.trailing_zeros() == u32::from(*unused),
            _ => true,
        }
}

#[cfg(test)]
mod tests {
    use super::is_named_bit_list;

    #[test]
    fn named_bit_lists() {
        assert!(is_named_bit_list(&[0]));
        assert!(is_named_bit_list(&[5, 0xA0]));
        assert!(is_named_bit_list(&[7, 0x80]));
        assert!(is_named_bit_list(&[7, 0x00, 0x80]));
        assert!(is_named_bit_list(&[0, 0x01]));
        assert!(!is_named_bit_list(&[0, 0x80]));
        assert!(!is_named_bit_list(&[7, 0x00]));
        assert!(!is_named_bit_list(&[0, 0x00]));
        assert!(!is_named_bit_list(&[7, 0x80, 0x00]));
        assert!(!is_named_bit_list(&[]));
    }
}
