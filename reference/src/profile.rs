//! The four profiles, which rules they have, and the table of extensions.

use self::Standing::{Mandatory, MandatoryCritical, No, NotInTable, Optional, Other};
use crate::object_identifiers as identifiers;

#[derive(Clone, Copy, Debug, PartialEq, Eq)]
pub enum Profile {
    /// "1 server, domain validation"
    DomainServer,
    /// "2 server, organization validation"
    OrganizationServer,
    /// "3 delegated OCSP responder"
    Responder,
    /// "Subordinate CA certificates": "source document 001 as profile 4"
    SubordinateAuthority,
}

impl Profile {
    pub fn numbered(number: u8) -> Option<Profile> {
        match number {
            1 => Some(Profile::DomainServer),
            2 => Some(Profile::OrganizationServer),
            3 => Some(Profile::Responder),
            4 => Some(Profile::SubordinateAuthority),
            _ => None,
        }
    }

    /// "S is profiles 1 and 2, O is 3."
    pub fn is_server(self) -> bool {
        matches!(self, Profile::DomainServer | Profile::OrganizationServer)
    }

    /// Whether a rule holds in this profile. Document 01 says of each rule whether it holds for S, O or a single profile;
    /// of profile 4 the request names every rule that holds, old and new. The table decides on 301 to 351.
    #[inline]
    pub fn has_rule(self, rule: u16) -> bool {
        match rule {
            104 | 121 | 207 | 362 => self == Profile::Responder,
            116 | 117 => self != Profile::DomainServer,
            118 | 119 => self == Profile::OrganizationServer,
            120 | 203 | 363 | 402 => self.is_server(),
            410 | 413 | 415 | 417 => self != Profile::Responder,
            202 | 205 | 206 | 404 | 405 | 408 | 411 | 412 | 414 => {
                self != Profile::SubordinateAuthority
            }
            122 | 208 | 421..=424 => self == Profile::SubordinateAuthority,
            _ => true,
        }
    }
}

/// What a profile makes of an extension.
#[derive(Clone, Copy, Debug, PartialEq, Eq)]
pub enum Standing {
    /// "M"
    Mandatory,
    /// "M, crit"
    MandatoryCritical,
    /// "opt"
    Optional,
    /// "no"
    No,
    /// "other"
    Other,
    /// "not in the table": "For S and O, 11 counts as not in the table."
    NotInTable,
}

/// The table's rows are numbered from 1.
pub const ROWS: usize = 11;

/// A row of the table of extensions.
pub struct Row {
    /// The contents of the OBJECT IDENTIFIER.
    identifier: &'static [u8],
    server: Standing,
    responder: Standing,
    subordinate_authority: Standing,
}

/// | s | Extension | S | O | and of profile 4: "Extensions 1 to 6, 8, 9 and slot 11, name constraints 2.5.29.30, are mandatory,
/// 7 optional, 10 "other"; 2, 4 and 11 are critical."
#[rustfmt::skip]
const TABLE: [Row; ROWS] = [
    /*  1 */ row(identifiers::AUTHORITY_KEY_IDENTIFIER,     Mandatory,         Mandatory,         Mandatory),
    /*  2 */ row(identifiers::BASIC_CONSTRAINTS,            MandatoryCritical, No,                MandatoryCritical),
    /*  3 */ row(identifiers::SUBJECT_KEY_IDENTIFIER,       Mandatory,         Mandatory,         Mandatory),
    /*  4 */ row(identifiers::KEY_USAGE,                    MandatoryCritical, MandatoryCritical, MandatoryCritical),
    /*  5 */ row(identifiers::EXTENDED_KEY_USAGE,           Mandatory,         MandatoryCritical, Mandatory),
    /*  6 */ row(identifiers::CERTIFICATE_POLICIES,         Mandatory,         Mandatory,         Mandatory),
    /*  7 */ row(identifiers::SUBJECT_ALTERNATIVE_NAME,     Mandatory,         Optional,          Optional),
    /*  8 */ row(identifiers::AUTHORITY_INFORMATION_ACCESS, Mandatory,         Mandatory,         Mandatory),
    /*  9 */ row(identifiers::CRL_DISTRIBUTION_POINTS,      Optional,          Optional,          Mandatory),
    /* 10 */ row(identifiers::OCSP_NOCHECK,                 Other,             Mandatory,         Other),
    /* 11 */ row(identifiers::NAME_CONSTRAINTS,             NotInTable,        NotInTable,        MandatoryCritical),
];

const fn row(
    identifier: &'static [u8],
    server: Standing,
    responder: Standing,
    subordinate_authority: Standing,
) -> Row {
    Row {
        identifier,
        server,
        responder,
        subordinate_authority,
    }
}

/// The table's rows for one profile: the number s of each, and its standing.
pub fn standings(profile: Profile) -> impl Iterator<Item = (usize, Standing)> {
    (1..).zip(TABLE.iter().map(move |row| row.standing(profile)))
}

/// The number s of the row with this identifier, and its standing; None if there is no such row.
pub fn look_up(identifier: &[u8], profile: Profile) -> Option<(usize, Standing)> {
    let index = TABLE.iter().position(|row| row.identifier == identifier)?;
    Some((index + 1, TABLE.get(index)?.standing(profile)))
}

impl Row {
    fn standing(&self, profile: Profile) -> Standing {
        match profile {
            Profile::DomainServer | Profile::OrganizationServer => self.server,
            Profile::Responder => self.responder,
            Profile::SubordinateAuthority => self.subordinate_authority,
        }
    }
}
