//! The four profiles: which rules exist in each and how strongly they are meant, how each extension stands, and how long
//! a certificate may be valid.

use reference::Level;

use crate::calendar::{Moment, DAY};
use crate::element::Element;
use crate::object_identifiers as oid;
use crate::random::Random;

pub const ALL: &[u8] = &[1, 2, 3, 4];
/// Profiles 1 and 2, which the paper calls S.
pub const SERVER: &[u8] = &[1, 2];
/// Profile 3, which the paper calls O.
pub const RESPONDER: &[u8] = &[3];
/// Profile 4, subordinate CAs.
pub const AUTHORITY: &[u8] = &[4];
pub const DOMAIN: &[u8] = &[1];
pub const ORGANIZATION: &[u8] = &[2];
/// Profiles whose subject names an organization.
pub const WITH_ORGANIZATION: &[u8] = &[2, 3, 4];
/// The profiles of document 01, whose certificates issue no others.
pub const END_ENTITY: &[u8] = &[1, 2, 3];
/// Profiles for servers and for those that issue to servers.
pub const SERVER_AND_AUTHORITY: &[u8] = &[1, 2, 4];
/// Profiles that take no other key than RSA.
pub const WITH_RSA_ONLY: &[u8] = &[3, 4];

pub fn is_server(profile: u8) -> bool {
    SERVER.contains(&profile)
}

pub fn is_responder(profile: u8) -> bool {
    RESPONDER.contains(&profile)
}

pub fn is_authority(profile: u8) -> bool {
    AUTHORITY.contains(&profile)
}

/// How an extension stands in a profile, in the words of the paper's table.
#[derive(Clone, Copy, Debug, PartialEq, Eq)]
pub enum Standing {
    Mandatory,
    MandatoryCritical,
    Optional,
    No,
    Other,
    /// As if the table had no such row.
    NotInTable,
}

impl Standing {
    pub fn is_mandatory(self) -> bool {
        matches!(self, Standing::Mandatory | Standing::MandatoryCritical)
    }

    pub fn is_critical(self) -> bool {
        self == Standing::MandatoryCritical
    }

    /// Whether the rules 320+s and 340+s speak of the extension.
    pub fn is_judged(self) -> bool {
        !matches!(self, Standing::No | Standing::Other | Standing::NotInTable)
    }
}

pub const SLOTS: std::ops::RangeInclusive<u8> = 1..=11;

pub fn any_slot(random: &mut Random) -> u8 {
    random.between(usize::from(*SLOTS.start()), usize::from(*SLOTS.end())) as u8
}

pub fn standing(slot: u8, profile: u8) -> Standing {
    use Standing::*;
    let (server, responder, authority) = match slot {
        1 => (Mandatory, Mandatory, Mandatory),
        2 => (MandatoryCritical, No, MandatoryCritical),
        3 => (Mandatory, Mandatory, Mandatory),
        4 => (MandatoryCritical, MandatoryCritical, MandatoryCritical),
        5 => (Mandatory, MandatoryCritical, Mandatory),
        6 => (Mandatory, Mandatory, Mandatory),
        7 => (Mandatory, Optional, Optional),
        8 => (Mandatory, Mandatory, Mandatory),
        9 => (Optional, Optional, Mandatory),
        10 => (Other, Mandatory, Other),
        11 => (NotInTable, NotInTable, MandatoryCritical),
        _ => panic!("the table has no row {slot}"),
    };
    match profile {
        1 | 2 => server,
        3 => responder,
        4 => authority,
        _ => panic!("there is no profile {profile}"),
    }
}

/// The profiles in which an extension stands in a certain way.
pub fn profiles_where(slot: u8, holds: fn(Standing) -> bool) -> Vec<u8> {
    ALL.iter().copied().filter(|profile| holds(standing(slot, *profile))).collect()
}

/// A profile in which the values of an extension are judged.
pub fn judging_profile(slot: u8) -> u8 {
    *profiles_where(slot, Standing::is_judged)
        .first()
        .expect("every extension of the table is judged somewhere")
}

pub fn identifier_of(slot: u8) -> Vec<u8> {
    match slot {
        1 => oid::authority_key_identifier(),
        2 => oid::basic_constraints(),
        3 => oid::subject_key_identifier(),
        4 => oid::key_usage(),
        5 => oid::extended_key_usage(),
        6 => oid::certificate_policies(),
        7 => oid::subject_alternative_name(),
        8 => oid::authority_information_access(),
        9 => oid::crl_distribution_points(),
        10 => oid::ocsp_nocheck(),
        11 => oid::name_constraints(),
        _ => panic!("the table has no row {slot}"),
    }
}

/// Every rule that a certificate of this profile can break, as the papers list them.
pub fn existing_rules(profile: u8) -> Vec<u16> {
    let mut rules = rules_on_fields(profile);
    for slot in SLOTS {
        let number = u16::from(slot);
        let standing = standing(slot, profile);
        if standing.is_mandatory() {
            rules.push(300 + number);
        }
        if standing.is_judged() {
            rules.push(320 + number);
            rules.push(340 + number);
        }
    }
    rules.extend(rules_on_values(profile));
    rules.sort_unstable();
    rules
}

/// The rules that a certificate should keep; it must keep all others. "all rules so far are 1", which is must.
pub const SHOULD: &[u16] = &[];

/// The level of each entry of a rule, in every profile.
pub fn level_of(rule: u16) -> Level {
    if SHOULD.contains(&rule) {
        Level::Should
    } else {
        Level::Must
    }
}

pub fn has_rule(profile: u8, rule: u16) -> bool {
    existing_rules(profile).contains(&rule)
}

/// The element, marked with a rule where the profile has it.
pub fn breaking_in(profile: u8, rule: u16, element: Element) -> Element {
    if has_rule(profile, rule) {
        element.breaking(rule)
    } else {
        element
    }
}

/// The last second that a validity from a moment on may have. RFC 5280 counts both ends, so the second that begins when
/// 395 or 45 days are over is one too many, and so is the tenth anniversary. It may lie past all that can be written.
pub fn last_permitted_second(profile: u8, not_before: Moment) -> Moment {
    let one_too_many = match profile {
        1 | 2 => not_before.later(395 * DAY),
        3 => not_before.later(45 * DAY),
        4 => not_before.anniversary(10),
        _ => panic!("there is no profile {profile}"),
    };
    one_too_many.later(-1)
}

fn rules_on_fields(profile: u8) -> Vec<u16> {
    let mut rules = vec![101, 102, 103, 105, 106, 107, 108, 109, 110, 111, 112, 113, 114, 115, 201, 204];
    rules.extend(match profile {
        1 => &[120, 202, 203, 205, 206][..],
        2 => &[116, 117, 118, 119, 120, 202, 203, 205, 206],
        3 => &[104, 116, 117, 121, 202, 205, 206, 207],
        4 => &[116, 117, 122, 208],
        _ => panic!("there is no profile {profile}"),
    });
    rules
}

fn rules_on_values(profile: u8) -> Vec<u16> {
    let mut rules = vec![361, 401, 403, 407, 409, 416, 418, 419];
    rules.extend(match profile {
        1 | 2 => &[363, 402, 404, 405, 408, 410, 411, 412, 413, 414, 415, 417][..],
        3 => &[362, 404, 405, 408, 411, 412, 414],
        4 => &[410, 413, 415, 417, 421, 422, 423, 424],
        _ => panic!("there is no profile {profile}"),
    });
    rules
}

#[cfg(test)]
mod tests {
    use super::*;

    #[test]
    fn the_last_second_of_a_validity_is_the_one_before_the_limit_is_over() {
        let last = |profile: u8| last_permitted_second(profile, Moment::at(2024, 2, 29).later(1));
        assert_eq!([1, 2].map(last), [Moment::at(2025, 3, 30); 2]);
        assert_eq!(last(3), Moment::at(2024, 4, 14));
        assert_eq!(last(4), Moment::at(2034, 2, 28));
    }
}
