//! The linter: refusals in their order, then the report.

use crate::certificate::Certificate;
use crate::der::{Element, OCTET_STRING};
use crate::object_identifiers::SUBJECT_KEY_IDENTIFIER;
use crate::profile::Profile;
use crate::report::OCTETS_AN_ENTRY;
use crate::rules::{self, Issuer};
use crate::soundness::{sound_element, soundness};
use crate::{Answer, Entry, Refusal, Soundness};

/// "certificate has 0 or over 8,192 bytes"
const GREATEST_LENGTH: usize = 8_192;

/// The two sides of a call.
const CERTIFICATE_SIDE: u8 = 1;
const ISSUER_SIDE: u8 = 2;

/// What the linter answers for a certificate, its issuer's certificate and a profile, in a room of so many octets.
pub fn lint(certificate: &[u8], issuer: &[u8], profile: u8, room: usize) -> Answer {
    match findings_or_refusal(certificate, issuer, profile, room) {
        Ok(entries) => Answer::Report(entries),
        Err(refusal) => Answer::Refused(refusal),
    }
}

/// "The first that applies, top to bottom." "4, 5, 6 are tried on the certificate, then on the issuer"
fn findings_or_refusal(
    certificate: &[u8],
    issuer: &[u8],
    profile: u8,
    room: usize,
) -> Result<Vec<Entry>, Refusal> {
    let profile = check_call(certificate, issuer, profile)?;
    let certificate = accept(certificate, CERTIFICATE_SIDE)?;
    let issuer = accept(issuer, ISSUER_SIDE)?;
    let entries = rules::findings(&certificate, &what_counts_of(&issuer), profile);
    check_room(OCTETS_AN_ENTRY * entries.len(), room)?;
    Ok(entries)
}

/// Refusals 1, 2 and 3, which the linter and the writer share.
pub fn check_call(certificate: &[u8], issuer: &[u8], profile: u8) -> Result<Profile, Refusal> {
    if !has_good_length(certificate) {
        return Err(refusal(1, CERTIFICATE_SIDE, 0));
    }
    if !has_good_length(issuer) {
        return Err(refusal(2, ISSUER_SIDE, 0));
    }
    Profile::numbered(profile).ok_or(refusal(3, 0, 0))
}

fn has_good_length(octets: &[u8]) -> bool {
    (1..=GREATEST_LENGTH).contains(&octets.len())
}

/// Refusal 7: "Room is short when" the octets of the findings (linter), "or 512 a block (writer), exceed the lent length."
/// "7 compares 8 octets a finding with the lent length."
pub fn check_room(needed: usize, room: usize) -> Result<(), Refusal> {
    if needed > room {
        Err(refusal(7, 0, 0))
    } else {
        Ok(())
    }
}

/// Refusals 4, 5 and 6, on one side.
fn accept(octets: &[u8], side: u8) -> Result<Certificate<'_>, Refusal> {
    match soundness(octets) {
        Soundness::Unsound(place) => return Err(refusal(4, side, place)),
        Soundness::Unordered(place) => return Err(refusal(5, side, place)),
        Soundness::Sound => (),
    }
    let outermost = Element::at_front_of(octets, 0).ok_or(refusal(4, side, 0))?;
    Certificate::read(outermost).map_err(|misfit| refusal(6, side, misfit.place))
}

pub fn refusal(number: u8, side: u8, place: usize) -> Refusal {
    Refusal {
        number,
        side,
        place,
    }
}

/// "The issuer counts only by its subject name and its key identifier"
fn what_counts_of<'a>(issuer: &Certificate<'a>) -> Issuer<'a> {
    Issuer {
        subject: issuer.subject.whole(),
        key_identifier: key_identifier_of(issuer),
    }
}

/// The contents of the issuer's subject key id; None "if the issuer has none, or a bad one".
/// Of repeated ones the first counts, good or bad.
fn key_identifier_of<'a>(issuer: &Certificate<'a>) -> Option<&'a [u8]> {
    let first = issuer
        .extensions()
        .iter()
        .find(|extension| extension.identifier == SUBJECT_KEY_IDENTIFIER)?;
    let value = sound_element(first.value.contents(), first.value.contents_start())?;
    (value.identifier() == OCTET_STRING).then(|| value.contents())
}
