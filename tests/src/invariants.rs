//! What must hold of every answer, whatever the input: for mutated and outside certificates, of
//! which nothing more is known.

use reference::{lint, report_octets, Answer, Entry, Refusal};

use crate::entries::{octets_of, ENTRY};
use crate::holding::AMPLE_ROOM;
use crate::profile::{existing_rules, level_of};
use crate::records::refused;

/// The answer of the reference, after it was held to everything that is true of all answers.
pub fn answer_held_to_invariants(certificate: &[u8], issuer: &[u8], profile: u8) -> Result<Answer, String> {
    let answer = lint(certificate, issuer, profile, AMPLE_ROOM);
    match &answer {
        Answer::Refused(refusal) if refusal.number == 7 => return Err("there was room".to_string()),
        Answer::Refused(refusal) => hold_place(refusal, certificate, issuer)?,
        Answer::Report(entries) => {
            hold_report(entries, certificate, profile)?;
            hold_octets(entries)?;
            hold_rooms(entries, certificate, issuer, profile)?;
        }
    }
    Ok(answer)
}

/// "A refusal's place is a start within its side."
pub fn hold_place(refusal: &Refusal, certificate: &[u8], issuer: &[u8]) -> Result<(), String> {
    let (side, length) = match refusal.side {
        1 => ("certificate", certificate.len()),
        2 => ("issuer", issuer.len()),
        _ => return Err(format!("{refusal:?} is on no side")),
    };
    // An element needs an octet at least, except where there is none at all.
    if refusal.place < length || refusal.place == 0 {
        Ok(())
    } else {
        Err(format!("{refusal:?} is past the end of the {side}"))
    }
}

/// Entries rise, are of rules that the profile has and have their rule's level, and lie in the certificate.
pub fn hold_report(entries: &[Entry], certificate: &[u8], profile: u8) -> Result<(), String> {
    for pair in entries.windows(2) {
        if (pair[0].rule, pair[0].start) >= (pair[1].rule, pair[1].start) {
            return Err(format!("{:?} does not come before {:?}", pair[0], pair[1]));
        }
    }
    for entry in entries {
        if !existing_rules(profile).contains(&entry.rule) {
            return Err(format!("{entry:?} is of no rule of profile {profile}"));
        }
        if entry.level != level_of(entry.rule) {
            return Err(format!("{entry:?} has not the level of its rule"));
        }
        if usize::from(entry.start) + usize::from(entry.length) > certificate.len() || entry.length < 2 {
            return Err(format!("{entry:?} is no element of the certificate"));
        }
    }
    Ok(())
}

/// The octets that the reference writes are those of the papers.
pub fn hold_octets(entries: &[Entry]) -> Result<(), String> {
    let (due, written) = (octets_of(entries), report_octets(entries));
    if due == written {
        Ok(())
    } else {
        Err(format!("{due:?} are the octets of the report, and not {written:?}"))
    }
}

/// The same answer in just enough room, and refusal 7 in one octet less.
fn hold_rooms(entries: &[Entry], certificate: &[u8], issuer: &[u8], profile: u8) -> Result<(), String> {
    let needed = ENTRY * entries.len();
    if lint(certificate, issuer, profile, needed) != Answer::Report(entries.to_vec()) {
        return Err("another answer in just enough room".to_string());
    }
    if needed > 0 && lint(certificate, issuer, profile, needed - 1) != refused(7, 0, 0) {
        return Err("no refusal 7 in an octet less than enough".to_string());
    }
    Ok(())
}
