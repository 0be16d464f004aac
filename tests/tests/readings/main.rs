//! The points that documents 01 and 02 leave open, as the design decides them: one test for each reading. Those of the
//! deck are in `deck_readings`.

mod authority_extensions;
mod authority_fields;
mod authority_values;
mod issuer;
mod places;
mod refusals;
mod rules;
mod validity;
mod values;

use comparison::bad_values::nested_other_name;
use comparison::calendar::Moment;
use comparison::certificate::{algorithm, node, version, Attribute, Extension, Name, RelativeName};
use comparison::correct::*;
use comparison::element::{tag, Element, Mark, Part};
use comparison::faults::values::{long_host, NOT_HTTP};
use comparison::general_names::*;
use comparison::hex;
use comparison::keys::*;
use comparison::linters::{hold_at_once, Linters};
use comparison::malformed::nested;
use comparison::object_identifiers as oid;
use comparison::profile::*;
use comparison::random::Random;
use comparison::records::refused;
use reference::{soundness, Answer, Soundness};

/// Holds both linters to the refusal marked in a tree, on both sides and in all profiles.
fn hold_refusal(what: &str, change: impl Fn(&mut Element)) {
    let mut linters = Linters::of(what);
    for profile in ALL {
        let good = plain(*profile);
        let case = good.encode();
        for (side, certificate) in [(1, &good.certificate), (2, &good.issuer)] {
            let mut tree = certificate.element();
            change(&mut tree);
            let encoded = tree.encode();
            let expected = Answer::Refused(refusal(&encoded, side));
            let octets = encoded.octets;
            let changed = match side {
                1 => Case { certificate: octets, expected, ..case.clone() },
                _ => Case { issuer: octets, expected, ..case.clone() },
            };
            linters.hold(what, &changed);
        }
    }
    linters.settle();
}

fn refuse(element: &mut Element, number: u8) {
    element.marks.push(Mark::Refused(number));
}

/// Holds both linters to the marks of the plain pair after a change, in each of these profiles.
fn in_every(profiles: &[u8], what: &str, change: impl Fn(&mut Pair)) {
    let mut linters = Linters::of(what);
    hold_in_every(&mut linters, profiles, what, change);
    linters.settle();
}

/// The same among other changes, so that one run of the program answers them all.
fn hold_in_every(linters: &mut Linters, profiles: &[u8], what: &str, change: impl Fn(&mut Pair)) {
    for profile in profiles {
        let mut pair = plain(*profile);
        change(&mut pair);
        linters.hold(what, &pair.encode());
    }
}
