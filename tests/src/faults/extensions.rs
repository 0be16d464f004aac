//! Faults of extensions as such, rules 301 to 363: missing, wrongly critical, of a bad value,
//! repeated, not allowed.

use super::Aspect::*;
use super::Catalogue;
use crate::bad_values::bad_values;
use crate::certificate::Extension as CertificateExtension;
use crate::correct::{plain_value, set_extension, Pair};
use crate::element::{Element, Mark, Part};
use crate::object_identifiers as oid;
use crate::profile::*;
use crate::random::Random;

pub(super) fn add(faults: &mut Catalogue) {
    for slot in SLOTS {
        add_for_slot(faults, slot);
    }
    add_repeats_of_others(faults);
    add_others_at_responders(faults);
    add_others_at_servers(faults);
    add_repeats_at_authorities(faults);
}

fn add_for_slot(faults: &mut Catalogue, slot: u8) {
    let number = u16::from(slot);
    let mandatory = &profiles_where(slot, Standing::is_mandatory);
    let judged = &profiles_where(slot, Standing::is_judged);
    let both = [Extension(slot), Critical(slot)];
    let name = |what: &str| format!("extension {slot} {what}");
    faults.of_slot(slot, &both).add(&name("missing"), &[300 + number], mandatory, |pair, _, slot| {
        pair.certificate.remove_extension(&identifier_of(slot));
        pair.certificate.list_marks.push(Mark::Breaks(300 + u16::from(slot)));
    });
    let mut of_criticality = faults.of_slot(slot, &both[1..]);
    of_criticality.add(&name("wrongly critical"), &[320 + number], judged, |pair, _, slot| {
        ensure(pair, slot);
        let critical = !standing(slot, pair.profile).is_critical();
        let extension = pair.extension(slot);
        extension.critical = critical;
        extension.breaks_at_extension(320 + u16::from(slot));
    });
    let mut of_value = faults.of_slot(slot, &both[..1]);
    of_value.add(&name("of a bad value"), &[340 + number], judged, |pair, random, slot| {
        ensure(pair, slot);
        let mut values = bad_values(slot);
        let chosen = values.swap_remove(random.below(values.len()));
        pair.extension(slot).value = chosen.parts;
        pair.extension(slot).breaks_at_value(340 + u16::from(slot));
    });
    let mut of_both = faults.of_slot(slot, &both);
    of_both.add(&name("repeated"), &[361], judged, |pair, random, slot| push_repeats(pair, slot, 1, random));
    of_both
        .add(&name("four times"), &[361], judged, |pair, random, slot| push_repeats(pair, slot, 3, random));
}

/// Gives the certificate a plain extension of the table if it has none.
fn ensure(pair: &mut Pair, slot: u8) {
    if !pair.certificate.has_extension(&identifier_of(slot)) {
        let value = plain_value(slot, pair.profile);
        set_extension(pair, slot, value);
    }
}

fn push_repeats(pair: &mut Pair, slot: u8, count: usize, random: &mut Random) {
    ensure(pair, slot);
    for _ in 0..count {
        let mut later = pair.extension(slot).clone();
        spoil_repeat(&mut later, random);
        pair.certificate.extensions.push(later.breaking(361));
    }
}

/// Other rules see the first of an identifier only, so a repeat may be wrong in every way.
fn spoil_repeat(extension: &mut CertificateExtension, random: &mut Random) {
    extension.marks.clear();
    extension.value_marks.clear();
    if random.once_in(2) {
        extension.critical = !extension.critical;
    }
    if random.once_in(2) {
        let length = random.below(9);
        extension.value = vec![Part::Octets(random.octets(length))];
    }
}

fn other_extension(identifier: Vec<u8>, critical: bool) -> CertificateExtension {
    CertificateExtension::new(identifier, critical, Element::null())
}

fn add_repeats_of_others(faults: &mut Catalogue) {
    let mut faults = faults.touching(&[OtherExtensions]);
    faults.add("an extension outside the table repeated", &[361], SERVER, |pair, random, _| {
        let identifier = random.choose(&[oid::private_extension, oid::name_constraints])();
        pair.certificate.remove_extension(&identifier);
        pair.certificate.extensions.push(other_extension(identifier.clone(), false));
        let critical = random.once_in(2);
        pair.certificate.extensions.push(other_extension(identifier, critical).breaking(361));
    });
    faults.add("the private key usage period twice", &[361], RESPONDER, |pair, _, _| {
        pair.certificate.remove_extension(&oid::private_key_usage_period());
        pair.certificate.extensions.push(other_extension(oid::private_key_usage_period(), false));
        pair.certificate
            .extensions
            .push(other_extension(oid::private_key_usage_period(), true).breaking(361));
    });
    faults.add("a forbidden extension twice", &[361, 362], RESPONDER, |pair, _, _| {
        pair.certificate.extensions.push(other_extension(oid::private_extension(), true).breaking(362));
        pair.certificate.extensions.push(other_extension(oid::private_extension(), true).breaking(361));
    });
    faults.add("a critical strange extension twice", &[361, 363], SERVER, |pair, _, _| {
        pair.certificate.extensions.push(other_extension(oid::private_extension(), true).breaking(363));
        pair.certificate.extensions.push(other_extension(oid::private_extension(), true).breaking(361));
    });
}

fn add_others_at_responders(faults: &mut Catalogue) {
    let mut faults = faults.touching(&[OtherExtensions]);
    faults.add("basic constraints at a responder", &[362], RESPONDER, |pair, random, _| {
        let mut extension = other_extension(oid::basic_constraints(), random.once_in(2));
        // Of an extension marked "no" neither 322 nor 342 is judged.
        if random.once_in(2) {
            extension.value = vec![Part::Octets(vec![0x30, 0x05])];
        }
        insert_anywhere(pair, extension.breaking(362), random);
    });
    faults.add("name constraints at a responder", &[362], RESPONDER, |pair, random, _| {
        let constraints = free_name_constraints(random.once_in(2), random);
        insert_anywhere(pair, constraints.breaking(362), random);
    });
    faults.add("an extension that is not in the table", &[362], RESPONDER, |pair, random, _| {
        let critical = random.once_in(2);
        insert_anywhere(pair, other_extension(oid::private_extension(), critical).breaking(362), random);
    });
    faults.add("three extensions that are not in the table", &[362], RESPONDER, |pair, random, _| {
        for identifier in [oid::name_constraints(), oid::issuer_alternative_name(), oid::transparency_list()]
        {
            insert_anywhere(pair, other_extension(identifier, false).breaking(362), random);
        }
    });
}

fn add_others_at_servers(faults: &mut Catalogue) {
    let mut faults = faults.touching(&[OtherExtensions]);
    faults.add("a critical extension outside the table", &[363], SERVER, |pair, random, _| {
        insert_anywhere(pair, other_extension(oid::private_extension(), true).breaking(363), random);
    });
    faults.add("critical name constraints at a server", &[363], SERVER, |pair, random, _| {
        pair.certificate.remove_extension(&oid::name_constraints());
        let constraints = free_name_constraints(true, random);
        insert_anywhere(pair, constraints.breaking(363), random);
    });
    faults.add("a critical nocheck at a server", &[363], SERVER, |pair, random, _| {
        pair.certificate.remove_extension(&oid::ocsp_nocheck());
        insert_anywhere(pair, other_extension(oid::ocsp_nocheck(), true).breaking(363), random);
    });
    faults.add("a critical key usage period at a server", &[363], SERVER, |pair, random, _| {
        pair.certificate.remove_extension(&oid::private_key_usage_period());
        insert_anywhere(pair, other_extension(oid::private_key_usage_period(), true).breaking(363), random);
    });
    faults.add("three critical extensions outside the table", &[363], SERVER, |pair, random, _| {
        for identifier in [oid::name_constraints(), oid::issuer_alternative_name(), oid::private_extension()]
        {
            pair.certificate.remove_extension(&identifier);
            insert_anywhere(pair, other_extension(identifier, true).breaking(363), random);
        }
    });
}

/// Name constraints count as not in the table of servers and responders: neither 331 nor 351 is judged there.
fn free_name_constraints(critical: bool, random: &mut Random) -> CertificateExtension {
    let mut constraints = other_extension(oid::name_constraints(), critical);
    let values = [vec![], vec![0x30], plain_value(11, AUTHORITY[0]).octets()];
    constraints.value = vec![Part::Octets(random.choose(&values).clone())];
    constraints
}

/// Where 362 and 363 do not hold, a repeat is all that there is to find.
fn add_repeats_at_authorities(faults: &mut Catalogue) {
    let mut faults = faults.touching(&[OtherExtensions]);
    faults.add("an extension outside the table repeated", &[361], AUTHORITY, |pair, random, _| {
        let identifier = random.choose(&[oid::private_extension, oid::ocsp_nocheck])();
        pair.certificate.remove_extension(&identifier);
        let [first, second] = [(); 2].map(|()| random.once_in(2));
        pair.certificate.extensions.push(other_extension(identifier.clone(), first));
        pair.certificate.extensions.push(other_extension(identifier, second).breaking(361));
    });
}

fn insert_anywhere(pair: &mut Pair, extension: CertificateExtension, random: &mut Random) {
    let position = random.below(pair.certificate.extensions.len() + 1);
    pair.certificate.extensions.insert(position, extension);
}
