//! Every rule in every profile: the reference answers as the paper and the encoder say.

use std::collections::BTreeMap;

use comparison::amount::cases;
use comparison::bad_values::{bad_values, edge_values, nested_other_name};
use comparison::correct::{correct, plain, plain_value, set_extension};
use comparison::element::Element;
use comparison::faults::key::every_bad_rsa_bits;
use comparison::faults::values::malformed_hosts;
use comparison::faults::{catalogue, mix, why_never_alone};
use comparison::general_names::{dns, named_bits};
use comparison::holding::rules_of;
use comparison::linters::Linters;
use comparison::profile::{breaking_in, existing_rules, has_rule, is_server, standing, ALL, SLOTS};
use comparison::random::Random;

#[test]
fn correct_certificates_have_no_finding() {
    let mut linters = Linters::of("correct certificates");
    let mut random = Random::for_purpose("correct certificates");
    for profile in ALL {
        linters.hold("the plain certificate", &plain(*profile).encode());
        for _ in 0..cases(4000) / ALL.len() {
            linters.hold("a correct certificate", &correct(*profile, &mut random).encode());
        }
    }
    linters.finish();
}

/// How often a rule was reached in a profile, and how often it was the only finding.
#[derive(Default)]
struct Reached {
    together: usize,
    alone: usize,
}

#[test]
fn every_rule_is_reached_in_every_profile_that_has_it() {
    let mut linters = Linters::of("certificates with a single fault");
    let mut random = Random::for_purpose("single faults");
    let faults = catalogue();
    let mut reached: BTreeMap<(u16, u8), Reached> = BTreeMap::new();
    let rounds = cases(32_000).div_ceil(ALL.len() * faults.len());
    for profile in ALL {
        for fault in faults.iter().filter(|fault| fault.exists_in(*profile)) {
            for _ in 0..rounds {
                let mut pair = correct(*profile, &mut random);
                fault.apply(&mut pair, &mut random);
                let case = pair.encode();
                let rules = rules_of(&case.expected);
                assert_eq!(
                    distinct(&rules),
                    sorted(&fault.rules),
                    "the fault {:?} breaks what it says",
                    fault.name
                );
                linters.hold(&fault.name, &case);
                for rule in distinct(&rules) {
                    let entry = reached.entry((rule, *profile)).or_default();
                    entry.together += 1;
                    entry.alone += usize::from(rules.len() == 1);
                }
            }
        }
    }
    linters.finish();
    print_and_hold_the_table(&reached);
}

fn distinct(rules: &[u16]) -> Vec<u16> {
    let mut rules = rules.to_vec();
    rules.dedup();
    rules
}

fn sorted(rules: &[u16]) -> Vec<u16> {
    let mut rules = rules.to_vec();
    rules.sort_unstable();
    rules
}

/// Prints for each rule and profile how many certificates broke it, and how many of them broke
/// nothing else.
fn print_and_hold_the_table(reached: &BTreeMap<(u16, u8), Reached>) {
    let mut missing = Vec::new();
    let mut pairs = 0;
    println!("certificates that broke a rule, and of these the ones that broke nothing else");
    let heads = ALL.iter().map(|profile| format!("  profile {profile}       "));
    println!("rule {}", heads.collect::<String>());
    let mut all: Vec<u16> = ALL.iter().flat_map(|profile| existing_rules(*profile)).collect();
    all.sort_unstable();
    all.dedup();
    for rule in all {
        let mut line = format!("{rule:<5}");
        for profile in ALL {
            if !existing_rules(*profile).contains(&rule) {
                line += "  -               ";
                assert!(!reached.contains_key(&(rule, *profile)), "{rule} is no rule of profile {profile}");
                continue;
            }
            pairs += 1;
            let none = Reached::default();
            let count = reached.get(&(rule, *profile)).unwrap_or(&none);
            line += &format!("  {:>6}, {:>6}  ", count.together, count.alone);
            let never_alone = why_never_alone(*profile, rule);
            if count.together == 0 || (count.alone == 0 && never_alone.is_none()) {
                missing.push((rule, *profile));
            }
            assert!(count.alone == 0 || never_alone.is_none(), "{rule} came alone in profile {profile}");
        }
        println!("{line}");
    }
    for (profile, rule) in [(1, 105), (1, 106), (1, 107), (3, 407)] {
        println!("{rule} never comes alone: {}", why_never_alone(profile, rule).expect("there is a reason"));
    }
    println!("{pairs} pairs of rule and profile exist, {} were not reached", missing.len());
    assert!(missing.is_empty(), "not reached, or never alone: {missing:?}");
    // Counted by hand in the papers.
    assert_eq!(pairs, 67 + 71 + 64 + 65, "the papers have this many pairs of rule and profile");
}

#[test]
fn every_bad_value_breaks_its_rule() {
    let mut linters = Linters::of("bad extension values, one by one");
    for profile in ALL {
        for slot in SLOTS.filter(|slot| standing(*slot, *profile).is_judged()) {
            for value in bad_values(slot) {
                let mut pair = plain(*profile);
                set_extension(&mut pair, slot, plain_value(slot, *profile));
                pair.extension(slot).value = value.parts;
                pair.extension(slot).breaks_at_value(340 + u16::from(slot));
                linters.hold(&format!("extension {slot}: {}", value.what), &pair.encode());
            }
        }
    }
    linters.finish();
}

#[test]
fn values_on_the_edge_are_good() {
    let mut linters = Linters::of("extension values on the edge");
    for profile in ALL {
        for slot in SLOTS.filter(|slot| standing(*slot, *profile).is_judged()) {
            for (value, rules) in edge_values(slot) {
                let mut pair = plain(*profile);
                set_extension(&mut pair, slot, plain_value(slot, *profile));
                pair.extension(slot).value = value.parts;
                for rule in rules.iter().filter(|rule| has_rule(*profile, **rule)) {
                    pair.extension(slot).breaks_at_value(*rule);
                }
                linters.hold(&format!("extension {slot}: {}", value.what), &pair.encode());
            }
        }
    }
    linters.finish();
}

#[test]
fn a_value_nests_sixteen_deep_and_no_deeper() {
    let mut linters = Linters::of("values nested at the edge of depth");
    for profile in ALL {
        for depth in 4..=20 {
            let mut pair = plain(*profile);
            let mut names = nested_other_name(depth);
            if depth <= 16 && has_rule(*profile, 412) {
                let other = names.members_mut().nth(1).expect("the other name is the second");
                *other = other.clone().breaking(412);
            }
            set_extension(&mut pair, 7, names);
            if depth > 16 {
                pair.extension(7).breaks_at_value(347);
            }
            linters.hold(&format!("nested {depth} deep"), &pair.encode());
        }
    }
    linters.finish();
}

#[test]
fn every_kind_of_bad_rsa_bits_breaks_204() {
    let mut linters = Linters::of("bad RSA bits, one by one");
    let mut random = Random::for_purpose("bad RSA bits");
    for profile in ALL {
        for bits in every_bad_rsa_bits(&mut random) {
            let mut pair = plain(*profile);
            pair.certificate.key_bits = bits;
            linters.hold("RSA bits", &pair.encode());
        }
    }
    linters.finish();
}

#[test]
fn every_malformed_host_breaks_414() {
    let mut linters = Linters::of("malformed host names, one by one");
    for profile in ALL {
        for host in malformed_hosts() {
            let mut pair = plain(*profile);
            let name = breaking_in(*profile, 414, Element::primitive(0x82, &host));
            let mut names = plain_value(7, *profile);
            names.push(name);
            set_extension(&mut pair, 7, names);
            linters.hold(&format!("host {:?}", String::from_utf8_lossy(&host)), &pair.encode());
        }
        // Every single octet as the middle of a label: letters, digits, hyphen and underscore pass.
        for octet in 0..=255u8 {
            let mut pair = plain(*profile);
            let passes = octet.is_ascii_alphanumeric() || b"-_.".contains(&octet);
            let mut name = Element::primitive(0x82, &[b'a', octet, b'b', b'.', b'c']);
            if !passes {
                name = breaking_in(*profile, 414, name);
            }
            if octet == b'_' {
                name = breaking_in(*profile, 413, name);
            }
            set_extension(&mut pair, 7, Element::sequence(vec![dns("www.agency.example"), name]));
            linters.hold(&format!("octet {octet:02X} in a label"), &pair.encode());
        }
    }
    linters.finish();
}

#[test]
fn every_usage_is_judged_by_key_and_profile() {
    let mut linters = Linters::of("key usages: all sets of the nine named bits, and bits past them");
    let mut random = Random::for_purpose("key usages");
    for profile in ALL {
        for with_curve in [false, true] {
            let mut base = plain(*profile);
            if with_curve {
                comparison::keys::use_good_elliptic_curve(&mut base.certificate, &mut random);
                if !is_server(*profile) {
                    base.certificate.key_algorithm = base.certificate.key_algorithm.clone().breaking(201);
                }
            }
            let named = (0..512usize).map(|set| (0..9).filter(|bit| set >> bit & 1 == 1).collect::<Vec<_>>());
            let past = (9..64).flat_map(|bit| [vec![bit], vec![0, bit], vec![0, bit, bit + 8]]);
            for bits in named.chain(past) {
                let mut pair = base.clone();
                pair.extension(4).set_value(named_bits(&bits));
                for rule in rules_of_usage(*profile, with_curve, &bits) {
                    pair.extension(4).breaks_at_value(rule);
                }
                linters.hold(&format!("usage bits {bits:?}"), &pair.encode());
            }
        }
    }
    linters.finish();
}

/// The rules that these usages break with an RSA key or an EC key.
fn rules_of_usage(profile: u8, with_curve: bool, bits: &[usize]) -> Vec<u16> {
    let allowed = match (is_server(profile), with_curve) {
        (true, false) => Some(2),
        (true, true) => Some(4),
        (false, _) => None,
    };
    let has_other = bits.iter().any(|bit| *bit != 0 && Some(*bit) != allowed);
    let lacks_signing = ![5, 6].iter().all(|bit| bits.contains(bit));
    let broken = [(404, !bits.contains(&0)), (405, has_other), (422, lacks_signing)];
    broken
        .iter()
        .filter(|(rule, is_broken)| *is_broken && has_rule(profile, *rule))
        .map(|(rule, _)| *rule)
        .collect()
}

#[test]
fn independent_faults_add_up() {
    let mut linters = Linters::of("certificates with several independent faults");
    let mut random = Random::for_purpose("several faults");
    let faults = catalogue();
    for _ in 0..cases(32_000) {
        let profile = *random.choose(ALL);
        let case = mix(profile, &faults, &mut random).encode();
        linters.hold("several faults", &case);
    }
    linters.finish();
}
