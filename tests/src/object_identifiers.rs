//! The object identifiers of the profiles, as contents octets, worked out from their arcs.

/// The contents octets of an object identifier (X.690, 8.19).
pub fn encode_arcs(arcs: &[u64]) -> Vec<u8> {
    let mut octets = Vec::new();
    push_arc(&mut octets, arcs[0] * 40 + arcs[1]);
    for arc in &arcs[2..] {
        push_arc(&mut octets, *arc);
    }
    octets
}

fn push_arc(octets: &mut Vec<u8>, arc: u64) {
    let mut groups = vec![(arc & 0x7F) as u8];
    let mut rest = arc >> 7;
    while rest > 0 {
        groups.push(0x80 | (rest & 0x7F) as u8);
        rest >>= 7;
    }
    groups.reverse();
    octets.extend(groups);
}

// A dotted pair such as 2.5 would be read as a fraction, so arcs are parted by commas.
macro_rules! arcs {
    ($($name:ident = [$($arc:literal),+];)*) => {
        $(pub fn $name() -> Vec<u8> { encode_arcs(&[$($arc),+]) })*
    };
}

arcs! {
    sha256_with_rsa = [1, 2, 840, 113549, 1, 1, 11];
    sha1_with_rsa = [1, 2, 840, 113549, 1, 1, 5];
    ecdsa_with_sha256 = [1, 2, 840, 10045, 4, 3, 2];
    rsa_encryption = [1, 2, 840, 113549, 1, 1, 1];
    elliptic_curve_key = [1, 2, 840, 10045, 2, 1];
    curve_p256 = [1, 2, 840, 10045, 3, 1, 7];
    curve_p384 = [1, 3, 132, 0, 34];
    curve_p521 = [1, 3, 132, 0, 35];
    curve_p224 = [1, 3, 132, 0, 33];
    curve_k256 = [1, 3, 132, 0, 10];
    ed25519 = [1, 3, 101, 112];

    common_name = [2, 5, 4, 3];
    serial_number = [2, 5, 4, 5];
    country = [2, 5, 4, 6];
    locality = [2, 5, 4, 7];
    state = [2, 5, 4, 8];
    organization = [2, 5, 4, 10];
    organizational_unit = [2, 5, 4, 11];
    domain_component = [0, 9, 2342, 19200300, 100, 1, 25];

    authority_key_identifier = [2, 5, 29, 35];
    basic_constraints = [2, 5, 29, 19];
    subject_key_identifier = [2, 5, 29, 14];
    key_usage = [2, 5, 29, 15];
    extended_key_usage = [2, 5, 29, 37];
    certificate_policies = [2, 5, 29, 32];
    subject_alternative_name = [2, 5, 29, 17];
    authority_information_access = [1, 3, 6, 1, 5, 5, 7, 1, 1];
    crl_distribution_points = [2, 5, 29, 31];
    ocsp_nocheck = [1, 3, 6, 1, 5, 5, 7, 48, 1, 5];
    private_key_usage_period = [2, 5, 29, 16];
    issuer_alternative_name = [2, 5, 29, 18];
    name_constraints = [2, 5, 29, 30];
    transparency_list = [1, 3, 6, 1, 4, 1, 11129, 2, 4, 2];
    private_extension = [1, 3, 6, 1, 4, 1, 99999, 1];

    server_auth = [1, 3, 6, 1, 5, 5, 7, 3, 1];
    client_auth = [1, 3, 6, 1, 5, 5, 7, 3, 2];
    code_signing = [1, 3, 6, 1, 5, 5, 7, 3, 3];
    email_protection = [1, 3, 6, 1, 5, 5, 7, 3, 4];
    ocsp_signing = [1, 3, 6, 1, 5, 5, 7, 3, 9];
    any_purpose = [2, 5, 29, 37, 0];

    federal_policy_arc = [2, 16, 840, 1, 101, 3, 2, 1, 3];
    federal_policy = [2, 16, 840, 1, 101, 3, 2, 1, 3, 13];
    federal_policy_long = [2, 16, 840, 1, 101, 3, 2, 1, 3, 40, 1];
    beside_federal_policy = [2, 16, 840, 1, 101, 3, 2, 1, 4, 13];
    domain_validated = [2, 23, 140, 1, 2, 1];
    organization_validated = [2, 23, 140, 1, 2, 2];
    individual_validated = [2, 23, 140, 1, 2, 3];
    any_policy = [2, 5, 29, 32, 0];
    practice_statement = [1, 3, 6, 1, 5, 5, 7, 2, 1];
    user_notice = [1, 3, 6, 1, 5, 5, 7, 2, 2];

    access_by_ocsp = [1, 3, 6, 1, 5, 5, 7, 48, 1];
    access_to_issuers = [1, 3, 6, 1, 5, 5, 7, 48, 2];
    access_to_repository = [1, 3, 6, 1, 5, 5, 7, 48, 5];
}
