//! Certificates that nobody here made. Where each comes from stands in `outside/README.md`.

/// One octet string and the name of the file it came from.
pub struct Outside {
    pub name: String,
    pub octets: Vec<u8>,
}

macro_rules! source {
    ($function:ident, $file:literal) => {
        pub fn $function() -> Vec<Outside> {
            read(
                include_bytes!(concat!("../outside/", $file, ".bin")),
                include_str!(concat!("../outside/", $file, ".names")),
            )
        }
    };
}

source!(path_validation_suite, "pkits-certificates");
source!(revocation_lists, "pkits-revocation-lists");
source!(vectors, "x509-vectors");
source!(authorities, "authorities");
source!(not_certificates, "not-certificates");

/// All that are meant to be certificates.
pub fn certificates() -> Vec<Outside> {
    path_validation_suite().into_iter().chain(vectors()).chain(authorities()).collect()
}

/// Each item is two octets of length, high octet first, and then that many octets.
fn read(stored: &[u8], names: &str) -> Vec<Outside> {
    let mut items = Vec::new();
    let mut rest = stored;
    for name in names.lines() {
        let length = usize::from(u16::from_be_bytes([rest[0], rest[1]]));
        items.push(Outside { name: name.to_string(), octets: rest[2..2 + length].to_vec() });
        rest = &rest[2 + length..];
    }
    assert!(rest.is_empty(), "there are as many names as items");
    items
}
