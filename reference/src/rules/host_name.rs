//! Host names as rule 414 wants them.

/// "two or more labels of 1 to 63 letters, digits, hyphens (underscore passes here), no hyphen at either end of a label,
/// at most 253 octets"
pub fn is_host_name(octets: &[u8]) -> bool {
    let labels = || octets.split(|&octet| octet == b'.');
    octets.len() <= 253 && labels().count() >= 2 && labels().all(is_label)
}

fn is_label(octets: &[u8]) -> bool {
    (1..=63).contains(&octets.len())
        && octets.iter().all(|&octet| is_label_octet(octet))
        && octets.first() != Some(&b'-')
        && octets.last() != Some(&b'-')
}

fn is_label_octet(octet: u8) -> bool {
    octet.is_ascii_alphanumeric() || octet == b'-' || octet == b'_'
}

#[cfg(test)]
mod tests {
    use super::is_host_name;

    #[test]
    fn host_names() {
        assert!(is_host_name(b"www.example.gov"));
        assert!(is_host_name(b"a.b"));
        assert!(is_host_name(b"_a_.1-2"));
        assert!(!is_host_name(b"localhost"));
        assert!(!is_host_name(b""));
        assert!(!is_host_name(b"."));
        assert!(!is_host_name(b"example.gov."));
        assert!(!is_host_name(b".example.gov"));
        assert!(!is_host_name(b"a..b"));
        assert!(!is_host_name(b"-a.b"));
        assert!(!is_host_name(b"a-.b"));
        assert!(!is_host_name(b"a.-"));
        assert!(!is_host_name(b"*.example.gov"));
        assert!(!is_host_name(b"a b.gov"));
        assert!(!is_host_name(b"\xC3\xA9.gov"));
    }

    #[test]
    fn lengths() {
        let label = "a".repeat(63);
        assert!(is_host_name(format!("{label}.b").as_bytes()));
        assert!(!is_host_name(format!("{label}a.b").as_bytes()));
        let longest = format!("{label}.{label}.{label}.{}", "a".repeat(61));
        assert_eq!(longest.len(), 253);
        assert!(is_host_name(longest.as_bytes()));
        assert!(!is_host_name(format!("{longest}a").as_bytes()));
    }
}
