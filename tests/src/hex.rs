//! Octets as hexadecimal text, to write them in tests and to show them in messages.

/// The octets of a text such as `30 03 01 01 FF`; spaces do not matter.
pub fn octets(text: &str) -> Vec<u8> {
    let digits: Vec<u8> = text.bytes().filter(|letter| !letter.is_ascii_whitespace()).collect();
    assert!(digits.len() % 2 == 0, "an octet has two digits: {text}");
    digits.chunks(2).map(|pair| digit(pair[0]) * 16 + digit(pair[1])).collect()
}

fn digit(letter: u8) -> u8 {
    match letter {
        b'0'..=b'9' => letter - b'0',
        b'A'..=b'F' => letter - b'A' + 10,
        b'a'..=b'f' => letter - b'a' + 10,
        _ => panic!("{:?} is no hexadecimal digit", letter as char),
    }
}

pub fn text(octets: &[u8]) -> String {
    octets.iter().map(|octet| format!("{octet:02X}")).collect::<Vec<_>>().join(" ")
}
