//! Octet strings with what the text of document 01 says of them, as certificates and as values of
//! extensions, every octet and every place worked out by hand.

/// What is asked about (0 for a certificate, else the extension's number in the table), the
/// octets, and the line that the program `answers` owes.
pub type ByHand = &'static [(u8, &'static str, &'static str)];

pub const CERTIFICATES_BY_HAND: ByHand = &[
    // The examples of document 01.
    (0, "30 00", "departs at 0"),
    (0, "30 81 00", "unsound at 0"),
    (0, "30 80 00 00", "unsound at 0"),
    (0, "30 00 00", "unsound at 0"),
    (0, "02 02 00 7F", "unsound at 0"),
    (0, "02 02 00 80", "departs at 0"),
    (0, "02 01 80", "departs at 0"),
    (0, "30 03 01 01 01", "unsound at 2"),
    (0, "31 06 02 01 02 02 01 01", "unordered at 0"),
    // Ever more of a certificate: the place is the first element that is not allowed or ends early.
    (0, "30 02 30 00", "departs at 2"),
    (0, "30 04 30 02 A0 00", "departs at 4"),
    (0, "30 07 30 05 A0 03 02 01 00", "departs at 6"),
    (0, "30 07 30 05 A0 03 02 01 01", "departs at 2"),
    (0, "30 07 30 05 A0 03 02 01 02", "departs at 2"),
    (0, "30 07 30 05 A0 03 02 01 03", "departs at 6"),
    (0, "30 09 30 07 A0 05 02 01 02 05 00", "departs at 9"),
    (0, "30 05 30 03 02 01 01", "departs at 2"),
    (0, "30 07 30 05 02 01 01 30 00", "departs at 7"),
    (0, "30 0A 30 08 02 01 01 30 03 06 01 2A", "departs at 2"),
    (0, "30 0C 30 0A 02 01 01 30 03 06 01 2A 30 00", "departs at 2"),
    (0, "30 0E 30 0C 02 01 01 30 03 06 01 2A 30 00 30 00", "departs at 14"),
    (0, "30 0E 30 0C 02 01 01 30 03 06 01 2A 30 02 31 00", "departs at 14"),
    (0, "30 10 30 0E 02 01 01 30 03 06 01 2A 30 04 31 02 30 00", "departs at 16"),
    // The shortest certificate, with nothing that could be left out.
    (
        0,
        "30 40 30 36 02 01 01 30 03 06 01 2A 30 00 30 1E \
         17 0D 32 34 30 31 30 31 30 30 30 30 30 30 5A 17 0D 34 39 31 32 33 31 32 33 35 39 35 39 5A \
         30 00 30 08 30 03 06 01 2A 03 01 00 30 03 06 01 2A 03 01 00",
        "certificate",
    ),
    // The same without its signature, and with a NULL after it.
    (
        0,
        "30 3D 30 36 02 01 01 30 03 06 01 2A 30 00 30 1E \
         17 0D 32 34 30 31 30 31 30 30 30 30 30 30 5A 17 0D 34 39 31 32 33 31 32 33 35 39 35 39 5A \
         30 00 30 08 30 03 06 01 2A 03 01 00 30 03 06 01 2A",
        "departs at 0",
    ),
    (
        0,
        "30 42 30 36 02 01 01 30 03 06 01 2A 30 00 30 1E \
         17 0D 32 34 30 31 30 31 30 30 30 30 30 30 5A 17 0D 34 39 31 32 33 31 32 33 35 39 35 39 5A \
         30 00 30 08 30 03 06 01 2A 03 01 00 30 03 06 01 2A 03 01 00 05 00",
        "departs at 66",
    ),
    // The same with A3 02 30 00 as its extensions: an empty list.
    (
        0,
        "30 44 30 3A 02 01 01 30 03 06 01 2A 30 00 30 1E \
         17 0D 32 34 30 31 30 31 30 30 30 30 30 30 5A 17 0D 34 39 31 32 33 31 32 33 35 39 35 39 5A \
         30 00 30 08 30 03 06 01 2A 03 01 00 A3 02 30 00 30 03 06 01 2A 03 01 00",
        "departs at 60",
    ),
    // The same with a time on 30 February.
    (
        0,
        "30 40 30 36 02 01 01 30 03 06 01 2A 30 00 30 1E \
         17 0D 32 34 30 32 33 30 30 30 30 30 30 30 5A 17 0D 34 39 31 32 33 31 32 33 35 39 35 39 5A \
         30 00 30 08 30 03 06 01 2A 03 01 00 30 03 06 01 2A 03 01 00",
        "departs at 16",
    ),
];

pub const VALUES_BY_HAND: ByHand = &[
    // Key usage, as document 01 has it.
    (4, "03 02 05 A0", "value"),
    (4, "03 02 00 80", "no value"),
    (4, "03 01 00", "value"),
    (4, "03 02 07 00", "no value"),
    (4, "03 03 07 80 80", "value"),
    // Basic constraints: the default is unwritten, the number is not negative.
    (2, "30 00", "value"),
    (2, "30 03 01 01 FF", "value"),
    (2, "30 03 01 01 00", "no value"),
    (2, "30 03 02 01 00", "value"),
    (2, "30 03 02 01 FF", "no value"),
    (2, "30 06 01 01 FF 02 01 05", "value"),
    (2, "30 06 02 01 05 01 01 FF", "no value"),
    // Key identifiers.
    (1, "30 00", "value"),
    (1, "30 02 80 00", "value"),
    (1, "30 02 A0 00", "no value"),
    (1, "30 02 A1 00", "no value"),
    (1, "30 05 A1 03 86 01 61", "value"),
    (1, "30 03 82 01 80", "value"),
    (1, "30 02 82 00", "no value"),
    (3, "04 00", "value"),
    (3, "80 00", "no value"),
    // Purposes and policies.
    (5, "30 00", "no value"),
    (5, "30 03 06 01 2A", "value"),
    (5, "06 01 2A", "no value"),
    (6, "30 00", "no value"),
    (6, "30 05 30 03 06 01 2A", "value"),
    (6, "30 07 30 05 06 01 2A 30 00", "no value"),
    (6, "30 0C 30 0A 06 01 2A 30 05 30 03 06 01 2A", "no value"),
    (6, "30 0E 30 0C 06 01 2A 30 07 30 05 06 01 2A 05 00", "value"),
    // Names: each form once, and a directory name with an empty SET.
    (7, "30 00", "no value"),
    (7, "30 09 A0 07 06 01 2A A0 02 05 00", "value"),
    (7, "30 02 81 00", "value"),
    (7, "30 02 82 00", "value"),
    (7, "30 02 A3 00", "value"),
    (7, "30 04 A4 02 30 00", "value"),
    (7, "30 06 A4 04 30 02 31 00", "no value"),
    (7, "30 02 A5 00", "value"),
    (7, "30 02 86 00", "value"),
    (7, "30 02 87 00", "value"),
    (7, "30 03 88 01 2A", "value"),
    (7, "30 02 88 00", "no value"),
    (7, "30 02 83 00", "no value"),
    (7, "30 02 85 00", "no value"),
    (7, "30 02 89 00", "no value"),
    // Access to information.
    (8, "30 00", "no value"),
    (8, "30 07 30 05 06 01 2A 86 00", "value"),
    (8, "30 05 30 03 06 01 2A", "no value"),
    // CRL points: empty, with a full name, with a relative one, with reasons, with an issuer.
    (9, "30 00", "no value"),
    (9, "30 02 30 00", "value"),
    (9, "30 04 30 02 A0 00", "no value"),
    (9, "30 06 30 04 A0 02 A0 00", "no value"),
    (9, "30 09 30 07 A0 05 A0 03 86 01 61", "value"),
    (9, "30 07 30 05 A0 03 86 01 61", "no value"),
    (9, "30 06 30 04 A0 02 A1 00", "no value"),
    (9, "30 0E 30 0C A0 0A A1 08 30 06 06 01 2A 0C 01 61", "value"),
    (9, "30 10 30 0E A0 0C A1 0A 31 08 30 06 06 01 2A 0C 01 61", "no value"),
    (9, "30 16 30 14 A0 12 A1 10 30 06 06 01 2A 0C 01 61 30 06 06 01 2A 0C 01 62", "value"),
    (9, "30 16 30 14 A0 12 A1 10 30 06 06 01 2A 0C 01 61 30 06 06 01 2A 0C 01 61", "value"),
    (9, "30 16 30 14 A0 12 A1 10 30 06 06 01 2A 0C 01 62 30 06 06 01 2A 0C 01 61", "no value"),
    (9, "30 05 30 03 81 01 00", "value"),
    (9, "30 06 30 04 81 02 06 40", "value"),
    (9, "30 06 30 04 81 02 05 40", "no value"),
    (9, "30 04 30 02 A2 00", "no value"),
    (9, "30 07 30 05 A2 03 86 01 61", "value"),
    (9, "30 08 30 06 A2 04 A4 02 30 00", "value"),
    (9, "30 12 30 10 A0 05 A0 03 86 01 61 81 02 06 40 A2 03 86 01 61", "value"),
    (9, "30 12 30 10 A0 05 A0 03 86 01 61 A2 03 86 01 61 81 02 06 40", "no value"),
    (9, "30 0B 30 00 30 07 A0 05 A0 03 86 01 61", "value"),
    // Nocheck.
    (10, "05 00", "value"),
    (10, "05 01 00", "no value"),
    (10, "30 00", "no value"),
    (10, "", "no value"),
    // Name constraints: either list, neither, both; the order; empty lists; unknown tags.
    (11, "30 00", "value"),
    (11, "30 06 A0 04 30 02 82 00", "value"),
    (11, "30 06 A1 04 30 02 82 00", "value"),
    (11, "30 0C A0 04 30 02 82 00 A1 04 30 02 82 00", "value"),
    (11, "30 0C A1 04 30 02 82 00 A0 04 30 02 82 00", "no value"),
    (11, "30 0C A0 04 30 02 82 00 A0 04 30 02 82 00", "no value"),
    (11, "30 0A A0 08 30 02 82 00 30 02 82 00", "value"),
    (11, "30 02 A0 00", "no value"),
    (11, "30 02 A1 00", "no value"),
    (11, "30 02 80 00", "no value"),
    (11, "30 06 A2 04 30 02 82 00", "no value"),
    (11, "30 06 30 04 30 02 82 00", "no value"),
    (11, "30 04 A0 02 82 00", "no value"),
    (11, "30 04 A0 02 30 00", "no value"),
    (11, "05 00", "no value"),
    // A minimum is not 0 where it is written, and neither distance is negative.
    (11, "30 09 A0 07 30 05 82 00 80 01 00", "no value"),
    (11, "30 09 A0 07 30 05 82 00 80 01 01", "value"),
    (11, "30 09 A0 07 30 05 82 00 80 01 FF", "no value"),
    (11, "30 09 A0 07 30 05 82 00 81 01 00", "value"),
    (11, "30 09 A0 07 30 05 82 00 81 01 7F", "value"),
    (11, "30 09 A0 07 30 05 82 00 81 01 80", "no value"),
    (11, "30 0A A0 08 30 06 82 00 81 02 00 80", "value"),
    (11, "30 0A A0 08 30 06 82 00 81 02 00 7F", "no value"),
    (11, "30 08 A0 06 30 04 82 00 81 00", "no value"),
    (11, "30 0C A0 0A 30 08 82 00 80 01 01 81 01 01", "value"),
    (11, "30 0C A0 0A 30 08 82 00 81 01 01 80 01 01", "no value"),
    (11, "30 0A A0 08 30 06 80 01 01 81 01 01", "no value"),
    (11, "30 0B A0 09 30 07 82 00 A0 03 02 01 01", "no value"),
    (11, "30 09 A0 07 30 05 82 00 02 01 01", "no value"),
    (11, "30 09 A0 07 30 05 82 00 82 01 01", "no value"),
    // The base is a name of any form, an address of any length.
    (11, "30 0D A0 0B 30 09 A0 07 06 01 2A A0 02 05 00", "value"),
    (11, "30 10 A0 0E 30 0C A0 07 06 01 2A A0 02 05 00 80 01 01", "value"),
    (11, "30 06 A0 04 30 02 81 00", "value"),
    (11, "30 06 A0 04 30 02 A3 00", "value"),
    (11, "30 08 A0 06 30 04 A4 02 30 00", "value"),
    (11, "30 06 A0 04 30 02 A4 00", "no value"),
    (11, "30 06 A0 04 30 02 A5 00", "value"),
    (11, "30 06 A0 04 30 02 86 00", "value"),
    (11, "30 06 A0 04 30 02 87 00", "value"),
    (11, "30 09 A0 07 30 05 87 03 01 02 03", "value"),
    (11, "30 07 A0 05 30 03 88 01 2A", "value"),
    (11, "30 06 A0 04 30 02 88 00", "no value"),
    (11, "30 06 A0 04 30 02 89 00", "no value"),
];
