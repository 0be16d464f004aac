//! An independent linter for certificates, with a deck writer, a deck reader and a lister.
//!
//! It is a second reading of the same papers as the proved linter ("document 01" and the change requests of "document
//! 02") and shares nothing with it, so that the two can be compared. Each rule stands in one place, under the words it comes from.
//!
//! | Module | Holds |
//! |---|---|
//! | `der` | elements: identifier, start, contents, members |
//! | `soundness` | refusals 4 and 5: sound DER, SETs in order |
//! | `structure` | reading members from left to right, and where that fails |
//! | `number`, `time` | what INTEGERs and times stand for |
//! | `object_identifiers` | the identifiers that the rules name |
//! | `name`, `certificate` | RFC 5280's Certificate: refusal 6 |
//! | `values` | RFC 5280's extension values: rules 341 to 351 |
//! | `profile` | the four profiles, which rules they have, and the table of extensions |
//! | `rules` | all other rules |
//! | `level` | which rules are a must and which a should |
//! | `report` | entries, their order and their octets |
//! | `lint` | the refusals in their order, and the answer |
//! | `deck`, `listing` | blocks and records; what the program prints |

// The quoted rules write tags as [0], which are no links.
#![allow(rustdoc::broken_intra_doc_links)]

pub mod certificate;
pub mod deck;
pub mod der;
pub mod level;
pub mod lint;
pub mod listing;
pub mod name;
pub mod number;
pub mod object_identifiers;
pub mod profile;
pub mod report;
pub mod rules;
pub mod soundness;
pub mod structure;
pub mod time;
pub mod values;

pub use deck::{block_check, read_deck, write_record};
pub use level::Level;
pub use lint::lint;
pub use listing::listing;
pub use report::report_octets;
pub use soundness::soundness;

/// Why a call was turned away: number, side (1 certificate, 2 issuer, 0 neither) and place (a start within its side).
#[derive(Clone, Copy, Debug, PartialEq, Eq)]
pub struct Refusal {
    pub number: u8,
    pub side: u8,
    pub place: usize,
}

/// One finding: the rule, the start and whole length of the element in the certificate, and the rule's level. Entries have
/// an order (`report`), but not by all that they hold.
#[derive(Clone, Copy, Debug, PartialEq, Eq)]
pub struct Entry {
    pub rule: u16,
    pub start: u16,
    pub length: u16,
    pub level: Level,
}

/// What the linter answers.
#[derive(Clone, Debug, PartialEq, Eq)]
pub enum Answer {
    Refused(Refusal),
    Report(Vec<Entry>),
}

/// Whether octets are sound DER with SETs in order.
#[derive(Clone, Copy, Debug, PartialEq, Eq)]
pub enum Soundness {
    Sound,
    /// refusal 4, at the first faulty element
    Unsound(usize),
    /// refusal 5, at the first SET out of order
    Unordered(usize),
}

/// Why a block is lost.
#[derive(Clone, Copy, Debug, PartialEq, Eq)]
pub enum Loss {
    Short,
    Unsound,
    Stray,
}

/// What reading a deck finds, by block position from 0.
#[derive(Clone, Debug, PartialEq, Eq)]
pub enum Event {
    Record {
        block: usize,
        number: u32,
        profile: u8,
        certificate: Vec<u8>,
        issuer: Vec<u8>,
        answer: Answer,
    },
    Lost {
        block: usize,
        loss: Loss,
    },
}
