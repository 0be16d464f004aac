//! Generated, damaged and outside certificates and decks, and what a linter is expected to answer.
//!
//! Expectations come from the rules on paper and from the encoder here, which knows where it put
//! each element. Nothing in this library reads a certificate or a deck back.
//!
//! | Module | Holds |
//! |---|---|
//! | `element` | the encoder: a tree of elements whose marks have places once it is encoded |
//! | `object_identifiers`, `general_names`, `keys`, `calendar` | what certificates are made of |
//! | `certificate`, `profile`, `correct`, `variations` | a certificate as its fields; correct ones of each profile |
//! | `entries`, `lines` | an entry's octets and its line; the form of a listing |
//! | `faults`, `bad_values` | faults that break known rules at known places |
//! | `malformed` | certificates that are refused with 4, 5 or 6 at a known place |
//! | `times` | times at every edge, and whether they are times |
//! | `mutation`, `mutants`, `trees` | chance changes and chance trees |
//! | `records`, `deck`, `damage` | records of every kind, decks with every kind of damage, and the listing that is due |
//! | `dense` | records with as many findings as fit, and records whose lines have a wanted length together |
//! | `sample` | the sample deck that ships with the repository |
//! | `outside` | certificates that nobody here made |
//! | `verdicts` | octets with their verdicts of soundness, by hand |
//! | `grammar` | octets that are certificates or extension values, and octets that are none, by hand |
//! | `holding`, `invariants`, `shrink` | comparing, and showing what differs |
//! | `program`, `commands` | running a program of this repository as a process, as `rt` runs it and by `bin/` |
//! | `answers` | a program that answers frames with lines, held to the lines that are expected |
//! | `outcome`, `queue` | what the proved linter, writer and reader write, and requests that wait for them |
//! | `calls` | calls of the linter, the proved one held to the whole answer that is due |
//! | `linters`, `writers`, `readers`, `listers` | the reference and the proved one, both held to what is due |
//! | `sources` | the sources of the proved crates as text: functions with what they ensure, and definitions |
//! | `random`, `amount`, `hex` | small helpers |
//!
//! `cargo test -- --nocapture` shows how many cases of each kind were compared and the table of
//! rules. `DLO_CASES=1000000` asks for more cases of each kind that is made by chance. `DLO_BIN`
//! names the folder of the programs, and `DLO_NO_PROGRAMS=1` leaves them out.

pub mod amount;
pub mod answers;
pub mod bad_values;
pub mod calendar;
pub mod calls;
pub mod certificate;
pub mod commands;
pub mod correct;
pub mod damage;
pub mod deck;
pub mod dense;
pub mod element;
pub mod entries;
pub mod faults;
pub mod general_names;
pub mod grammar;
pub mod hex;
pub mod holding;
pub mod invariants;
pub mod keys;
pub mod lines;
pub mod linters;
pub mod listers;
pub mod malformed;
pub mod mutants;
pub mod mutation;
pub mod object_identifiers;
pub mod outcome;
pub mod outside;
pub mod profile;
pub mod program;
pub mod queue;
pub mod random;
pub mod readers;
pub mod records;
pub mod sample;
pub mod shrink;
pub mod sources;
pub mod times;
pub mod trees;
pub mod variations;
pub mod verdicts;
pub mod writers;
