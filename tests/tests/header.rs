//! The header for C declares exactly the functions that the crate `export_c` exports, with their parameters, and each is
//! that of the crate `export` by its name. No compiler sees both: the archive is linked by name. Its constants and what it reads of a report are the papers', and the
//! example in C expects what the reference finds.

use std::fs;
use std::path::{Path, PathBuf};

use comparison::deck::{answer_lines, BLOCK};
use comparison::entries::{entry, level_number, octets_of, ENTRY};
use comparison::holding::AMPLE_ROOM;
use comparison::records::LONGEST_SIDE;
use comparison::sources::functions_of;
use reference::{lint, Entry, Level};

fn path_of(name: &str) -> PathBuf {
    Path::new(env!("CARGO_MANIFEST_DIR")).parent().expect("a repository").join(name)
}

fn text_of(name: &str) -> String {
    let path = path_of(name);
    fs::read_to_string(&path).unwrap_or_else(|e| panic!("{}: {e}", path.display()))
}

fn octets_in(name: &str) -> Vec<u8> {
    let path = path_of(name);
    fs::read(&path).unwrap_or_else(|e| panic!("{}: {e}", path.display()))
}

/// The text with one space between words and none at the inner side of a bracket, or before a comma.
fn on_one_line(text: &str) -> String {
    let words = text.split_whitespace().collect::<Vec<_>>().join(" ");
    words.replace("( ", "(").replace(" )", ")").replace(",)", ")")
}

/// C's type of a number.
fn number(kind: &str) -> &'static str {
    match kind {
        "u8" => "uint8_t",
        "u32" => "uint32_t",
        "u64" => "uint64_t",
        _ => panic!("there is no type for {kind} in the header"),
    }
}

/// A slice is a pointer and a length.
fn parameter(text: &str) -> String {
    let (name, kind) = text.split_once(": ").expect("a parameter has a name and a type");
    match kind {
        "&[u8]" => format!("const uint8_t *{name}, size_t {name}_length"),
        "&mut [u8]" => format!("uint8_t *{name}, size_t {name}_length"),
        _ => format!("{} {name}", number(kind)),
    }
}

/// What C has to declare, of the functions marked for export.
fn due_declarations(source: &str) -> Vec<String> {
    let mut declarations = Vec::new();
    for part in source.split("#[unsafe(no_mangle)]").skip(1) {
        let head = on_one_line(part.split("ensures").next().expect("a part has a beginning"));
        let head = head.strip_prefix("pub extern \"C\" fn ").expect("an exported function");
        let (name, rest) = head.split_once('(').expect("a function has parameters");
        let (parameters, answer) = rest.split_once(") -> ").expect("a function has an answer");
        let parameters: Vec<String> = parameters.split(", ").map(parameter).collect();
        declarations.push(format!("{} {name}({});", number(answer.trim()), parameters.join(", ")));
    }
    declarations.sort();
    declarations
}

/// What the header declares and does not define.
fn declarations_in(header: &str) -> Vec<String> {
    let mut rest = header;
    let mut code = String::new();
    while let Some((before, comment)) = rest.split_once("/*") {
        code.push_str(before);
        rest = comment.split_once("*/").expect("a comment ends").1;
    }
    code.push_str(rest);
    let lines: Vec<&str> = code.lines().filter(|line| !line.starts_with('#')).collect();
    let code = on_one_line(&lines.join("\n"));
    let ends_of_declarations = code.match_indices(");").map(|(place, _)| place + 2);
    let mut declarations = Vec::new();
    for end in ends_of_declarations {
        let begin = code[..end - 1].rfind([';', '{', '}']).map_or(0, |place| place + 1);
        let text = code[begin..end].trim();
        if text.starts_with("uint64_t dlozamife_") {
            declarations.push(text.to_string());
        }
    }
    declarations.sort();
    declarations
}

/// The number that the header defines a name as; none where it defines no such name.
fn constant(header: &str, name: &str) -> Option<usize> {
    let definition = format!("#define {name} ");
    header.lines().find_map(|line| line.strip_prefix(&definition)?.trim().parse().ok())
}

/// At which octet of a finding a function of the header reads a pair; none where the header has no such function.
fn place_read_by(header: &str, function: &str) -> Option<usize> {
    let head = format!("static inline unsigned {function}(const uint8_t *room, size_t i) {{ ");
    let header = on_one_line(header);
    let (_, body) = header.split_once(&head)?;
    let (read, _) =
        body.strip_prefix("return dlozamife_pair(room + DLOZAMIFE_FINDING * i")?.split_once("); }")?;
    match read {
        "" => Some(0),
        _ => read.strip_prefix(" + ")?.parse().ok(),
    }
}

#[test]
fn the_header_has_the_numbers_of_the_papers() {
    let header = text_of("include/dlozamife.h");
    let [must, should] = [Level::Must, Level::Should].map(|level| usize::from(level_number(level)));
    for (name, due) in [
        ("DLOZAMIFE_FINDING", ENTRY),
        ("DLOZAMIFE_MUST", must),
        ("DLOZAMIFE_SHOULD", should),
        ("DLOZAMIFE_REPORT_ROOM", AMPLE_ROOM),
        ("DLOZAMIFE_MOST", LONGEST_SIDE),
        ("DLOZAMIFE_BLOCK", BLOCK),
    ] {
        assert_eq!(constant(&header, name), Some(due), "{name}");
    }
}

#[test]
fn the_header_reads_each_number_of_a_finding_from_its_pair() {
    let header = text_of("include/dlozamife.h");
    let finding = Entry { level: Level::Should, ..entry(104, 13, 3) };
    let octets = octets_of(&[finding]);
    for (function, due) in [
        ("dlozamife_rule", finding.rule),
        ("dlozamife_start", finding.start),
        ("dlozamife_length", finding.length),
        ("dlozamife_level", level_number(finding.level)),
    ] {
        let place = place_read_by(&header, function).unwrap_or_else(|| panic!("no {function} in the header"));
        assert_eq!(octets.get(place..place + 2), Some(&due.to_be_bytes()[..]), "{function}");
    }
}

#[test]
fn the_example_in_c_expects_what_the_reference_finds() {
    let [certificate, issuer] =
        ["server", "authority"].map(|name| octets_in(&format!("crates/deckpack/data/{name}.der")));
    let answer = lint(&certificate, &issuer, 1, AMPLE_ROOM);
    assert_eq!(text_of("examples/c/expected"), answer_lines(&answer));
}

#[test]
fn places_and_numbers_are_read_from_a_header() {
    let function = |name: &str, place: &str| {
        let read = format!("dlozamife_pair(room + DLOZAMIFE_FINDING * i{place})");
        format!("static inline unsigned {name}(const uint8_t *room, size_t i) {{\n    return {read};\n}}\n")
    };
    let header = format!("#define A 8\n#define AB 9\n{}\n{}", function("f", ""), function("g", " + 6"));
    assert_eq!(["A", "AB", "B"].map(|name| constant(&header, name)), [Some(8), Some(9), None]);
    assert_eq!(["f", "g", "h"].map(|name| place_read_by(&header, name)), [Some(0), Some(6), None]);
}

#[test]
fn the_header_declares_what_is_exported() {
    let due = due_declarations(&text_of("crates/export_c/src/lib.rt"));
    assert_eq!(due.len(), 2, "{due:#?}");
    assert_eq!(declarations_in(&text_of("include/dlozamife.h")), due);
}

#[test]
fn each_export_is_the_function_of_the_library() {
    let public = |name: &str| {
        let functions = functions_of(&path_of(&format!("crates/{name}/src/lib.rt")));
        let heads = functions.into_iter().filter(|f| f.is_public).map(|f| on_one_line(&f.head));
        heads.collect::<Vec<String>>()
    };
    let exports = public("export_c");
    assert_eq!(exports.len(), 2, "{exports:#?}");
    assert_eq!(exports, public("export"), "the same heads, and so the same clauses");
    let source = on_one_line(&text_of("crates/export_c/src/lib.rt"));
    for head in exports {
        let (name, rest) = head["fn ".len()..].split_once('(').expect("a function has parameters");
        let (parameters, _) = rest.split_once(')').expect("they end");
        let names: Vec<&str> = parameters.split(", ").filter_map(|p| p.split(':').next()).collect();
        let call = format!("{{ export::{name}({}) }}", names.join(", "));
        assert!(source.contains(&call), "{call}");
    }
}

#[test]
fn a_declaration_is_made_of_a_function() {
    let source = "#[unsafe(no_mangle)]\npub extern \"C\" fn f(\n    a: &[u8],\n    n: u32,\n    b: &mut [u8],\n) -> u64\n    ensures { x }\n{ 0 }";
    let due = "uint64_t f(const uint8_t *a, size_t a_length, uint32_t n, uint8_t *b, size_t b_length);";
    assert_eq!(due_declarations(source), [due]);
}
