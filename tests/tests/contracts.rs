//! What the gate asks of the sources of the proved crates beyond their proofs: "No public function lacks a contract
//! on what it returns" and on what it does to a buffer that it is lent, and a public entry point refuses bad input
//! instead of requiring good input.

use std::path::PathBuf;

use comparison::sources::{self, head_of, Function};

/// Whether a caller can tell what it did: it returns something, or is lent a buffer that it may change.
fn has_effect(function: &Function) -> bool {
    function.signature().contains("->") || function.signature().contains("&mut")
}

/// A buffer that the answer goes on borrowing, as a sink does the room.
const KEPT: &str = "&'a mut";

/// The names of the parameters that are lent to be changed, without files and other streams, of which no contract can say
/// what they take or give.
fn lent(function: &Function) -> Vec<&str> {
    let is_stream =
        |parameter: &str| ["&mut impl Read", "&mut impl Write"].iter().any(|kind| parameter.ends_with(kind));
    function
        .signature()
        .split(|c: char| c == ',' || c == '(' || c == ')')
        .filter(|parameter| ["&mut", KEPT].iter().any(|kind| parameter.contains(kind)) && !is_stream(parameter.trim_end()))
        .filter_map(|parameter| parameter.split(':').next())
        .map(|name| name.trim().trim_start_matches("&mut "))
        .collect()
}

/// Whether every buffer that it may change is named in a clause, as it is right after the body; one that the answer goes on borrowing, as it
/// was passed, which is what the answer then stands over.
fn settles_buffers(function: &Function) -> bool {
    let clauses = function.clauses();
    let words = || clauses.split(|c: char| c.is_whitespace() || "(){},;".contains(c));
    let is_kept = |name: &str| function.signature().contains(&format!("{name}: {KEPT}"));
    let names = |word: &str, name: &str| {
        word.strip_prefix(name).is_some_and(|rest| if is_kept(name) { rest == ".entry" } else { is_after_body(rest) })
    };
    lent(function).iter().all(|name| words().any(|word| names(word, name)))
}

/// Whether this goes on behind a buffer's name as what it holds after the body, or as a part of that.
fn is_after_body(rest: &str) -> bool {
    rest.strip_prefix(".new").is_some_and(|rest| rest.is_empty() || rest.starts_with('.'))
}

fn all_functions() -> Vec<Function> {
    let files = sources::files_below(&sources::repository().join("crates"), "rt");
    let functions: Vec<Function> = files.iter().flat_map(|file| sources::functions_of(file)).collect();
    println!("{} functions in {} files", functions.len(), files.len());
    assert!(functions.iter().any(|f| f.is_public && f.name == "check_der"), "the sources are not read right");
    functions
}

#[test]
fn no_public_function_lacks_a_contract_on_what_it_does() {
    let bare: Vec<String> = all_functions()
        .iter()
        .filter(|f| f.is_public && has_effect(f) && !f.has_clause("ensures"))
        .map(Function::shown)
        .collect();
    assert!(
        bare.is_empty(),
        "public functions that return or change something and ensure nothing: {bare:#?}"
    );
}

#[test]
fn every_public_contract_settles_the_buffers_that_are_lent() {
    let loose: Vec<String> =
        all_functions().iter().filter(|f| f.is_public && !settles_buffers(f)).map(Function::shown).collect();
    assert!(loose.is_empty(), "public functions whose contract leaves a lent buffer open: {loose:#?}");
}

#[test]
fn no_public_function_requires_anything() {
    let asking: Vec<String> = all_functions()
        .iter()
        .filter(|f| f.is_public && f.has_clause("requires"))
        .map(Function::shown)
        .collect();
    assert!(asking.is_empty(), "public functions with a `requires`: {asking:#?}");
}

#[test]
fn a_bare_function_is_told_apart() {
    let head = head_of("fn f(a: u8) -> u8\n    ensures { result ≡ a }\n{ a }");
    assert!(head.contains("ensures") && head.ends_with('\n'));
    let bare = head_of("fn f(a: u8) -> u8 { a } pub fn g() -> u8 ensures { x } { 0 }");
    assert_eq!(bare, "fn f(a: u8) -> u8 ");
    let filling = Function {
        file: PathBuf::new(),
        name: "fill".to_string(),
        is_public: true,
        is_method: false,
        head: "fn fill(room: &mut [u8], n: usize) ensures { length room.old ≡ length other_room.new }"
            .to_string(),
    };
    assert!(has_effect(&filling) && !settles_buffers(&filling));
    assert_eq!(lent(&filling), ["room"]);
    let head = "fn load(file: &mut impl Read, room: &mut [u8], last: &mut impl Write) -> u8 ensures { length room.new ≡ 9 }";
    let loading = Function { head: head.to_string(), ..filling };
    assert!(settles_buffers(&loading) && lent(&loading) == ["room"]);
    let method = Function { head: "fn put(&mut self, b: u8) ensures { Put b self.old self.new }".to_string(), ..loading };
    assert!(settles_buffers(&method) && lent(&method) == ["self"]);
    let head = "fn new(room: &'a mut [u8]) -> Sink<'a> ensures { IsOver room.entry result }";
    let keeping = Function { head: head.to_string(), ..method };
    assert!(settles_buffers(&keeping) && lent(&keeping) == ["room"]);
    let silent = "fn new(room: &'a mut [u8]) -> Sink<'a> ensures { IsNew result }";
    assert!(!settles_buffers(&Function { head: silent.to_string(), ..keeping }));
    let named = head_of("fn f() -> u8 ensures small { x } { 1 }");
    assert!(named.ends_with("} "));
}
