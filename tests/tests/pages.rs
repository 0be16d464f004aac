//! The pages keep up with the sources: those that tools make are what the tools make now, and every name in backquotes
//! on a page is one that the repository has.

use std::collections::BTreeSet;
use std::fs;
use std::path::{Path, PathBuf};
use std::process::Command;

use comparison::lines::is_finding;

/// Texts in backquotes that no rule below takes, each with the reason why it may stand there.
const EXCEPTIONS: &[(&str, &[&str])] = &[
    ("words of the language and of its kit", &["result ≡ definition (inputs)", "s.now", "From", "b.is_ascii_digit()"]),
    (
        "what `rt version` and the gate print",
        &["rattle-kit-13f logic dac8208d650f15bf", "N passed, 0 failed"],
    ),
    (
        "a word of a line of the listing, a reply of the program `answers`, what `deckpack` says",
        &["stray", "departs at P", "NAME: invalid filename"],
    ),
];

/// Words with which a command line begins.
const COMMANDS: &[&str] = &["rt", "cargo", "python3", "truncate", "valgrind"];

/// Words with which a line of a listing begins (docs/LISTING.md).
const LISTED: &[&str] = &["record", "records", "lost", "deck"];

fn repository() -> PathBuf {
    Path::new(env!("CARGO_MANIFEST_DIR")).parent().expect("a repository").to_path_buf()
}

fn text_of(path: &Path) -> String {
    fs::read_to_string(path).unwrap_or_else(|e| panic!("{}: {e}", path.display()))
}

/// All files and folders below a folder, save what is built or belongs to git.
fn paths_below(folder: &Path, found: &mut Vec<PathBuf>) {
    for entry in fs::read_dir(folder).unwrap_or_else(|e| panic!("{}: {e}", folder.display())) {
        let path = entry.expect("a folder's entry").path();
        if ["target", "out", ".git"].iter().any(|built| path.ends_with(built)) {
            continue;
        }
        if path.is_dir() {
            paths_below(&path, found);
        }
        found.push(path);
    }
}

/// Where a path on a page may start: the repository, a crate, its definitions, code or laws.
fn bases() -> Vec<PathBuf> {
    let root = repository();
    let mut bases = vec![root.clone(), root.join("docs"), root.join("crates"), root.join("tests")];
    for entry in fs::read_dir(root.join("crates")).expect("the crates") {
        let path = entry.expect("a folder's entry").path();
        bases.extend(["", "src", "specs", "proofs", "proofs/Laws"].map(|part| path.join(part)));
    }
    bases
}

/// The characters of names: letters and digits of any script, and `_`, `-`.
fn in_name(c: char) -> bool {
    c.is_alphanumeric() || c == '_' || c == '-'
}

/// What a line of a source declares: the name after a word that declares one, or in front of a colon; in our own
/// languages also the first name of the line, which is a constructor, a case of an enum, or the clause of a definition.
fn declared_in(line: &str, is_ours: bool) -> Vec<&str> {
    const KEYWORDS: &[&str] = &[
        "fn",
        "struct",
        "enum",
        "const",
        "mod",
        "record",
        "data",
        "pub",
        "abbrev",
        "unfoldable",
        "def",
        "static",
    ];
    let code = line.split("//").next().unwrap_or("");
    let code = if code.trim_start().starts_with("--") { "" } else { code };
    let names: Vec<&str> = code.split(|c| !in_name(c)).filter(|name| !name.is_empty()).collect();
    let mut declared: Vec<&str> =
        names.windows(2).filter(|pair| KEYWORDS.contains(&pair[0])).map(|pair| pair[1]).collect();
    declared.extend(names.first().filter(|_| is_ours));
    let before_colon = code.match_indices(':').map(|(place, _)| code[..place].trim_end());
    declared.extend(
        before_colon.filter_map(|text| text.rsplit(|c| !in_name(c)).next()).filter(|name| !name.is_empty()),
    );
    declared
}

/// Everything that the repository has a name for: files, folders and edits by their names, with and without what
/// stands behind the dot, and what the sources declare.
fn known_names(paths: &[PathBuf]) -> BTreeSet<String> {
    let mut names = BTreeSet::new();
    for path in paths {
        let whole = path.file_name().expect("a name").to_string_lossy();
        names.insert(whole.split('.').next().unwrap_or("").to_string());
        names.insert(whole.to_string());
        let extension = path.extension().unwrap_or_default().to_string_lossy();
        let is_ours = ["rt", "antt"].contains(&&*extension);
        if is_ours || ["rs", "py", "h"].contains(&&*extension) {
            names.extend(
                text_of(path).lines().flat_map(|line| declared_in(line, is_ours)).map(str::to_string),
            );
        }
    }
    names
}

/// The texts in backquotes of a page, without blocks of code; one may go on in the next line.
fn quoted(page: &str) -> Vec<String> {
    let mut is_code = false;
    let mut text = String::new();
    for line in page.lines() {
        let is_fence = line.starts_with("```");
        is_code ^= is_fence;
        if !is_code && !is_fence && !line.starts_with("    ") {
            text.push_str(line.trim_start());
            text.push(' ');
        }
        if line.trim().is_empty() {
            text.push('\n');
        }
    }
    let paragraphs = text.lines().map(|paragraph| paragraph.split('`').skip(1).step_by(2));
    paragraphs.flatten().map(str::to_string).collect()
}

/// Whether a path fits what is below the base. A name in capitals stands for any, and `*` for a part of one.
fn is_there(base: &Path, pattern: &str) -> bool {
    let (first, rest) = pattern.split_once('/').unwrap_or((pattern, ""));
    let first = if first.chars().all(|c| c.is_ascii_uppercase()) { "*" } else { first };
    let mut found = entries_like(base, first);
    if rest.is_empty() {
        found.next().is_some()
    } else {
        found.any(|path| is_there(&path, rest))
    }
}

/// The entries of a folder whose names begin as the pattern does before its `*`, and end as it does behind.
fn entries_like<'a>(base: &Path, pattern: &'a str) -> impl Iterator<Item = PathBuf> + 'a {
    let (start, end) = pattern.split_once('*').unwrap_or((pattern, ""));
    let is_exact = !pattern.contains('*');
    let entries = fs::read_dir(base).into_iter().flatten().filter_map(Result::ok);
    entries.map(|entry| entry.path()).filter(move |path| {
        let name = path.file_name().unwrap_or_default().to_string_lossy();
        if is_exact {
            name == pattern
        } else {
            name.starts_with(start) && name.ends_with(end)
        }
    })
}

/// Numbers and octets, and what has no name in it at all.
fn is_literal(word: &str) -> bool {
    let is_hex = word.len() <= 4 && word.chars().all(|c| c.is_ascii_digit() || ('A'..='F').contains(&c));
    word.chars().count() == 1 || is_hex || word.starts_with(|c: char| c.is_ascii_digit())
}

/// The rules, in their order. A text may stand if it is
/// - a command line, a program's call or option, or a line of a listing, by its first word;
/// - the line of a finding, whole;
/// - a path: of what is there from one of the bases on, or of what is built (`target/`);
/// - anything else of which each name is declared in the sources, or is that of a file, folder or edit. Words in
///   capitals are placeholders, variables of the environment or constants, and numbers and octets are no names.
fn may_stand(text: &str, names: &BTreeSet<String>, bases: &[PathBuf]) -> bool {
    let first = text.split_whitespace().next().unwrap_or("");
    let several = text.contains(' ');
    if text.contains(" at ") && text.contains(" length ") {
        return is_finding(&format!("  {}", text.trim_start()));
    }
    let is_call = several && (COMMANDS.contains(&first) || LISTED.contains(&first) || is_program(first));
    if is_call || text.starts_with("--") || COMMANDS.contains(&text) || text.starts_with("target/") {
        return true;
    }
    let is_path = !several && (text.contains('/') || text.contains('*'));
    if is_path && text.chars().all(|c| in_name(c) || "/.*+".contains(c)) {
        return bases.iter().any(|base| is_there(base, text.trim_end_matches('/')));
    }
    text.split(|c: char| !in_name(c) && c != '.')
        .map(|word| word.trim_matches('.'))
        .filter(|word| !word.is_empty())
        .all(|word| is_named(word, names))
}

/// Whether this is a program of ours, as one calls it.
fn is_program(word: &str) -> bool {
    let name = word.strip_prefix("bin/").or(word.strip_prefix("tools/")).unwrap_or(word);
    ["bin", "tools"].iter().any(|folder| repository().join(folder).join(name).is_file())
}

fn is_named(word: &str, names: &BTreeSet<String>) -> bool {
    let is_capitals =
        word.len() > 1 && word.chars().all(|c| c.is_ascii_uppercase() || c.is_ascii_digit() || c == '_');
    let parts = || word.split('.').filter(|part| !part.is_empty());
    is_capitals
        || is_literal(word)
        || names.contains(word)
        || parts().all(|part| is_literal(part) || names.contains(part))
}

fn is_exception(text: &str) -> bool {
    EXCEPTIONS.iter().any(|(_, texts)| texts.contains(&text))
}

/// The pages: README.md and docs/*.md, save the one on the port, which sets names of before beside those of today.
fn pages() -> Vec<PathBuf> {
    let root = repository();
    let docs = fs::read_dir(root.join("docs")).expect("docs");
    let mut pages: Vec<PathBuf> = docs.map(|entry| entry.expect("a page").path()).collect();
    pages.retain(|path| path.extension().is_some_and(|e| e == "md") && !path.ends_with("PORT.md") && !path.ends_with("DESIGN-PASS.md"));
    pages.push(root.join("README.md"));
    pages.sort();
    pages
}

/// What a tool prints.
fn made_by(tool: &str) -> String {
    let script = repository().join("tools").join(tool);
    let ended =
        Command::new("python3").arg(&script).output().unwrap_or_else(|e| panic!("python3 {tool}: {e}"));
    assert!(ended.status.success(), "{tool}: {}", String::from_utf8_lossy(&ended.stderr));
    String::from_utf8(ended.stdout).expect("a page in UTF-8")
}

#[test]
fn every_name_on_a_page_is_one_that_we_have() {
    let mut paths = Vec::new();
    paths_below(&repository(), &mut paths);
    let (names, bases) = (known_names(&paths), bases());
    assert!(names.contains("der_soundness") && names.contains("check_der"), "the sources are not read right");
    let mut dead = Vec::new();
    let mut unused: BTreeSet<&str> = EXCEPTIONS.iter().flat_map(|(_, texts)| texts.iter().copied()).collect();
    for page in pages() {
        let texts = quoted(&text_of(&page));
        unused.retain(|exception| !texts.iter().any(|text| text == exception));
        println!("{}: {} texts in backquotes", page.display(), texts.len());
        let unknown = texts.iter().filter(|text| !may_stand(text, &names, &bases) && !is_exception(text));
        dead.extend(
            unknown.map(|text| format!("{}: {text}", page.file_name().unwrap_or_default().to_string_lossy())),
        );
    }
    assert!(dead.is_empty(), "names on pages that nothing in the repository has: {dead:#?}");
    assert!(unused.is_empty(), "exceptions that no page needs: {unused:?}");
}

#[test]
fn contracts_are_as_the_sources_have_them() {
    let page = text_of(&repository().join("docs/CONTRACTS.md"));
    assert!(
        page == made_by("contracts.py"),
        "docs/CONTRACTS.md is not up to date: python3 tools/contracts.py --write"
    );
}

#[test]
fn edits_are_as_the_crates_have_them() {
    let page = text_of(&repository().join("docs/EDITS.md"));
    assert!(page == made_by("edits.py"), "docs/EDITS.md is not up to date: python3 tools/edits.py --write");
}

#[test]
fn the_picture_is_of_the_crates_as_listed() {
    let page = text_of(&repository().join("docs/ARCHITECTURE.md"));
    assert!(
        page.contains(&made_by("layers.py")),
        "docs/ARCHITECTURE.md is not up to date: python3 tools/layers.py --write"
    );
}

#[test]
fn links_lead_to_pages() {
    for page in pages() {
        let text = text_of(&page);
        let folder = page.parent().expect("a folder");
        for (place, _) in text.match_indices("](") {
            let target = text[place + 2..].split(')').next().unwrap_or("");
            assert!(folder.join(target).exists(), "{}: a link to {target}", page.display());
        }
    }
}

#[test]
fn dead_names_are_told() {
    let names = BTreeSet::from(["lint".to_string(), "Answer".to_string(), "at-in".to_string()]);
    let live = [
        "lint",
        "lint::Answer",
        "lint(Answer, 12)",
        "rt check der",
        "lost 32 unsound",
        "  111 at 111 length 36 must",
        "30 80 00 00",
        "at-in",
        "DLO_CASES",
    ];
    let dead = [
        "lints",
        "lint::Answers",
        "lint(answer)",
        "losing",
        "at-on",
        "docs/NOWHERE.md",
        "  111 at 111 length 36",
        "  111 at 111 length 36 should",
    ];
    let bases = [repository()];
    assert!(live.iter().all(|text| may_stand(text, &names, &bases)), "{live:?}");
    assert!(dead.iter().all(|text| !may_stand(text, &names, &bases)), "{dead:?}");
    assert!(may_stand("crates/*/src", &names, &bases) && !may_stand("crates/*/sources", &names, &bases));
    let page = "a `b\nc` d\n\n    `code`\n\n```\n`more`\n```\n- `e`";
    assert_eq!(quoted(page), ["b c", "e"]);
    assert_eq!(declared_in("pub fn f(a: u8) -> u8", false), ["fn", "f", "a"]);
    assert_eq!(declared_in("  more-rows : {r : Row}", true), ["more-rows", "more-rows", "r"]);
    assert!(declared_in("-- a : comment", true).is_empty() && declared_in("// b: comment", true).is_empty());
}
