//! The sources of the proved crates, read as text: their files, their functions with what they ensure, and their
//! definitions.

use std::fs;
use std::path::{Path, PathBuf};

pub fn repository() -> PathBuf {
    Path::new(env!("CARGO_MANIFEST_DIR"))
        .parent()
        .expect("the package stands in the repository")
        .to_path_buf()
}

pub fn text_of(path: &Path) -> String {
    fs::read_to_string(path).unwrap_or_else(|e| panic!("{}: {e}", path.display()))
}

/// The folders of the crates, sorted.
pub fn crates() -> Vec<PathBuf> {
    let folder = repository().join("crates");
    let entries = fs::read_dir(&folder).unwrap_or_else(|e| panic!("{}: {e}", folder.display()));
    let mut paths: Vec<PathBuf> = entries.map(|entry| entry.expect("a folder's entry").path()).collect();
    paths.sort();
    paths
}

/// The name of a crate, by its folder.
pub fn crate_name(folder: &Path) -> String {
    folder.file_name().expect("a crate has a name").to_string_lossy().into_owned()
}

/// The files below a folder with this extension, sorted, without what is built; none where the folder is not there.
pub fn files_below(folder: &Path, extension: &str) -> Vec<PathBuf> {
    let mut found = Vec::new();
    if folder.is_dir() {
        collect(folder, extension, &mut found);
    }
    found.sort();
    found
}

fn collect(folder: &Path, extension: &str, found: &mut Vec<PathBuf>) {
    for entry in fs::read_dir(folder).unwrap_or_else(|e| panic!("{}: {e}", folder.display())) {
        let path = entry.expect("a folder's entry").path();
        if path.is_dir() {
            if !path.ends_with("out") {
                collect(&path, extension, found);
            }
        } else if path.extension().is_some_and(|e| e == extension) {
            found.push(path);
        }
    }
}

/// The name that the text begins with, after these words, of which some may be missing.
pub fn name_after<'a>(words: &[&str], text: &'a str) -> &'a str {
    let rest = words.iter().fold(text, |rest, word| rest.strip_prefix(word).unwrap_or(rest));
    rest.split(|c: char| c.is_whitespace() || ":({".contains(c)).next().unwrap_or("")
}

/// A public definition of a specification: its name, and its text up to the next one.
#[derive(Debug, PartialEq)]
pub struct Definition {
    pub name: String,
    pub text: String,
}

/// The public definitions of a specification: `pub`, `abbrev pub`, `unfoldable pub`, of a record and of a type too. They
/// start their line; in a `mutual` group they stand two blanks to the right, as a record's fields do elsewhere.
pub fn definitions_in(text: &str) -> Vec<Definition> {
    let mut definitions: Vec<Definition> = Vec::new();
    let mut is_mutual = false;
    for line in text.lines().filter(|line| !line.trim_start().starts_with("--")) {
        if line.starts_with(|c: char| !c.is_whitespace()) {
            is_mutual = line.ends_with("mutual");
        }
        let start = line.strip_prefix("  ").filter(|_| is_mutual).unwrap_or(line);
        let start =
            ["abbrev ", "unfoldable "].iter().find_map(|word| start.strip_prefix(word)).unwrap_or(start);
        if let Some(definition) = start.strip_prefix("pub ").filter(|rest| !rest.starts_with("mod ")) {
            let name = name_after(&["record ", "data "], definition).to_string();
            definitions.push(Definition { name, text: String::new() });
        }
        if let Some(definition) = definitions.last_mut() {
            definition.text.push_str(line.split(" -- ").next().unwrap_or(line));
            definition.text.push('\n');
        }
    }
    definitions
}

/// A function as its source has it: the text of its head, up to the body.
pub struct Function {
    pub file: PathBuf,
    pub name: String,
    /// Whether its source says `pub`.
    pub is_public: bool,
    /// Whether it stands in an `impl`.
    pub is_method: bool,
    pub head: String,
}

impl Function {
    /// Whether the head has a clause of this kind.
    pub fn has_clause(&self, kind: &str) -> bool {
        self.head.split(|c: char| !c.is_alphanumeric() && c != '_').any(|word| word == kind)
    }

    /// The head up to its first clause.
    pub fn signature(&self) -> &str {
        let signature = self.head.split("requires").next().unwrap_or("");
        signature.split("ensures").next().unwrap_or("")
    }

    /// What it requires and ensures.
    pub fn clauses(&self) -> &str {
        &self.head[self.signature().len()..]
    }

    pub fn shown(&self) -> String {
        format!("{}: {}", self.file.display(), self.name)
    }
}

/// The source without its comments.
fn code_of(text: &str) -> String {
    text.lines().map(|line| line.split("//").next().unwrap_or("")).collect::<Vec<_>>().join("\n")
}

/// The length of the group in braces that `text` begins with.
fn group_length(text: &str) -> usize {
    let mut depth = 0usize;
    for (place, c) in text.char_indices() {
        match c {
            '{' => depth += 1,
            '}' => depth -= 1,
            _ => {}
        }
        if depth == 0 {
            return place + 1;
        }
    }
    text.len()
}

/// The head of the function whose name and parameters `text` begins with: all before the brace that opens its body.
/// A brace that follows `requires`, `ensures` or a clause's name opens a clause.
pub fn head_of(text: &str) -> &str {
    let mut end = 0;
    while let Some(open) = text[end..].find('{') {
        let before = &text[end..end + open];
        let mut words = before.split_whitespace().rev();
        let opens = |word: &str| ["requires", "ensures"].contains(&word.trim_end_matches('*'));
        let opens_clause = words.next().is_some_and(opens) || words.next().is_some_and(opens);
        if !opens_clause {
            return &text[..end + open];
        }
        end += open + group_length(&text[end + open..]);
    }
    text
}

pub fn functions_of(file: &Path) -> Vec<Function> {
    let code = code_of(&text_of(file));
    let mut functions = Vec::new();
    for (place, _) in code.match_indices("fn ") {
        let line = &code[code[..place].rfind('\n').map_or(0, |end| end + 1)..place];
        if !line.trim().is_empty() && !line.trim().starts_with("pub") {
            continue;
        }
        let head = head_of(&code[place..]);
        let name =
            head[3..].split(|c: char| !c.is_alphanumeric() && c != '_').next().unwrap_or("").to_string();
        let is_public = line.trim().starts_with("pub");
        let is_method = line.starts_with(' ');
        functions.push(Function {
            file: file.to_path_buf(),
            name,
            is_public,
            is_method,
            head: head.to_string(),
        });
    }
    functions
}
