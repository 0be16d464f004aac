//! `specs/` is what a reader must believe. What only contracts of functions name that no other crate can call stands in
//! `specs/Workings`; no other contract and no other definition names that. Every other definition is reached from a
//! contract that another crate can rely on, or from a statement.

use std::collections::{BTreeMap, BTreeSet};
use std::path::Path;

use comparison::sources::{self, text_of, Function};

/// A definition by its crate, its module below `specs` and its name.
type Key = (String, String, String);

/// What each name stands for in a file.
type Scope = BTreeMap<String, Key>;

fn is_working(key: &Key) -> bool {
    key.1.split('.').next() == Some("Workings")
}

fn shown(key: &Key) -> String {
    format!("{} ({}/specs/{}.antt)", key.2, key.0, key.1.replace('.', "/"))
}

/// The words of a text, but for the fields that it takes of records. Of a path the first part is a word too.
fn words(text: &str) -> BTreeSet<&str> {
    text.split(|c: char| c.is_whitespace() || "(){},;[]".contains(c))
        .filter(|word| !word.is_empty() && !word.starts_with('.'))
        .flat_map(|word| [word, word.split('.').next().unwrap_or(word)])
        .collect()
}

/// The word by which a text uses a name: `and` for `◌and◌`, `for` for `◌for◌⦂◌`.
fn word_of(name: &str) -> &str {
    name.split('◌').find(|part| !part.is_empty()).unwrap_or(name)
}

/// The crate and the module of a path into some crate's `specs`, save the types that its code declares and what is of
/// the library.
fn specs_path(path: &str) -> Option<(&str, &str)> {
    let (owner, module) = path.strip_prefix("Rattle.")?.split_once(".specs.")?;
    Some((owner, module)).filter(|_| owner != "std" && !module.starts_with("declared."))
}

/// All definitions of all crates' specifications, and what each of them names.
struct Definitions {
    texts: BTreeMap<Key, String>,
    names: BTreeMap<Key, BTreeSet<Key>>,
}

impl Definitions {
    /// The files of a specification as (crate, module, text).
    fn of(files: &[(String, String, String)]) -> Definitions {
        let mut definitions = Definitions { texts: BTreeMap::new(), names: BTreeMap::new() };
        for (owner, module, text) in files {
            for definition in sources::definitions_in(text) {
                definitions.texts.insert((owner.clone(), module.clone(), definition.name), definition.text);
            }
        }
        for (owner, module, text) in files {
            let scope = definitions.scope(text, Some((owner, module)));
            let here: Vec<Key> =
                definitions.texts.keys().filter(|key| key.0 == *owner && key.1 == *module).cloned().collect();
            for key in here {
                let names = named_in(&definitions.texts[&key], &scope);
                definitions.names.insert(key, names);
            }
        }
        definitions
    }

    fn read() -> Definitions {
        let mut files = Vec::new();
        for path in sources::crates() {
            let folder = path.join("specs");
            for file in sources::files_below(&folder, "antt") {
                let inner = file.strip_prefix(&folder).expect("a file below it").with_extension("");
                let module = inner.to_string_lossy().replace('/', ".");
                files.push((sources::crate_name(&path), module, text_of(&file)));
            }
        }
        let definitions = Definitions::of(&files);
        println!("{} definitions in {} files", definitions.texts.len(), files.len());
        definitions
    }

    /// What a name that is imported by this path stands for: a definition of that module, or the type whose
    /// constructor it is.
    fn imported(&self, owner: &str, module: &str, name: &str) -> Option<Key> {
        let key = |module: &str, name: &str| (owner.to_string(), module.to_string(), name.to_string());
        let of_type = module.rsplit_once('.').map(|(module, holder)| key(module, holder));
        let defined =
            [Some(key(module, name)), of_type].into_iter().flatten().find(|key| self.texts.contains_key(key));
        let makes = |line: &str| {
            line.split_once(" :").is_some_and(|(made, _)| made.split_whitespace().any(|word| word == name))
        };
        defined.or_else(|| {
            let here = |key: &Key| key.0 == owner && key.1 == module;
            self.texts
                .iter()
                .find(|(key, text)| here(key) && text.lines().any(makes))
                .map(|(key, _)| key.clone())
        })
    }

    /// What the names of a file stand for that it defines itself, if it is the specification `own`, or imports. An
    /// import that stands for nothing says that the files are not read right.
    fn scope(&self, text: &str, own: Option<(&str, &str)>) -> Scope {
        let mut scope = Scope::new();
        for key in self.texts.keys().filter(|key| own == Some((key.0.as_str(), key.1.as_str()))) {
            scope.insert(word_of(&key.2).to_string(), key.clone());
        }
        let imports = text
            .lines()
            .filter_map(|line| line.strip_prefix("ghost use ").or_else(|| line.strip_prefix("use ")));
        for import in imports.map(|import| import.trim_end_matches(';')) {
            if let Some((path, alias)) = import.split_once(" as ").filter(|_| !import.contains('{')) {
                for key in
                    self.texts.keys().filter(|key| specs_path(path) == Some((key.0.as_str(), key.1.as_str())))
                {
                    scope.insert(format!("{alias}.{}", key.2), key.clone());
                }
            }
            let Some((path, names)) = import.split_once(".{") else { continue };
            let Some((owner, module)) = specs_path(path) else { continue };
            for name in names.trim_end_matches('}').split(',').map(str::trim) {
                let (name, alias) = name.split_once(" as ").unwrap_or((name, name));
                let key = self.imported(owner, module, name);
                let key = key
                    .unwrap_or_else(|| panic!("{path} has no {name}: the specifications are not read right"));
                scope.insert(word_of(alias).to_string(), key);
            }
        }
        scope
    }

    /// What can be got to from these, themselves among it.
    fn reached(&self, roots: BTreeSet<Key>) -> BTreeSet<Key> {
        let mut open: Vec<Key> = roots.into_iter().collect();
        let mut reached = BTreeSet::new();
        while let Some(key) = open.pop() {
            open.extend(
                self.names.get(&key).into_iter().flatten().filter(|next| !reached.contains(*next)).cloned(),
            );
            reached.insert(key);
        }
        reached
    }
}

/// What the text names of a scope.
fn named_in(text: &str, scope: &Scope) -> BTreeSet<Key> {
    words(text).into_iter().filter_map(|word| scope.get(word)).cloned().collect()
}

/// Whether another crate can call a function of this crate: it is written in `lib.rt`, is handed on there, or is a
/// method of a type that is. Nothing calls a program; of its functions those count that its files show each other.
fn is_offered(crate_folder: &Path, function: &Function) -> bool {
    let root = crate_folder.join("src/lib.rt");
    if !function.is_public || !root.is_file() || function.file == root || function.is_method {
        return function.is_public;
    }
    handed_on(&text_of(&root)).contains(&function.name.as_str())
}

/// The names that a source hands on: `pub use a::b;` and `pub use a::{b, c};`, which may go on over lines.
fn handed_on(text: &str) -> Vec<&str> {
    let items = text.split("\npub use ").skip(1).filter_map(|rest| rest.split(';').next());
    let names = items.filter_map(|item| item.split_once("::")).flat_map(|(_, names)| names.split(','));
    names.map(|name| name.trim_matches(|c: char| c.is_whitespace() || "{}".contains(c))).collect()
}

/// The contracts of one crate's functions: whether another crate can call the function, its name, what its contract
/// names. A crate with none has no code.
fn contracts(definitions: &Definitions, crate_folder: &Path) -> Vec<(bool, String, BTreeSet<Key>)> {
    let mut contracts = Vec::new();
    for file in sources::files_below(&crate_folder.join("src"), "rt") {
        let scope = definitions.scope(&text_of(&file), None);
        for function in sources::functions_of(&file) {
            let named = named_in(function.clauses(), &scope);
            contracts.push((is_offered(crate_folder, &function), function.shown(), named));
        }
    }
    contracts
}

/// The definitions that docs/STATEMENTS.md names, with their files.
fn stated(definitions: &Definitions, page: &str) -> BTreeSet<Key> {
    let quoted: BTreeSet<&str> = page.split('`').skip(1).step_by(2).collect();
    let is_stated = |key: &&Key| {
        let file = format!("crates/{}/specs/{}.antt", key.0, key.1.replace('.', "/"));
        quoted.contains(key.2.as_str()) && quoted.contains(file.as_str())
    };
    definitions.texts.keys().filter(is_stated).cloned().collect()
}

/// The roots of what a reader must believe: what offered contracts name, all definitions of crates with no code, and
/// what docs/STATEMENTS.md names.
fn roots(definitions: &Definitions) -> BTreeSet<Key> {
    let mut roots = stated(definitions, &text_of(&sources::repository().join("docs/STATEMENTS.md")));
    for folder in sources::crates() {
        let contracts = contracts(definitions, &folder);
        if contracts.is_empty() {
            let name = sources::crate_name(&folder);
            roots.extend(definitions.texts.keys().filter(|key| key.0 == name).cloned());
        }
        roots
            .extend(contracts.into_iter().filter(|(offered, _, _)| *offered).flat_map(|(_, _, named)| named));
    }
    roots
}

#[test]
fn no_offered_contract_names_a_working() {
    let definitions = Definitions::read();
    let mut bad = Vec::new();
    let mut inner = 0;
    for (offered, name, named) in sources::crates().iter().flat_map(|folder| contracts(&definitions, folder))
    {
        let workings: Vec<String> = named.iter().filter(|key| is_working(key)).map(shown).collect();
        inner += usize::from(!offered && !workings.is_empty());
        if offered && !workings.is_empty() {
            bad.push(format!("{name} names {workings:?}"));
        }
    }
    println!("{inner} contracts of inner functions name workings");
    assert!(inner > 0, "the contracts are not read right");
    assert!(bad.is_empty(), "contracts that another crate can rely on name workings: {bad:#?}");
}

#[test]
fn no_other_definition_names_a_working() {
    let definitions = Definitions::read();
    let mut bad = Vec::new();
    for (key, names) in definitions.names.iter().filter(|(key, _)| !is_working(key)) {
        bad.extend(
            names
                .iter()
                .filter(|name| is_working(name))
                .map(|name| format!("{} names {}", shown(key), shown(name))),
        );
    }
    assert!(bad.is_empty(), "definitions that a reader must believe name workings: {bad:#?}");
}

#[test]
fn every_other_definition_is_reached_from_a_contract_or_a_statement() {
    let definitions = Definitions::read();
    let reached = definitions.reached(roots(&definitions));
    let bad: Vec<String> = definitions
        .texts
        .keys()
        .filter(|key| !is_working(key) && !reached.contains(*key))
        .map(shown)
        .collect();
    assert!(bad.is_empty(), "no contract and no statement needs these, so they belong elsewhere: {bad:#?}");
}

#[test]
fn every_working_is_named_by_a_contract() {
    let definitions = Definitions::read();
    let all = sources::crates().into_iter().flat_map(|folder| contracts(&definitions, &folder));
    let reached = definitions.reached(all.flat_map(|(_, _, named)| named).collect());
    let bad: Vec<String> = definitions
        .texts
        .keys()
        .filter(|key| is_working(key) && !reached.contains(*key))
        .map(shown)
        .collect();
    assert!(bad.is_empty(), "no contract names these, so they are for proofs alone: {bad:#?}");
}

#[test]
fn what_a_definition_names_is_told() {
    let file =
        |owner: &str, module: &str, text: &str| (owner.to_string(), module.to_string(), text.to_string());
    let definitions = Definitions::of(&[
        file("a", "One", "pub data Kind : Type 0 where\n  made : Kind\n\npub ◌and◌ : ℕ\n◌and◌ a b = a\n"),
        file(
            "a",
            "Workings.Two",
            "use Rattle.std.specs.Prelude.{ℕ}\nuse Rattle.a.specs.One.{◌and◌ as ◌both◌}\npub way : ℕ\nway = 1 both 2 -- other\n",
        ),
        file(
            "b",
            "Three",
            "use Rattle.a.specs.Workings.Two.{way}\nuse Rattle.a.specs.One.Kind.{made}\n\
            pub other : ℕ\nother = x.way + (f x).way\n\npub last : ℕ\nlast = f made (way)\n",
        ),
    ]);
    let key =
        |owner: &str, module: &str, name: &str| (owner.to_string(), module.to_string(), name.to_string());
    let names = |k: &Key| definitions.names[k].iter().map(|key| key.2.as_str()).collect::<Vec<_>>();
    assert_eq!(names(&key("a", "Workings.Two", "way")), ["◌and◌", "way"]);
    assert_eq!(names(&key("b", "Three", "other")), ["other"]);
    assert_eq!(names(&key("b", "Three", "last")), ["Kind", "way", "last"]);
    assert!(is_working(&key("a", "Workings.Two", "way")) && !is_working(&key("b", "Three", "last")));
    let reached = definitions.reached(BTreeSet::from([key("b", "Three", "last")]));
    assert_eq!(reached.len(), 4, "{reached:?}");
    assert_eq!(
        handed_on("mod a;\npub use a::b;\npub use c::{d,\n    e,\n};\nuse f::g;\n"),
        ["b", "d", "e", ""]
    );
    let page = "`other` (`crates/b/specs/Three.antt`), `way` of nowhere";
    assert_eq!(stated(&definitions, page), BTreeSet::from([key("b", "Three", "other")]));
}
