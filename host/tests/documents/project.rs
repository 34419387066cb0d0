//! Which definition rests on which: a definition rests on every name in its own text that is
//! imported from a spec file of ours or from the toolchain's library, or defined in the same file.

use std::collections::{BTreeMap, BTreeSet};

use crate::antt::{self, Declaration, Import, Kind, Part, Source};
use crate::files;
use crate::rust::{self, Type};

/// Words and signs of the language itself, which no file defines.
const LANGUAGE: [&str; 11] = [
    "record", "data", "module", "where", "Type", "let", "in", "×", "¬", "Σ", "⊥",
];

/// A name, with the file or the module of the library that defines it.
#[derive(Clone, PartialEq, Eq, PartialOrd, Ord, Debug)]
pub enum Name {
    Ours { path: String, name: String },
    Library { module: String, name: String },
}

impl Name {
    pub fn name(&self) -> &str {
        match self {
            Name::Ours { name, .. } | Name::Library { name, .. } => name,
        }
    }
}

pub struct Project {
    crates: Vec<String>,
    specs: BTreeMap<String, Source>,
    codes: BTreeMap<String, Code>,
}

/// The types that a crate's code declares, and those that it uses.
struct Code {
    types: Vec<Type>,
    uses: Vec<(String, String)>,
}

/// What a word stands for, and whether a pattern may have it.
struct Meaning {
    name: Name,
    in_pattern: bool,
}

pub fn code_path(krate: &str) -> String {
    format!("crates/{krate}/src/lib.rt")
}

/// The spec files of a crate, in the order in which it lists them.
pub fn spec_paths(krate: &str) -> Vec<String> {
    let list = format!("crates/{krate}/specs/Lib.antt");
    if !files::exists(&list) {
        return Vec::new();
    }
    let list = files::text(&list);
    let files = list
        .lines()
        .filter_map(|line| line.strip_prefix("pub mod "));
    files
        .map(|file| format!("crates/{krate}/specs/{file}.antt"))
        .collect()
}

/// A file in which every line is understood.
pub fn read_whole(path: &str) -> Source {
    let source = antt::read(path);
    assert!(source.unread.is_empty(), "{path}: {:?}", source.unread);
    source
}

impl Project {
    pub fn read() -> Self {
        let crates = files::crates();
        let specs = crates.iter().flat_map(|krate| spec_paths(krate));
        let specs = specs
            .map(|path| (path.clone(), read_whole(&path)))
            .collect();
        let codes = crates
            .iter()
            .map(|krate| code_path(krate))
            .filter(|path| files::exists(path));
        let codes = codes
            .map(|path| (path.clone(), Code::read(&path)))
            .collect();
        Project {
            crates,
            specs,
            codes,
        }
    }

    /// Everything that the roots rest on, and the roots.
    pub fn closure(&self, roots: Vec<Name>) -> BTreeSet<Name> {
        let mut found = BTreeSet::new();
        let mut waiting = roots;
        while let Some(name) = waiting.pop() {
            if found.insert(name.clone()) {
                waiting.extend(self.rests_on(&name));
            }
        }
        found
    }

    /// The names of a file, in its order.
    pub fn names_of(&self, path: &str) -> Vec<&str> {
        if let Some(code) = self.codes.get(path) {
            return code.types.iter().map(|t| t.name.as_str()).collect();
        }
        let declarations = self.specs.get(path).map(|source| &source.declarations);
        declarations
            .into_iter()
            .flatten()
            .map(|d| d.name.as_str())
            .collect()
    }

    /// The definitions of a spec file whose type is `Type 0`: statements.
    pub fn statements_of(&self, path: &str) -> Vec<&str> {
        let is_statement = |d: &&Declaration| {
            let signature = d.parts.iter().find(|part| !part.is_clause());
            d.kind == Kind::Definition
                && signature
                    .is_some_and(|part| part.outer.is_empty() && part.words == [":", "Type", "0"])
        };
        let declarations = self.specs[path].declarations.iter();
        declarations
            .filter(is_statement)
            .map(|d| d.name.as_str())
            .collect()
    }

    fn rests_on(&self, name: &Name) -> Vec<Name> {
        let Name::Ours { path, name } = name else {
            return Vec::new();
        };
        if let Some(code) = self.codes.get(path) {
            return code.rests_on(path, name);
        }
        let source = &self.specs[path];
        let declaration = source
            .declaration(name)
            .unwrap_or_else(|| panic!("{path} has no {name}"));
        let parts = declaration.parts.iter();
        parts
            .flat_map(|part| self.names_in(part, path, source))
            .collect()
    }

    /// The names in a part of a file's text.
    pub fn names_in(&self, part: &Part, path: &str, source: &Source) -> Vec<Name> {
        let mut bound = part.bound();
        let mut names = Vec::new();
        for word in part.patterns.iter().filter(|word| antt::is_name(word)) {
            match self.meaning(word, path, source) {
                Some(meaning) if meaning.in_pattern => names.push(meaning.name),
                _ => bound.push(word),
            }
        }
        for word in [part.outer.as_slice(), &part.words]
            .into_iter()
            .flat_map(unlabelled)
        {
            if bound.contains(&word) || LANGUAGE.contains(&word) {
                continue;
            }
            match self.meaning(word, path, source) {
                Some(meaning) => names.push(meaning.name),
                None => panic!("{path}: where does `{word}` come from?"),
            }
        }
        names
    }

    fn meaning(&self, word: &str, path: &str, source: &Source) -> Option<Meaning> {
        if let Some(found) = owner(source, word) {
            let in_pattern = found.kind == Kind::Data && found.name != word;
            let name = Name::Ours {
                path: path.to_string(),
                name: found.name.clone(),
            };
            return Some(Meaning { name, in_pattern });
        }
        let import = source
            .imports
            .iter()
            .find(|import| stands_for(&import.name, word))?;
        Some(self.imported(import))
    }

    /// `Rattle.crate.inside`: the crate, if it is one of ours, and what comes behind it.
    fn ours<'a>(&self, module: &'a str) -> Option<(&'a str, &'a str)> {
        let (krate, inside) = module.strip_prefix("Rattle.")?.split_once('.')?;
        let is_ours = self.crates.iter().any(|ours| ours == krate);
        is_ours.then_some((krate, inside))
    }

    /// Where an imported name is defined.
    pub fn imported_name(&self, import: &Import) -> Name {
        self.imported(import).name
    }

    /// In a pattern, whatever the library has is taken for a constructor.
    fn imported(&self, Import { module, name }: &Import) -> Meaning {
        let Some((krate, inside)) = self.ours(module) else {
            let (module, name) = (module.clone(), name.clone());
            return Meaning {
                name: Name::Library { module, name },
                in_pattern: true,
            };
        };
        let file = inside
            .strip_prefix("specs.")
            .unwrap_or_else(|| panic!("{module} is no spec file"));
        if let Some(declared) = file.strip_prefix("declared.") {
            let (name, in_pattern) = match declared.split_once('.') {
                Some((name, _)) => (name, true),
                None => (declared, false),
            };
            let (path, name) = (code_path(krate), name.to_string());
            return Meaning {
                name: Name::Ours { path, name },
                in_pattern,
            };
        }
        let path = format!("crates/{krate}/specs/{file}.antt");
        let source = self.specs.get(&path).unwrap_or_else(|| panic!("no {path}"));
        self.meaning(name, &path, source)
            .unwrap_or_else(|| panic!("{path} has no {name}"))
    }
}

impl Code {
    fn read(path: &str) -> Self {
        let text = rust::read(path);
        Code {
            types: rust::types(&text),
            uses: rust::uses(&text),
        }
    }

    /// The types in a type's fields.
    fn rests_on(&self, path: &str, name: &str) -> Vec<Name> {
        let found = self.types.iter().find(|t| t.name == name);
        let body = &found
            .unwrap_or_else(|| panic!("{path} declares no {name}"))
            .body;
        let ours = |path: String, name: &str| Name::Ours {
            path,
            name: name.to_string(),
        };
        let own = self.types.iter().filter(|t| body.contains(&t.name));
        let own = own.map(|t| ours(path.to_string(), &t.name));
        let used = self.uses.iter().filter(|(name, _)| body.contains(name));
        let used = used.map(|(name, krate)| ours(code_path(krate), name));
        own.chain(used).collect()
    }
}

/// The declaration that has the word as its name or as a constructor.
fn owner<'a>(source: &'a Source, word: &str) -> Option<&'a Declaration> {
    let constructs = |d: &&Declaration| d.kind == Kind::Data && d.members.iter().any(|m| m == word);
    source
        .declaration(word)
        .or_else(|| source.declarations.iter().find(constructs))
}

/// Whether a word is a name or, as `+` of `◌+◌`, a part of it.
fn stands_for(name: &str, word: &str) -> bool {
    name == word || (name.contains('◌') && name.split('◌').any(|part| part == word))
}

/// The names among words, without the labels of `record { label = ..; .. }`.
fn unlabelled(words: &[String]) -> Vec<&str> {
    let is_label = |i: usize| {
        let after = words.get(i + 1).is_some_and(|word| word == "=");
        after && i > 0 && (words[i - 1] == "{" || words[i - 1] == ";")
    };
    let names = words
        .iter()
        .enumerate()
        .filter(|(i, word)| antt::is_name(word) && !is_label(*i));
    names.map(|(_, word)| word.as_str()).collect()
}
