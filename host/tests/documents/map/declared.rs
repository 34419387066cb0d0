//! What the sources declare, and where.

use std::collections::{BTreeMap, BTreeSet};
use std::fmt;
use std::sync::OnceLock;

use crate::antt::{self, Source};
use crate::files;
use crate::rust;

/// Where a name is looked for.
#[derive(Clone)]
pub enum Scope {
    Crate(String),
    File(String),
    /// The tests of a file.
    Tests(String),
    /// An edit, an example or a folder has no names.
    Nothing(String),
}

impl fmt::Display for Scope {
    fn fmt(&self, f: &mut fmt::Formatter) -> fmt::Result {
        let (Scope::Crate(at) | Scope::File(at) | Scope::Tests(at) | Scope::Nothing(at)) = self;
        write!(f, "{at}")
    }
}

#[derive(Default)]
pub struct Declared {
    crates: Vec<String>,
    listed_crates: Vec<String>,
    /// Specs and proofs.
    sources: BTreeMap<String, Source>,
    /// The names of each file, its functions and its tests.
    names: BTreeMap<String, BTreeSet<String>>,
    functions: BTreeMap<String, Vec<String>>,
    tests: BTreeMap<String, Vec<String>>,
}

impl Declared {
    /// The sources, read once for all tests.
    pub fn read() -> &'static Self {
        static READ: OnceLock<Declared> = OnceLock::new();
        READ.get_or_init(Declared::read_all)
    }

    fn read_all() -> Self {
        let mut declared = Declared {
            crates: files::crates(),
            listed_crates: files::listed_crates(),
            ..Declared::default()
        };
        for krate in declared.crates.clone() {
            for folder in ["specs", "proofs"] {
                declared.read_sources(&format!("crates/{krate}/{folder}"));
            }
            declared.read_code(&format!("crates/{krate}/src"), ".rt");
        }
        declared.read_code("host/src", ".rs");
        declared.read_code("host/tests", ".rs");
        declared
    }

    /// The files of a folder in `.antt`; what stands in folders below it belongs to one function's
    /// proof.
    fn read_sources(&mut self, folder: &str) {
        for stem in files::stems(folder, ".antt") {
            let path = format!("{folder}/{stem}.antt");
            let source = antt::read(&path);
            let all = source.declarations.iter();
            let names = all
                .flat_map(|d| d.members.iter().chain([&d.name]))
                .cloned()
                .collect();
            self.names.insert(path.clone(), names);
            self.sources.insert(path, source);
        }
    }

    fn read_code(&mut self, folder: &str, ending: &str) {
        for path in files::under(folder, &[ending]) {
            let text = rust::read(&path);
            self.names
                .insert(path.clone(), rust::names(&text).into_iter().collect());
            self.functions.insert(path.clone(), rust::functions(&text));
            self.tests.insert(path, rust::tests(&text));
        }
    }

    pub fn is_crate(&self, word: &str) -> bool {
        self.crates.iter().any(|krate| krate == word)
    }

    /// What a word with a slash or with the ending `.rs` names.
    pub fn place(&self, word: &str) -> Option<Scope> {
        let tests = ["host/tests", "host/src"].map(|folder| format!("{folder}/{word}"));
        if let Some(path) = tests.into_iter().find(|path| self.tests.contains_key(path)) {
            return Some(Scope::Tests(path));
        }
        let (krate, name) = word.split_once('/')?;
        let spec = format!("crates/{krate}/specs/{name}.antt");
        if self.sources.contains_key(&spec) {
            return Some(Scope::File(spec));
        }
        if self.names.contains_key(word) {
            return Some(Scope::File(word.to_string()));
        }
        let edit = format!("crates/{krate}/must-fail/{name}.edit");
        let example =
            files::exists(&format!("{word}.book")) && files::exists(&format!("{word}.txt"));
        let found = files::exists(&edit) || example || files::exists(word);
        found.then(|| Scope::Nothing(word.to_string()))
    }

    /// A path in backticks: from the root, or from a crate's folder.
    pub fn file(&self, word: &str, scopes: &[Scope]) -> Option<Scope> {
        let of_scopes = scopes.iter().filter_map(|scope| match scope {
            Scope::Crate(krate) => Some(krate),
            _ => None,
        });
        let crates = if scopes.is_empty() {
            self.crates.iter().collect()
        } else {
            of_scopes.collect::<Vec<_>>()
        };
        let inside = crates
            .into_iter()
            .map(|krate| format!("crates/{krate}/{word}"));
        let path = [word.to_string()]
            .into_iter()
            .chain(inside)
            .find(|path| files::exists(path))?;
        Some(match self.names.contains_key(&path) {
            true => Scope::File(path),
            false => Scope::Nothing(path),
        })
    }

    /// A function of a crate's code; with a star at its end, some that begin so.
    pub fn has_function(&self, krate: &str, function: &str) -> bool {
        let folder = format!("crates/{krate}/src/");
        let mut named = self
            .functions
            .iter()
            .filter(|(path, _)| path.starts_with(&folder))
            .flat_map(|(_, f)| f);
        match function.strip_suffix('*') {
            Some(start) => named.any(|name| name.starts_with(start)),
            None => named.any(|name| name == function),
        }
    }

    /// A crate, ours or one that ours use, a spec file or something declared.
    pub fn anywhere(&self, name: &str) -> bool {
        let spec = format!("/specs/{name}.antt");
        self.listed_crates.iter().any(|krate| krate == name)
            || self.sources.keys().any(|path| path.ends_with(&spec))
            || self.names.values().any(|names| names.contains(name))
    }

    pub fn has(&self, scope: &Scope, name: &str) -> bool {
        match scope {
            Scope::Crate(krate) => {
                let folder = format!("crates/{krate}/");
                let mut files = self
                    .names
                    .iter()
                    .filter(|(path, _)| path.starts_with(&folder));
                files.any(|(_, names)| names.contains(name))
            }
            Scope::File(path) => self.names[path].contains(name),
            Scope::Tests(path) => self.tests[path].iter().any(|test| test == name),
            Scope::Nothing(_) => false,
        }
    }

    /// Whether the crate's proofs prove a statement, or have a law or a case of this name.
    pub fn proves(&self, krate: &str, name: &str) -> bool {
        let folder = format!("crates/{krate}/proofs/");
        let files = self
            .sources
            .iter()
            .filter(|(path, _)| path.starts_with(&folder));
        let mut laws = files.flat_map(|(_, source)| &source.declarations);
        match name.starts_with(char::is_uppercase) {
            true => laws.any(|law| law.parts[0].words == [":", name]),
            false => laws.any(|law| law.name == name),
        }
    }

    /// A file or a folder of a crate: `crate/File` for a spec file, else by its path there.
    pub fn is_file(&self, word: &str) -> bool {
        let path = format!("crates/{word}");
        self.place(word).is_some() || files::exists(&path) || files::exists(&(path + ".antt"))
    }

    /// Whether a word occurs in the text of a name.
    pub fn mentions(&self, scope: &Scope, owner: &str, word: &str) -> bool {
        let folder = match scope {
            Scope::Crate(krate) => format!("crates/{krate}/"),
            Scope::File(path) => path.clone(),
            _ => return false,
        };
        let files = self
            .sources
            .iter()
            .filter(|(path, _)| path.starts_with(&folder));
        let mut owners = files
            .flat_map(|(_, s)| &s.declarations)
            .filter(|d| d.name == owner);
        owners.any(|d| d.mentions(word))
    }
}
