//! docs/SPECIFICATION-MAP.md: every name in it exists, and every must-fail edit stands in it.
//!
//! A name is what stands in backticks and is an identifier, a `crate::function` or a path, and
//! outside backticks every word with a slash or with the ending `.rs`; anything else in backticks is
//! an expression. The first column of a table has the specification's words, and no names.
//!
//! Where a name must be declared, the words before it say, up to a semicolon:
//! - `crate/File`: in that spec file, as a definition, a field or a constructor;
//! - a crate, directly before the name: in its specs, its proofs or its code;
//! - `file.rs`: in that file, as a test; a path in backticks: in that file;
//! - nothing: anywhere; but contracts and theorems are named with their crates.
//!
//! In parentheses it may also be a word of the text of the name before them. A theorem is proved: its
//! crate's proofs have it as the type of a definition, or, in small letters, as a definition.

mod declared;
mod words;

use std::collections::BTreeSet;

use crate::files;
use declared::{Declared, Scope};
use words::Word;

const MAP: &str = "docs/SPECIFICATION-MAP.md";
const ARCHITECTURE: &str = "docs/ARCHITECTURE.md";
const README: &str = "README.md";
const OPERATIONS: &str = "docs/OPERATIONS.md";

/// Words of README that are commands, the environment's, the language's or the host's.
const OTHERS: [&str; 6] = [
    "rt",
    "cargo",
    "flock",
    "CAGVOST_LIB",
    "requires",
    "cagvost::Refusal",
];

/// What the head of the map uses to explain itself, and two words of the language.
const NO_NAMES: [&str; 10] = [
    "name",
    "Name",
    "file.rs",
    "crate/File",
    "crate/edit",
    "examples/NAME",
    "crates/CRATE/specs/File.antt",
    "crates/CRATE/must-fail/edit.edit",
    "requires",
    "ensures",
];

#[test]
fn every_name_in_the_map_exists() {
    let declared = Declared::read();
    let mut faults = Vec::new();
    for (i, line) in files::text(MAP).lines().enumerate() {
        for (cell, column) in cells(line) {
            let mut walk = Walk::new(declared, column);
            for pair in words::words(cell).windows(2) {
                walk.step(&pair[0], &pair[1]);
            }
            let found = walk.faults.into_iter();
            faults.extend(found.map(|fault| format!("{MAP}:{}: {fault}", i + 1)));
        }
    }
    assert!(faults.is_empty(), "{}", faults.join("\n"));
}

#[test]
fn every_must_fail_edit_stands_in_the_map() {
    let map = files::text(MAP);
    let words = map
        .lines()
        .flat_map(cells)
        .flat_map(|(cell, _)| words::words(cell));
    let named: BTreeSet<String> = words.filter_map(Word::plain).collect();
    let crates = files::crates();
    let edits = crates.iter().flat_map(|krate| {
        let edits = files::stems(&format!("crates/{krate}/must-fail"), ".edit");
        edits.into_iter().map(move |edit| format!("{krate}/{edit}"))
    });
    let missing: Vec<String> = edits.filter(|edit| !named.contains(edit)).collect();
    assert!(missing.is_empty(), "not in {MAP}: {}", missing.join(", "));
}

/// These documents name fewer things, and say less of where they are: anywhere, or as a file.
#[test]
fn every_name_in_architecture_readme_and_operations_exists() {
    for path in [ARCHITECTURE, README, OPERATIONS] {
        let missing = missing_names(&files::text(path));
        assert!(missing.is_empty(), "{path}: {missing:?}");
    }
}

fn missing_names(text: &str) -> Vec<Word> {
    let declared = Declared::read();
    let exists = |word: &Word| match word {
        Word::Plain(word) => match word.split_once('/') {
            Some((krate, _)) if declared.is_crate(krate) => declared.is_file(word),
            _ => true,
        },
        Word::Quoted(word) if OTHERS.contains(&word.as_str()) => true,
        Word::Quoted(word) => match words::as_function(word) {
            Some((krate, function)) => declared.has_function(krate, function),
            None if words::is_path(word) => {
                declared.is_file(word) || declared.file(word, &[]).is_some()
            }
            None if words::is_identifier(word) => declared.anywhere(word),
            None => true,
        },
        _ => true,
    };
    let words = words::words(text).into_iter();
    words.filter(|word| !exists(word)).collect()
}

/// What a cell has.
#[derive(Clone, Copy, PartialEq, Eq)]
enum Column {
    Contracts,
    Theorems,
    Other,
}

/// The cells of a line that have names.
fn cells(line: &str) -> Vec<(&str, Column)> {
    let Some(row) = line.strip_prefix("| ") else {
        return vec![(line, Column::Other)];
    };
    let column = |number: usize| match number {
        2 => Column::Contracts,
        3 => Column::Theorems,
        _ => Column::Other,
    };
    let cells = row.trim_end_matches('|').split('|').enumerate().skip(1);
    cells.map(|(number, cell)| (cell, column(number))).collect()
}

/// A way through the words of a cell.
struct Walk<'a> {
    declared: &'a Declared,
    column: Column,
    scopes: Vec<Scope>,
    /// The name before the words, and what stood outside each open parenthesis.
    last: Option<String>,
    outside: Vec<(Vec<Scope>, Option<String>)>,
    /// A scope was the last word; or it was, and then came `and`, so that the next is one more.
    entered: bool,
    and: bool,
    faults: Vec<String>,
}

impl<'a> Walk<'a> {
    fn new(declared: &'a Declared, column: Column) -> Self {
        let (scopes, outside, faults) = (Vec::new(), Vec::new(), Vec::new());
        Walk {
            declared,
            column,
            scopes,
            last: None,
            outside,
            entered: false,
            and: false,
            faults,
        }
    }

    fn step(&mut self, word: &Word, next: &Word) {
        match word {
            Word::Open => self.outside.push((self.scopes.clone(), self.last.clone())),
            Word::Close => (self.scopes, self.last) = self.outside.pop().unwrap_or_default(),
            Word::Semicolon => self.scopes.clear(),
            Word::Comma | Word::End => {}
            Word::Plain(word) if NO_NAMES.contains(&word.as_str()) => {}
            Word::Quoted(word) if NO_NAMES.contains(&word.as_str()) => {}
            Word::Plain(word) => self.plain(word, matches!(next, Word::Quoted(_))),
            Word::Quoted(word) => self.quoted(word),
        }
    }

    fn plain(&mut self, word: &str, before_name: bool) {
        let and = word == "and" && self.entered;
        self.entered = false;
        if word.contains('/') || word.ends_with(".rs") {
            match self.declared.place(word) {
                Some(scope) => self.enter(scope),
                None => self.faults.push(format!("there is no {word}")),
            }
        } else if before_name && self.declared.is_crate(word) {
            self.enter(Scope::Crate(word.to_string()));
        }
        self.and = and;
    }

    fn enter(&mut self, scope: Scope) {
        if !self.and {
            self.scopes.clear();
        }
        self.scopes.push(scope);
        self.entered = true;
    }

    fn quoted(&mut self, word: &str) {
        (self.entered, self.and) = (false, false);
        if let Some((krate, function)) = words::as_function(word) {
            if !self.declared.has_function(krate, function) {
                self.faults.push(format!("no function {word}"));
            }
        } else if words::is_path(word) {
            match self.declared.file(word, &self.scopes) {
                Some(Scope::Nothing(_)) => {}
                Some(scope) => self.enter(scope),
                None => self.faults.push(format!("there is no {word}")),
            }
        } else if words::is_identifier(word) {
            self.name(word);
            self.last = Some(word.to_string());
        }
    }

    fn name(&mut self, word: &str) {
        if self.is_mentioned(word) {
            return;
        }
        if self.scopes.is_empty() {
            if self.column != Column::Other {
                self.faults.push(format!("which crate has {word}?"));
            } else if !self.declared.anywhere(word) {
                self.faults.push(format!("nothing is named {word}"));
            }
        }
        let is_theorem = self.column == Column::Theorems && self.outside.is_empty();
        let fault = |scope: &Scope| match scope {
            Scope::Crate(krate) if is_theorem => (!self.declared.proves(krate, word))
                .then(|| format!("{krate} does not prove {word}")),
            _ => (!self.declared.has(scope, word)).then(|| format!("{scope} has no {word}")),
        };
        let faults: Vec<String> = self.scopes.iter().filter_map(fault).collect();
        self.faults.extend(faults);
    }

    /// Whether this stands in parentheses, and the name before them has the word in its text.
    fn is_mentioned(&self, word: &str) -> bool {
        let Some((scopes, Some(owner))) = self.outside.last() else {
            return false;
        };
        scopes
            .iter()
            .any(|scope| self.declared.mentions(scope, owner, word))
    }
}
