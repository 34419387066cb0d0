//! docs/READING-LIST.md is what the exported contracts and the page of promises rest on.

use std::collections::BTreeSet;

use crate::antt;
use crate::exports::{self, EXPORTS};
use crate::files;
use crate::project::{self, Name, Project};
use crate::rust;

const LIST: &str = "docs/READING-LIST.md";
const PROMISES: &str = "crates/promises/proofs/Promises.antt";
const TITLES: [&str; 4] = [
    "What the exported contracts rest on",
    "What the promises rest on beyond that",
    "Spec files that nothing above rests on",
    "What is believed of the toolchain's library",
];

#[test]
fn the_reading_list_is_what_contracts_and_promises_rest_on() {
    let text = files::text(LIST);
    let sections: Vec<&str> = text.split("\n## ").skip(1).collect();
    let titles: Vec<&str> = sections.iter().filter_map(|s| s.lines().next()).collect();
    assert_eq!(titles, TITLES, "{LIST}");
    for (section, expected) in sections.iter().zip(computed()) {
        let found: Vec<&str> = section.lines().filter(|l| l.starts_with("- ")).collect();
        let missing = expected.iter().filter(|l| !found.contains(&l.as_str()));
        let extra = found.iter().filter(|l| !expected.contains(&l.to_string()));
        let (missing, extra, whole) = (lines(missing), lines(extra), lines(expected.iter()));
        assert!(
            found == expected,
            "{LIST}\nmissing:\n{missing}too much:\n{extra}The list by the sources:\n{whole}"
        );
    }
}

#[test]
fn every_promise_has_its_words_above_it() {
    let page = files::text(PROMISES);
    let lines: Vec<&str> = page.lines().collect();
    for pair in lines.windows(2).filter(|pair| pair[1].starts_with("pub ")) {
        assert!(
            pair[0].starts_with("-- "),
            "{PROMISES}: no words for {}",
            pair[1]
        );
    }
}

/// A statement is a definition of type `Type 0` without arguments; one is a record.
#[test]
fn every_statement_of_the_specs_is_on_the_page() {
    let project = Project::read();
    let mut stated: Vec<Name> = Vec::new();
    for path in files::crates().iter().flat_map(|k| project::spec_paths(k)) {
        let names = project.statements_of(&path).into_iter();
        stated.extend(names.map(|name| Name::Ours {
            path: path.clone(),
            name: name.to_string(),
        }));
    }
    let promised = promises(&project);
    let missing: Vec<&Name> = stated.iter().filter(|n| !promised.contains(n)).collect();
    assert!(missing.is_empty(), "{PROMISES} lacks {missing:?}");
    let others = promised.iter().filter(|name| !stated.contains(name));
    let others: Vec<&str> = others.map(Name::name).collect();
    assert_eq!(others, ["NumbersListed"], "{PROMISES}: no statements");
}

/// Each line of the page gives a term of a statement, and of nothing made of it.
#[test]
fn every_promise_has_a_statement_as_its_type() {
    let page = project::read_whole(PROMISES);
    for promise in page.declarations.iter().filter(|d| d.is_public) {
        let signature = promise.parts.iter().find(|part| !part.is_clause());
        let words = signature.map_or(0, |part| part.words.len());
        assert_eq!(words, 2, "{PROMISES}: {}", promise.name);
    }
}

/// Puts the lists of the sources in the place of the document's.
#[test]
#[ignore = "writes docs/READING-LIST.md anew"]
fn write_the_reading_list() {
    let text = files::text(LIST);
    let mut computed = computed().into_iter();
    let mut written = String::new();
    let mut inside = false;
    for line in text.lines() {
        let is_item = line.starts_with("- ");
        if is_item && !inside {
            written += &lines(computed.next().expect("four lists").iter());
        }
        if !is_item {
            written += &format!("{line}\n");
        }
        inside = is_item;
    }
    assert!(
        computed.next().is_none(),
        "{LIST} has fewer than four lists"
    );
    files::write(LIST, &written);
}

fn lines<T: AsRef<str>>(lines: impl Iterator<Item = T>) -> String {
    lines.map(|line| line.as_ref().to_string() + "\n").collect()
}

/// Four lists: what the contracts rest on, file by file; what the promises rest on beyond that; the
/// spec files of which nothing is; the library's modules.
fn computed() -> [Vec<String>; 4] {
    let project = Project::read();
    let contracts = project.closure(contracts(&project));
    let promises = project.closure(promises(&project));
    let further: BTreeSet<Name> = promises.difference(&contracts).cloned().collect();
    let library = library(&contracts.union(&promises).cloned().collect());
    let (mut first, mut second, mut unused) = (Vec::new(), Vec::new(), Vec::new());
    for krate in files::crates() {
        let code = project::code_path(&krate);
        first.extend(line_of(&project, &contracts, &code));
        second.extend(line_of(&project, &further, &code));
        for path in project::spec_paths(&krate) {
            let (cited, stated) = (
                line_of(&project, &contracts, &path),
                line_of(&project, &further, &path),
            );
            if cited.is_none() && stated.is_none() {
                unused.push(format!("- {path}"));
            }
            first.extend(cited);
            second.extend(stated);
        }
    }
    [first, second, unused, library]
}

/// `- path: names`, in the file's order, if any of its names is rested on.
fn line_of(project: &Project, rested: &BTreeSet<Name>, path: &str) -> Option<String> {
    let is_rested = |name: &&str| {
        let (path, name) = (path.to_string(), name.to_string());
        rested.contains(&Name::Ours { path, name })
    };
    let names: Vec<&str> = project
        .names_of(path)
        .into_iter()
        .filter(is_rested)
        .collect();
    (!names.is_empty()).then(|| format!("- {path}: `{}`", names.join("` `")))
}

fn library(rested: &BTreeSet<Name>) -> Vec<String> {
    let mut lines: Vec<String> = Vec::new();
    for name in rested {
        if let Name::Library { module, name } = name {
            let start = format!("- {module}: ");
            match lines.last_mut() {
                Some(line) if line.starts_with(&start) => *line += &format!(" `{name}`"),
                _ => lines.push(format!("{start}`{name}`")),
            }
        }
    }
    lines
}

/// What the exported contracts cite, and the structs that the functions return.
fn contracts(project: &Project) -> Vec<Name> {
    let text = rust::read(EXPORTS);
    let cited = text
        .lines()
        .filter_map(|line| line.strip_prefix("ghost ")?.strip_suffix(';'));
    let cited = cited.collect::<Vec<&str>>().join("\n");
    let imports = antt::parse(&cited).imports;
    let mut names: Vec<Name> = imports.iter().map(|i| project.imported_name(i)).collect();
    let returned = exports::returned().into_iter();
    names.extend(returned.map(|(name, path)| Name::Ours { path, name }));
    assert!(!names.is_empty(), "{EXPORTS} cites nothing");
    names
}

/// The statements on the page of promises: the types of what is public on it.
fn promises(project: &Project) -> Vec<Name> {
    let page = project::read_whole(PROMISES);
    let public = page.declarations.iter().filter(|d| d.is_public);
    let statements = public
        .flat_map(|d| &d.parts)
        .filter(|part| !part.is_clause());
    let names: Vec<Name> = statements
        .flat_map(|part| project.names_in(part, PROMISES, &page))
        .collect();
    assert!(!names.is_empty(), "{PROMISES} states nothing");
    names
}
