//! The repository's files. A path is written from the repository's root.

use std::fs;
use std::path::{Path, PathBuf};

fn root() -> PathBuf {
    let host = Path::new(env!("CARGO_MANIFEST_DIR"));
    host.parent().expect("host/ has a parent").to_path_buf()
}

pub fn exists(path: &str) -> bool {
    root().join(path).exists()
}

pub fn text(path: &str) -> String {
    fs::read_to_string(root().join(path)).unwrap_or_else(|e| panic!("{path}: {e}"))
}

pub fn write(path: &str, text: &str) {
    fs::write(root().join(path), text).unwrap_or_else(|e| panic!("{path}: {e}"));
}

/// What stands in a folder, in the order of the alphabet; nothing if there is no such folder.
pub fn names(folder: &str) -> Vec<String> {
    let Ok(entries) = fs::read_dir(root().join(folder)) else {
        return Vec::new();
    };
    let name = |entry: fs::DirEntry| entry.file_name().to_string_lossy().into_owned();
    let mut names: Vec<String> = entries.map(|entry| name(entry.expect(folder))).collect();
    names.sort();
    names
}

/// The files of a folder that have this ending, without it.
pub fn stems(folder: &str, ending: &str) -> Vec<String> {
    let stem = |name: String| name.strip_suffix(ending).map(str::to_string);
    names(folder).into_iter().filter_map(stem).collect()
}

/// All files under a folder that have one of these endings, but for what cargo and rt make.
pub fn under(folder: &str, endings: &[&str]) -> Vec<String> {
    let mut found = Vec::new();
    for name in names(folder) {
        let path = format!("{folder}/{name}");
        if endings.iter().any(|ending| name.ends_with(ending)) {
            found.push(path);
        } else if name != "target" && name != "out" {
            found.extend(under(&path, endings));
        }
    }
    found
}

/// The crates, in the order of crates.txt.
pub fn crates() -> Vec<String> {
    let list = text("crates.txt");
    let lines = list.lines().filter(|line| !line.starts_with('#'));
    let name = |line: &str| {
        let (head, _) = line.split_once(':')?;
        head.split(' ').next().map(str::to_string)
    };
    lines.filter_map(name).collect()
}

/// Every crate that crates.txt names: ours, and those of the toolchain that ours use.
pub fn listed_crates() -> Vec<String> {
    let list = text("crates.txt");
    let lines = list.lines().filter(|line| !line.starts_with('#'));
    let names = lines.flat_map(|line| line.split([':', ' ']));
    names
        .filter(|name| *name != "staticlib")
        .map(str::to_string)
        .collect()
}

/// The text without its comments, each of which begins with `mark` after a space or a line's begin.
pub fn without_comments(text: &str, mark: &str) -> String {
    let spaced = format!(" {mark}");
    let code = |line: &str| match line.find(&spaced) {
        _ if line.starts_with(mark) => String::new(),
        Some(at) => line[..at].to_string(),
        None => line.to_string(),
    };
    text.lines().map(|line| code(line) + "\n").collect()
}
