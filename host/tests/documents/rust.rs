//! What a file in Rust or Rattle declares.

use crate::files;

/// The file's text without comments.
pub fn read(path: &str) -> String {
    files::without_comments(&files::text(path), "//")
}

/// Names and punctuation, each character of it a word.
pub fn words(text: &str) -> Vec<String> {
    let mut words: Vec<String> = Vec::new();
    let mut inside = false;
    for c in text.chars() {
        let part = c.is_alphanumeric() || c == '_';
        match words.last_mut() {
            Some(word) if part && inside => word.push(c),
            _ if !c.is_whitespace() => words.push(c.to_string()),
            _ => {}
        }
        inside = part;
    }
    words
}

/// The names that are declared as functions.
pub fn functions(text: &str) -> Vec<String> {
    declared(text, &["fn"])
}

/// The names that are declared as functions, types, constants, modules or macros.
pub fn names(text: &str) -> Vec<String> {
    let mut names = declared(
        text,
        &["fn", "struct", "enum", "const", "type", "mod", "trait"],
    );
    names.extend(macros(text));
    names
}

fn declared(text: &str, keywords: &[&str]) -> Vec<String> {
    let words = words(text);
    let pairs = words.windows(2);
    let declaring = pairs.filter(|pair| keywords.contains(&pair[0].as_str()));
    declaring.map(|pair| pair[1].clone()).collect()
}

fn macros(text: &str) -> Vec<String> {
    let name = |line: &str| {
        line.strip_prefix("macro_rules! ")
            .map(|rest| words(rest)[0].clone())
    };
    text.lines().filter_map(name).collect()
}

/// The tests: functions that are marked so, and the lines `name: ..` that a macro of the file makes
/// tests of.
pub fn tests(text: &str) -> Vec<String> {
    let mut tests = Vec::new();
    let (mut marked, mut made) = (false, false);
    for line in text.lines() {
        let start = line.trim_start();
        if marked && start.starts_with("fn ") {
            tests.extend(functions(line));
        } else if made && let Some((name, _)) = start.split_once(": ") {
            tests.push(name.to_string());
        }
        marked = start == "#[test]" || (marked && start.starts_with("#["));
        made = (made || line.ends_with("! {")) && line != "}" && !line.starts_with("macro_rules!");
    }
    tests
}

/// A struct or an enum, with the words between its braces.
pub struct Type {
    pub name: String,
    pub is_enum: bool,
    /// `#[repr(C)]` stands before it.
    pub is_c: bool,
    pub body: Vec<String>,
}

pub fn types(text: &str) -> Vec<Type> {
    let words = words(text);
    let mut types = Vec::new();
    for (i, word) in words.iter().enumerate() {
        if (word != "struct" && word != "enum") || words.get(i + 2).is_none_or(|w| w != "{") {
            continue;
        }
        let above = words[..i].rsplit(|word| word == "}" || word == ";").next();
        let above = above.unwrap_or(&[]).concat();
        let body = braced(&words[i + 2..]);
        let (name, is_enum) = (words[i + 1].clone(), word == "enum");
        types.push(Type {
            name,
            is_enum,
            is_c: above.contains("#[repr(C)]"),
            body,
        });
    }
    types
}

/// The words between the first brace and the one that closes it.
pub fn braced(words: &[String]) -> Vec<String> {
    let mut depth = 0;
    let inside = |word: &&String| {
        depth += (*word == "{") as isize - (*word == "}") as isize;
        depth > 0
    };
    words.iter().take_while(inside).skip(1).cloned().collect()
}

/// `use a::B;` and `use a::{B, C};`: each name, and the crate a that has it.
pub fn uses(text: &str) -> Vec<(String, String)> {
    let used = |line: &str| {
        let path = line.strip_prefix("use ")?.strip_suffix(';')?;
        let (from, names) = path.split_once("::")?;
        let names = names.trim_matches(['{', '}']).split(", ");
        Some(
            names
                .map(|name| (name.to_string(), from.to_string()))
                .collect::<Vec<_>>(),
        )
    };
    text.lines().filter_map(used).flatten().collect()
}
