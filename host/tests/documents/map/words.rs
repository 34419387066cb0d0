//! The words of the map.

#[derive(Debug)]
pub enum Word {
    Plain(String),
    /// In backticks.
    Quoted(String),
    Open,
    Close,
    Comma,
    Semicolon,
    End,
}

impl Word {
    pub fn plain(self) -> Option<String> {
        match self {
            Word::Plain(word) => Some(word),
            _ => None,
        }
    }
}

/// The words of a text, and its end.
pub fn words(text: &str) -> Vec<Word> {
    let mut words = Vec::new();
    for (i, piece) in text.split('`').enumerate() {
        match i % 2 {
            0 => words.extend(plain(piece)),
            _ => words.push(Word::Quoted(piece.to_string())),
        }
    }
    words.push(Word::End);
    words
}

fn plain(text: &str) -> Vec<Word> {
    let mut spaced = String::new();
    for c in text.chars() {
        match "(),;".contains(c) {
            true => spaced.extend([' ', c, ' ']),
            false => spaced.push(c),
        }
    }
    spaced.split_whitespace().flat_map(word).collect()
}

/// A full stop or a colon after a word counts as a comma.
fn word(word: &str) -> Vec<Word> {
    match word {
        "(" => vec![Word::Open],
        ")" => vec![Word::Close],
        "," => vec![Word::Comma],
        ";" => vec![Word::Semicolon],
        _ => match word.strip_suffix(['.', ':']) {
            Some(start) => vec![Word::Plain(start.to_string()), Word::Comma],
            None => vec![Word::Plain(word.to_string())],
        },
    }
}

/// `crate::function`
pub fn as_function(word: &str) -> Option<(&str, &str)> {
    let (krate, function) = word.split_once("::")?;
    let is_name = |name: &str| name.chars().all(|c| c.is_ascii_alphanumeric() || c == '_');
    (is_name(krate) && is_name(function.trim_end_matches('*'))).then_some((krate, function))
}

pub fn is_path(word: &str) -> bool {
    let is_part = |c: char| c.is_ascii_alphanumeric() || "_-./".contains(c);
    let has_ending = [".md", ".rs", ".rt", ".antt", ".txt"]
        .iter()
        .any(|ending| word.ends_with(ending));
    word.chars().all(is_part) && (word.contains('/') || has_ending)
}

pub fn is_identifier(word: &str) -> bool {
    let is_part = |c: char| c.is_alphanumeric() || "_-'".contains(c);
    word.starts_with(char::is_alphabetic) && word.chars().all(is_part)
}
