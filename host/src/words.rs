//! Text as lines of words: what circuits, error models and counts have in common when they are read.

use crate::Refusal;
use std::error::Error;
use std::fmt;

/// What is wrong with a text, and where.
///
/// ```
/// use cagvost::TextError;
/// use cagvost::book::Book;
///
/// let error = "qudits 2 dimension 3\nsum 0".parse::<Book>().unwrap_err();
/// assert_eq!(
///     error.to_string(),
///     "line 2, column 6: expected the target's number, found the end of the line"
/// );
/// let error = "qudits 2 dimension 3\nsum 0 2".parse::<Book>().unwrap_err();
/// assert!(error.to_string().starts_with("line 2, 'sum 0 2': refused 5 at 0: "));
/// assert!(matches!(error, TextError::Refused { line: 2, .. }));
/// let error = "qudits 2 dimension 3\nmeasure 0\ncorrect 1 by 1".parse::<Book>().unwrap_err();
/// assert_eq!(
///     error.to_string(),
///     "line 3, 'correct 1 by 1': refused 5 at 1: it names measurement 1, and 1 measurement comes \
///      before it (they are counted from 0, without resets)"
/// );
/// ```
#[derive(Clone, Debug, PartialEq, Eq)]
#[non_exhaustive]
pub enum TextError {
    /// Something else stands where a word or a number should.
    Unexpected {
        /// The line, counted from 1.
        line: usize,
        /// The column of its first character, counted from 1.
        column: usize,
        /// What should stand there.
        expected: String,
        /// What stands there.
        found: String,
    },
    /// The circuit can be read, and a run would refuse it.
    Refused {
        /// The line of what is refused, counted from 1.
        line: usize,
        /// That line, without its comment.
        text: String,
        /// Why, with the place that the bytes of the circuit would have.
        refusal: Refusal,
        /// What is wrong, in words: [`Refusal::meaning`], but of a correction that names no earlier
        /// measurement, which one it names and how many come before it.
        meaning: String,
    },
}

impl TextError {
    /// The line, counted from 1.
    pub fn line(&self) -> usize {
        match self {
            TextError::Unexpected { line, .. } | TextError::Refused { line, .. } => *line,
        }
    }
}

impl fmt::Display for TextError {
    fn fmt(&self, f: &mut fmt::Formatter<'_>) -> fmt::Result {
        match self {
            TextError::Unexpected {
                line,
                column,
                expected,
                found,
            } => write!(
                f,
                "line {line}, column {column}: expected {expected}, found {found}"
            ),
            TextError::Refused {
                line,
                text,
                refusal,
                meaning,
            } => {
                let (number, place) = (refusal.number(), refusal.place());
                write!(
                    f,
                    "line {line}, '{text}': refused {number} at {place}: {meaning}"
                )
            }
        }
    }
}

impl Error for TextError {}

/// The lines that have words. A comment begins with `#` and goes on to the end of its line.
pub(crate) fn lines(text: &str) -> impl Iterator<Item = Line<'_>> {
    let lines = (1..).zip(unmarked(text).lines());
    lines
        .map(|(number, line)| Line::new(number, line))
        .filter(|line| !line.words.is_empty())
}

/// The text without the character by which some editors mark one.
fn unmarked(text: &str) -> &str {
    text.strip_prefix('\u{feff}').unwrap_or(text)
}

/// What is said of a text that ends too soon: the line behind its last.
pub(crate) fn ended(text: &str, expected: &str) -> TextError {
    TextError::Unexpected {
        line: unmarked(text).lines().count() + 1,
        column: 1,
        expected: expected.to_string(),
        found: "the end of the text".to_string(),
    }
}

/// A line, read word by word.
pub(crate) struct Line<'a> {
    /// Counted from 1.
    pub(crate) number: usize,
    /// Without its comment.
    text: &'a str,
    /// Words with the bytes at which they begin.
    words: Vec<(usize, &'a str)>,
    /// How many of them have been read.
    read: usize,
}

impl<'a> Line<'a> {
    fn new(number: usize, line: &'a str) -> Line<'a> {
        let text = line.split('#').next().unwrap_or("").trim_end();
        Line {
            number,
            text,
            words: words(text),
            read: 0,
        }
    }

    /// The line without its comment.
    pub(crate) fn text(&self) -> &'a str {
        self.text.trim_start()
    }

    /// The next word, if there is one.
    pub(crate) fn peek(&self) -> Option<&'a str> {
        self.words.get(self.read).map(|&(_, word)| word)
    }

    /// Whether the next word is this one, in small or large letters; then it is read.
    pub(crate) fn take(&mut self, word: &str) -> bool {
        let is_next = self
            .peek()
            .is_some_and(|next| next.eq_ignore_ascii_case(word));
        self.read += usize::from(is_next);
        is_next
    }

    /// Reads this word.
    pub(crate) fn expect(&mut self, word: &str) -> Result<(), TextError> {
        match self.take(word) {
            true => Ok(()),
            false => Err(self.unexpected(&format!("'{word}'"))),
        }
    }

    /// Reads a whole number. One that is too large for any use here comes as the largest.
    pub(crate) fn number(&mut self, expected: &str) -> Result<u64, TextError> {
        let digits = self.peek().filter(|word| is_number(word));
        let word = digits.ok_or_else(|| self.unexpected(expected))?;
        self.read += 1;
        Ok(word.parse().unwrap_or(u64::MAX))
    }

    /// Reads what the function makes of the next word.
    pub(crate) fn value<T>(
        &mut self,
        expected: &str,
        read: impl Fn(&str) -> Option<T>,
    ) -> Result<T, TextError> {
        let value = self.peek().and_then(read);
        let value = value.ok_or_else(|| self.unexpected(expected))?;
        self.read += 1;
        Ok(value)
    }

    /// Nothing is left to read. `expected` says what else could have come.
    pub(crate) fn end(&self, expected: &str) -> Result<(), TextError> {
        match self.peek() {
            None => Ok(()),
            Some(_) => Err(self.unexpected(expected)),
        }
    }

    /// Something else than this stands where the reading is.
    pub(crate) fn unexpected(&self, expected: &str) -> TextError {
        let (start, found) = match self.words.get(self.read) {
            Some(&(start, word)) => (start, format!("'{}'", shown(word))),
            None => (self.text.len(), "the end of the line".to_string()),
        };
        TextError::Unexpected {
            line: self.number,
            column: self.text[..start].chars().count() + 1,
            expected: expected.to_string(),
            found,
        }
    }

    /// The refusal of what this line says, with what it means here.
    pub(crate) fn refused(&self, refusal: Refusal, meaning: String) -> TextError {
        TextError::Refused {
            line: self.number,
            text: shown(self.text()),
            refusal,
            meaning,
        }
    }
}

/// A part of a text as a message has it: without control characters, and cut if it is long.
fn shown(text: &str) -> String {
    const MOST: usize = 40;
    let mut shown = String::new();
    for c in text.chars().take(MOST) {
        match c.is_control() {
            true => shown.extend(c.escape_unicode()),
            false => shown.push(c),
        }
    }
    if text.chars().nth(MOST).is_some() {
        shown.push('…');
    }
    shown
}

fn is_number(word: &str) -> bool {
    word.bytes().all(|byte| byte.is_ascii_digit())
}

/// What stands between spaces; `^` is a word of its own.
fn words(text: &str) -> Vec<(usize, &str)> {
    let mut words = Vec::new();
    let mut start = None;
    for (i, c) in text.char_indices() {
        let parts = c.is_whitespace() || c == '^';
        if parts && let Some(begin) = start.take() {
            words.push((begin, &text[begin..i]));
        }
        if c == '^' {
            words.push((i, &text[i..i + 1]));
        } else if !parts {
            start = start.or(Some(i));
        }
    }
    words.extend(start.map(|begin| (begin, &text[begin..])));
    words
}
