//! What is read and written: circuits, texts and output.

use crate::{Done, Failure};
use cagvost::book::Book;
use cagvost::{Refusal, TextError};
use std::fs::{self, File};
use std::io::{self, Read, Write};
use std::path::{Path, PathBuf};
use std::process;

/// Standard input.
const STANDARD: &str = "-";

/// How a file is called in messages.
pub fn called(name: &str) -> &str {
    match name {
        STANDARD => "standard input",
        name => name,
    }
}

/// Nothing that is read here is longer: a full circuit has some 100 KiB of text.
const MOST_BYTES: u64 = 64 << 20;

fn bytes(name: &str) -> Result<Vec<u8>, Failure> {
    let mut bytes = Vec::new();
    let read = match name {
        STANDARD => io::stdin().lock().take(MOST_BYTES).read_to_end(&mut bytes),
        name => File::open(name).and_then(|file| file.take(MOST_BYTES).read_to_end(&mut bytes)),
    };
    read.map_err(|error| Failure::from((called(name), error)))?;
    match bytes.len() as u64 == MOST_BYTES {
        true => Err(refused(name, &"it is too long, 64 MiB or more")),
        false => Ok(bytes),
    }
}

/// A text, or what is refused of it: its bytes are no UTF-8.
pub fn text(name: &str) -> Result<String, Failure> {
    decoded(bytes(name)?).map_err(|why| refused(name, &why))
}

fn decoded(bytes: Vec<u8>) -> Result<String, String> {
    String::from_utf8(bytes).map_err(|error| {
        let good = &error.as_bytes()[..error.utf8_error().valid_up_to()];
        let good = String::from_utf8_lossy(good);
        let (before, last) = good.rsplit_once('\n').unwrap_or(("", &good));
        let line = 1 + usize::from(good.contains('\n')) + before.matches('\n').count();
        let column = 1 + last.chars().count();
        format!("line {line}, column {column}: expected text, found a byte that is no UTF-8")
    })
}

pub fn refused(name: &str, why: &dyn std::fmt::Display) -> Failure {
    Failure::Refused(format!("{}: {why}", called(name)))
}

/// Why a circuit is refused.
pub enum Bad {
    /// As a book of bytes.
    Book(Refusal),
    /// As a text.
    Text(TextError),
    /// It is no text.
    Bytes(String),
}

impl Bad {
    /// The refusal, if a run would give one.
    pub fn refusal(&self) -> Option<Refusal> {
        match self {
            Bad::Book(refusal) | Bad::Text(TextError::Refused { refusal, .. }) => Some(*refusal),
            _ => None,
        }
    }

    pub fn failure(&self, name: &str) -> Failure {
        match self {
            Bad::Book(refusal) => refused(name, refusal),
            Bad::Text(error) => refused(name, error),
            Bad::Bytes(why) => refused(name, why),
        }
    }
}

/// Reads a circuit, as a book or as a text.
pub fn read_circuit(name: &str) -> Result<Result<Book, Bad>, Failure> {
    let bytes = bytes(name)?;
    if is_book(name) || bytes.iter().any(is_control) {
        return Ok(Book::from_bytes(&bytes).map_err(Bad::Book));
    }
    Ok(match decoded(bytes) {
        Ok(text) => text.parse().map_err(Bad::Text),
        Err(why) => Err(Bad::Bytes(why)),
    })
}

/// Whether a file of this name is read as bytes.
pub fn is_book(name: &str) -> bool {
    name.ends_with(".book")
}

/// Whether a byte is one that no text has. Every accepted book has such bytes: the fourth is 3.
fn is_control(byte: &u8) -> bool {
    byte.is_ascii_control() && !byte.is_ascii_whitespace()
}

/// Reads a circuit that is not refused.
pub fn circuit(name: &str) -> Result<Book, Failure> {
    read_circuit(name)?.map_err(|bad| bad.failure(name))
}

/// Writes to standard output.
pub fn print(bytes: &[u8]) -> Done {
    let mut out = io::stdout().lock();
    let written = out.write_all(bytes).and_then(|()| out.flush());
    written.map_err(|error| Failure::from(("standard output", error)))
}

/// Writes to the file of this name. If that fails, a file that was there is kept.
pub fn save(name: &str, bytes: &[u8]) -> Done {
    // What a link leads to, if it leads to something.
    let path = fs::canonicalize(name).unwrap_or_else(|_| PathBuf::from(name));
    let is_new_or_file = path.is_file() || !path.exists();
    let written = match is_new_or_file {
        true => replace(&path, bytes),
        false => fs::write(&path, bytes), // a device
    };
    written.map_err(|error| Failure::from((name, error)))
}

/// Writes a file beside the one of this name, and puts it in its place.
fn replace(path: &Path, bytes: &[u8]) -> io::Result<()> {
    let mut beside = path.as_os_str().to_owned();
    beside.push(format!(".{}", process::id()));
    let written = fs::write(&beside, bytes).and_then(|()| fs::rename(&beside, path));
    if written.is_err() {
        _ = fs::remove_file(&beside); // it may not be there
    }
    written
}
