//! Circuits in another form: drawn, as text, as bytes, mirrored.

use crate::arguments::Arguments;
use crate::{Done, Failure, files};
use cagvost::book::Book;
use std::io::{self, IsTerminal};

/// So many columns are drawn at most, if nothing else is asked for.
const WIDTH: usize = 100;

pub fn draw(arguments: &Arguments) -> Done {
    let width = arguments.parsed("--width", "a number of columns, or 0 for no limit")?;
    let width = width.unwrap_or(WIDTH);
    let book = circuit(arguments)?;
    files::print(book.drawing().width(width).to_string().as_bytes())
}

pub fn text(arguments: &Arguments) -> Done {
    write_text(arguments, &circuit(arguments)?)
}

pub fn book(arguments: &Arguments) -> Done {
    let book = circuit(arguments)?;
    let bytes = book.write().expect("what was read is accepted");
    if file(arguments).is_none() && io::stdout().is_terminal() {
        let words = "the bytes of a book are not shown on a terminal: add -o FILE or > FILE";
        return Err(Failure::File(words.to_string()));
    }
    write(arguments, &bytes)
}

pub fn mirror(arguments: &Arguments) -> Done {
    let name = name(arguments)?;
    let book = files::circuit(name)?;
    let bytes = book.write().expect("what was read is accepted");
    let mut mirror = vec![0; cagvost::mirror_len(book.operations().len())];
    cagvost::mirror(&bytes, &mut mirror).map_err(|refusal| files::refused(name, &refusal))?;
    let mirror = Book::from_bytes(&mirror).expect("the mirror of a book is accepted");
    write_text(arguments, &mirror)
}

fn name(arguments: &Arguments) -> Result<&str, Failure> {
    Ok(arguments.only_name("a circuit")?)
}

fn circuit(arguments: &Arguments) -> Result<Book, Failure> {
    files::circuit(name(arguments)?)
}

/// A text in a file NAME.book would be read as bytes.
fn write_text(arguments: &Arguments, book: &Book) -> Done {
    match file(arguments) {
        Some(name) if files::is_book(name) => Err(Failure::Usage(format!(
            "{name} is a name for bytes, and this is text: `cagvost book` writes bytes"
        ))),
        _ => write(arguments, book.to_string().as_bytes()),
    }
}

/// To the file that is named by `-o`, or to standard output.
fn write(arguments: &Arguments, bytes: &[u8]) -> Done {
    match file(arguments) {
        Some(name) => files::save(name, bytes),
        None => files::print(bytes),
    }
}

/// The file that is named by `-o`; `-` is standard output.
fn file(arguments: &Arguments) -> Option<&str> {
    arguments.value("-o").filter(|name| *name != "-")
}
