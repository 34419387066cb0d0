//! Circuits from the command line: runs, drawings, conversions and shares of unharmed shots.

mod arguments;
mod convert;
mod files;
mod help;
mod progress;
mod run;
mod share;
mod sum;

use arguments::Arguments;
use std::io::{self, Write};
use std::process::ExitCode;

/// Why a command did not do its work.
enum Failure {
    /// A circuit, a model or a part was refused: status 1.
    Refused(String),
    /// The command line is wrong: status 2.
    Usage(String),
    /// Something could not be read or written: status 2.
    File(String),
}

/// What is wrong with the words of a command line.
impl From<String> for Failure {
    fn from(words: String) -> Failure {
        Failure::Usage(words)
    }
}

/// A file that cannot be read or written.
impl From<(&str, io::Error)> for Failure {
    fn from((name, error): (&str, io::Error)) -> Failure {
        Failure::File(format!("{name}: {error}"))
    }
}

type Done = Result<(), Failure>;

/// A command: what it is called, its help, the options with a value, those without, and its work.
struct Command {
    name: &'static str,
    help: &'static str,
    values: &'static [&'static str],
    flags: &'static [&'static str],
    work: fn(&Arguments) -> Done,
}

const COMMANDS: [Command; 7] = [
    Command {
        name: "run",
        help: help::RUN,
        values: &["--halt", "--look"],
        flags: &["--direct", "--state"],
        work: run::run,
    },
    Command {
        name: "draw",
        help: help::DRAW,
        values: &["--width"],
        flags: &[],
        work: convert::draw,
    },
    Command {
        name: "text",
        help: help::TEXT,
        values: &["-o"],
        flags: &[],
        work: convert::text,
    },
    Command {
        name: "book",
        help: help::BOOK,
        values: &["-o"],
        flags: &[],
        work: convert::book,
    },
    Command {
        name: "mirror",
        help: help::MIRROR,
        values: &["-o"],
        flags: &[],
        work: convert::mirror,
    },
    Command {
        name: "share",
        help: help::SHARE,
        values: &[
            "--error",
            "--model",
            "--shots",
            "--seed",
            "--threads",
            "--shard",
            "--sweep",
            "--svg",
        ],
        flags: &[],
        work: share::share,
    },
    Command {
        name: "sum",
        help: help::SUM,
        values: &[],
        flags: &[],
        work: sum::sum,
    },
];

fn main() -> ExitCode {
    let words: Result<Vec<String>, _> = std::env::args_os()
        .skip(1)
        .map(|word| word.into_string())
        .collect();
    ended(match words {
        Ok(words) => understood(&words),
        Err(word) => Err(Failure::Usage(format!("{word:?} is not UTF-8"))),
    })
}

fn understood(words: &[String]) -> Done {
    let words: Vec<&str> = words.iter().map(String::as_str).collect();
    match words[..] {
        [] => Err(Failure::Usage(format!("no command\n\n{}", help::ALL))),
        ["help" | "--help" | "-h"] => files::print(help::ALL.as_bytes()),
        ["help", name] => files::print(find(name)?.help.as_bytes()),
        ["--version" | "-V"] => {
            files::print(concat!("cagvost ", env!("CARGO_PKG_VERSION"), "\n").as_bytes())
        }
        [name, ref rest @ ..] => execute(find(name)?, rest),
    }
}

fn find(name: &str) -> Result<&'static Command, Failure> {
    let found = COMMANDS.iter().find(|command| command.name == name);
    found.ok_or_else(|| Failure::Usage(format!("there is no command '{name}'\n\n{}", help::ALL)))
}

fn execute(command: &Command, words: &[&str]) -> Done {
    let mut options = words.iter().take_while(|word| **word != "--");
    if options.any(|word| *word == "--help" || *word == "-h") {
        return files::print(command.help.as_bytes());
    }
    let arguments = Arguments::read(words, command.values, command.flags);
    let done = arguments
        .map_err(Failure::Usage)
        .and_then(|arguments| (command.work)(&arguments));
    done.map_err(|failure| match failure {
        Failure::Usage(what) => {
            let name = command.name;
            Failure::Usage(format!("{name}: {what}; `cagvost {name} --help` says more"))
        }
        other => other,
    })
}

/// Says what went wrong and ends with its status.
fn ended(done: Done) -> ExitCode {
    let (status, words) = match done {
        Ok(()) => return ExitCode::SUCCESS,
        Err(Failure::Refused(words)) => (1, words),
        Err(Failure::Usage(words) | Failure::File(words)) => (2, words),
    };
    say(words.trim_end());
    ExitCode::from(status)
}

/// A line on standard error. That it cannot be written changes no status.
fn say(words: &str) {
    _ = writeln!(io::stderr(), "cagvost: {words}");
}
