//! Parts of a figure, added up.

use crate::arguments::Arguments;
use crate::{Done, Failure, files};
use cagvost::share::{Part, SumError};

pub fn sum(arguments: &Arguments) -> Done {
    if arguments.names.is_empty() {
        let words = "it needs the files that share --shard printed";
        return Err(Failure::Usage(words.to_string()));
    }
    let read = |name: &String| {
        let text = files::text(name)?;
        text.parse::<Part>()
            .map_err(|error| files::refused(name, &error))
    };
    let parts: Vec<Part> = arguments.names.iter().map(read).collect::<Result<_, _>>()?;
    let figure = Part::sum(&parts).map_err(|why| Failure::Refused(said(&why, &arguments.names)))?;
    files::print(figure.to_string().as_bytes())
}

/// Why parts cannot be added, with the names of their files.
fn said(why: &SumError, names: &[String]) -> String {
    let both = |(one, other): (usize, usize)| {
        let [one, other] = [one, other].map(|i| files::called(&names[i]));
        format!("{one} and {other}")
    };
    match why {
        SumError::Different { field, parts } => {
            format!(
                "{}: parts of different jobs, which differ in the {field}",
                both(*parts)
            )
        }
        SumError::Twice { shard, parts } => format!("{}: shard {shard} twice", both(*parts)),
        _ => why.to_string(),
    }
}
