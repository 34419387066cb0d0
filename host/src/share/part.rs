//! Parts of a job: the counts of some of its shots, as a file has them.

use super::counts::Counts;
use super::figure::Figure;
use super::fingerprint::fingerprint;
use super::shard::{SHARD, Shard};
use super::value::digits;
use crate::words::{self, Line, TextError};
use std::fmt;
use std::ops::Range;
use std::str::FromStr;

/// What is counted: parts are added if they agree in all of this.
#[derive(Clone, Copy, Debug, PartialEq, Eq, Hash)]
pub struct Job {
    /// The fingerprint of the circuit without its errors, whose choices count too.
    pub circuit: u64,
    /// The fingerprint of the model. Its rates for resets and for corrections count only if the
    /// circuit has some.
    pub model: u64,
    /// The seed.
    pub seed: u64,
    /// The shots of all parts together.
    pub shots: u64,
    /// How many measurements the circuit has.
    pub measurements: u64,
}

impl Job {
    /// The job's figure, with the counts of all its shots.
    pub fn figure(self, counts: Counts) -> Figure {
        Figure {
            seed: self.seed,
            counts,
            measurements: self.measurements,
        }
    }

    /// What distinguishes jobs, each with its name and its text.
    pub(super) fn fields(self) -> [(&'static str, String); 5] {
        [
            ("circuit", format!("{:016x}", self.circuit)),
            ("model", format!("{:016x}", self.model)),
            ("seed", self.seed.to_string()),
            ("shots", self.shots.to_string()),
            ("measurements", self.measurements.to_string()),
        ]
    }
}

/// The counts of one shard of a job, as they are kept in a file.
///
/// ```
/// use cagvost::book::Book;
/// use cagvost::share::{Part, Shard, Share};
/// use std::num::NonZeroUsize;
///
/// let mut book = Book::new(3, 1);
/// book.measure(0, 0);
/// let share = Share::new(&book, &"measure x 0.5".parse().expect("a model"))?;
/// let job = share.job(1, 10_000);
///
/// // Each of these can run on another machine.
/// let texts = ["2/3", "1/3", "3/3"].map(|shard| {
///     let shard: Shard = shard.parse().expect("a shard");
///     let range = shard.range(job.shots);
///     let counts = share.count(job.seed, range, NonZeroUsize::MIN, &|_| {}).expect("few errors");
///     Part { job, shard, counts }.to_string()
/// });
///
/// let parts = texts.map(|text| text.parse().expect("what was written"));
/// let all = share.count(1, 0..10_000, NonZeroUsize::MIN, &|_| {})?;
/// assert_eq!(Part::sum(&parts), Ok(job.figure(all)));
/// # Ok::<(), cagvost::share::ShareError>(())
/// ```
#[derive(Clone, Copy, Debug, PartialEq, Eq, Hash)]
pub struct Part {
    /// What is counted.
    pub job: Job,
    /// Which shots of it.
    pub shard: Shard,
    /// The counts of these.
    pub counts: Counts,
}

/// The number is raised whenever a seed gives other errors than before: such parts do not add up.
const FIRST: &str = "cagvost part 1";

impl Part {
    /// The lines of its text that are checked by the last one.
    fn checked_lines(&self) -> String {
        let mut text = format!("{FIRST}\n");
        let counts = self.counts;
        let rest = [
            ("shard", self.shard.to_string()),
            ("counted", counts.shots.to_string()),
            ("unharmed", counts.unharmed.to_string()),
            ("results", counts.results_unharmed.to_string()),
        ];
        for (name, value) in self.job.fields().into_iter().chain(rest) {
            text += &format!("{name} {value}\n");
        }
        text
    }
}

/// Writes the text of the part. Its last line is a check of all lines before.
impl fmt::Display for Part {
    fn fmt(&self, f: &mut fmt::Formatter<'_>) -> fmt::Result {
        let text = self.checked_lines();
        writeln!(f, "{text}check {:016x}", fingerprint(text.as_bytes()))
    }
}

/// Reads the text of a part, which must be just as it was written.
impl FromStr for Part {
    type Err = TextError;

    fn from_str(text: &str) -> Result<Part, TextError> {
        let mut reader = Reader {
            text,
            lines: words::lines(text),
        };
        reader.field(FIRST, |line| {
            // A part of another version is refused here, whatever its first line has in place of 1.
            FIRST.split(' ').try_for_each(|word| line.expect(word))
        })?;
        let job = Job {
            circuit: reader.value("circuit", HEX, hex)?,
            model: reader.value("model", HEX, hex)?,
            seed: reader.value("seed", NUMBER, digits)?,
            shots: reader.value("shots", NUMBER, digits)?,
            measurements: reader.value("measurements", NUMBER, digits)?,
        };
        let shard: Shard = reader.value("shard", SHARD, |word| word.parse().ok())?;
        let Range { start, end } = shard.range(job.shots);
        let shots = reader.value("counted", "the number of this shard's shots", |word| {
            digits(word).filter(|&counted: &u64| counted == end - start)
        })?;
        let at_most = |word: &str| digits(word).filter(|&count: &u64| count <= shots);
        let counts = Counts {
            shots,
            unharmed: reader.value("unharmed", AT_MOST, at_most)?,
            results_unharmed: reader.value("results", AT_MOST, at_most)?,
        };
        let part = Part { job, shard, counts };
        let check = fingerprint(part.checked_lines().as_bytes());
        reader.value("check", CHECK, |word| {
            hex(word).filter(|&found| found == check)
        })?;
        reader.is_written_as(&part)
    }
}

const HEX: &str = "a fingerprint of 16 digits from 0 to f";
const NUMBER: &str = "a whole number";
const AT_MOST: &str = "a whole number that is not above the number of counted shots";
const CHECK: &str =
    "the check of the lines above, which were changed or damaged if it is another one";

/// The number that 16 hexadecimal digits are.
fn hex(word: &str) -> Option<u64> {
    let is_digit = |byte: u8| matches!(byte, b'0'..=b'9' | b'a'..=b'f');
    let is_number = word.len() == 16 && word.bytes().all(is_digit);
    u64::from_str_radix(word, 16).ok().filter(|_| is_number)
}

/// The lines of a part, read in order.
struct Reader<'a, I> {
    text: &'a str,
    lines: I,
}

impl<'a, I: Iterator<Item = Line<'a>>> Reader<'a, I> {
    /// Reads the next line, which should have this name.
    fn field<T>(
        &mut self,
        name: &str,
        read: impl FnOnce(&mut Line<'a>) -> Result<T, TextError>,
    ) -> Result<T, TextError> {
        let line = self.lines.next();
        let mut line = line.ok_or_else(|| words::ended(self.text, &format!("'{name}'")))?;
        let value = read(&mut line)?;
        line.end("the end of the line")?;
        Ok(value)
    }

    /// Reads a line that has this name and one word.
    fn value<T>(
        &mut self,
        name: &str,
        expected: &str,
        read: impl Fn(&str) -> Option<T>,
    ) -> Result<T, TextError> {
        self.field(name, |line| {
            line.expect(name)?;
            line.value(expected, read)
        })
    }

    /// The part, if the text is just as it is written: also in its spaces and line ends.
    fn is_written_as(&self, part: &Part) -> Result<Part, TextError> {
        let written = part.to_string();
        let [mut found, mut lines] = [self.text, &written].map(|text| text.split_inclusive('\n'));
        for number in 1.. {
            match (found.next(), lines.next()) {
                (None, None) => break,
                (found, line) if found == line => {}
                (found, line) => return Err(written_otherwise(number, line, found)),
            }
        }
        Ok(*part)
    }
}

/// A line that says the right thing in another way than it is written.
fn written_otherwise(line: usize, expected: Option<&str>, found: Option<&str>) -> TextError {
    let named = |line: Option<&str>| match line {
        Some(line) => format!("{line:?}"),
        None => "the end of the text".to_string(),
    };
    TextError::Unexpected {
        line,
        column: 1,
        expected: named(expected),
        found: named(found),
    }
}
