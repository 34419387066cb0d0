//! The share of unharmed shots: one figure, a part of one, or a table over error rates.

use crate::arguments::Arguments;
use crate::progress::Progress;
use crate::{Done, Failure, files};
use cagvost::book::Book;
use cagvost::share::{
    self, Counts, Curve, ErrorModel, Part, Point, Probability, Shard, Share, Sweep,
};
use std::num::{NonZeroU64, NonZeroUsize};
use std::ops::Range;
use std::path::Path;

/// How many shots there are, if nothing else is asked for, and from which seed they are drawn.
const SHOTS: u64 = 100_000;
const SEED: u64 = 1;

pub fn share(arguments: &Arguments) -> Done {
    consistent(arguments)?;
    let sweep = arguments.parsed::<Sweep>("--sweep", "rates as in 0.001,0.01 or 0.001:0.1:9")?;
    let shard = arguments.parsed::<Shard>("--shard", "I/N, with I from 1 to N")?;
    let model = model(arguments)?;
    let request = Request::read(arguments)?;
    request.say_unused_errors();
    match (sweep, model) {
        (Some(sweep), model) => request.sweep(&sweep, model.as_ref(), arguments.value("--svg")),
        (None, Some(model)) => request.once(&model, shard),
        (None, None) => {
            let words = "it needs the error rates: --error P or --model FILE";
            Err(Failure::Usage(words.to_string()))
        }
    }
}

/// Options that exclude or need each other.
fn consistent(arguments: &Arguments) -> Result<(), String> {
    let has = |name| arguments.has(name);
    if has("--error") && has("--model") {
        return Err("--error and --model exclude each other".to_string());
    }
    if has("--error") && has("--sweep") {
        return Err("--sweep has the rates, so there is no --error".to_string());
    }
    if has("--shard") && has("--sweep") {
        return Err("--shard and --sweep exclude each other".to_string());
    }
    if has("--svg") && !has("--sweep") {
        return Err("--svg draws what --sweep counts, and there is no --sweep".to_string());
    }
    if arguments.value("--model") == Some("-") && arguments.names.iter().any(|name| name == "-") {
        return Err("circuit and model cannot both be standard input".to_string());
    }
    Ok(())
}

/// The model that is named, or the one that has the same rate for every operation.
fn model(arguments: &Arguments) -> Result<Option<ErrorModel>, Failure> {
    if let Some(name) = arguments.value("--model") {
        let model = files::text(name)?.parse();
        return model
            .map(Some)
            .map_err(|error| files::refused(name, &error));
    }
    let rate = arguments.parsed("--error", "a probability from 0 to 1")?;
    Ok(rate.map(ErrorModel::uniform))
}

/// The model at a rate of a sweep, which multiplies the rates of a model or stands for all of them.
fn model_at(rate: f64, model: Option<&ErrorModel>) -> Result<ErrorModel, Failure> {
    let at = match model {
        Some(model) => model.scaled(rate).map_err(|error| error.to_string()),
        None => Probability::new(rate)
            .map(ErrorModel::uniform)
            .ok_or(format!("{rate} is no probability")),
    };
    at.map_err(|what| Failure::Usage(format!("--sweep: {what}")))
}

/// What is asked for, whatever is printed of it.
struct Request<'a> {
    name: &'a str,
    book: Book,
    shots: u64,
    seed: u64,
    threads: NonZeroUsize,
}

impl<'a> Request<'a> {
    fn read(arguments: &'a Arguments) -> Result<Request<'a>, Failure> {
        let name = arguments.only_name("a circuit")?;
        let shots = arguments.parsed("--shots", "a whole number from 1 on")?;
        let shots = shots.map_or(SHOTS, NonZeroU64::get);
        let seed = arguments.parsed("--seed", "a whole number")?;
        let threads = arguments.parsed("--threads", "a whole number from 1 on")?;
        Ok(Request {
            name,
            book: files::circuit(name)?,
            shots,
            seed: seed.unwrap_or(SEED),
            threads: threads.unwrap_or_else(processors),
        })
    }

    fn say_unused_errors(&self) {
        let errors = self.book.errors().len();
        if errors > 0 {
            let name = files::called(self.name);
            crate::say(&format!(
                "{name}: its own errors ({errors}) are left out, since others are drawn"
            ));
        }
    }

    /// The circuit under this model.
    fn under(&self, model: &ErrorModel) -> Result<Share, Failure> {
        Share::new(&self.book, model).map_err(|why| files::refused(self.name, &why))
    }

    fn count(&self, share: &Share, shots: Range<u64>) -> Result<Counts, Failure> {
        let progress = Progress::new(shots.end - shots.start);
        let counts = share.count(self.seed, shots, self.threads, &|done| progress.show(done));
        progress.clear();
        counts.map_err(|why| files::refused(self.name, &why))
    }

    /// The figure of all shots, or the part of it that is in a shard.
    fn once(&self, model: &ErrorModel, shard: Option<Shard>) -> Done {
        let share = self.under(model)?;
        let job = share.job(self.seed, self.shots);
        let shots = shard.unwrap_or(Shard::WHOLE).range(self.shots);
        let counts = self.count(&share, shots)?;
        let printed = match shard {
            Some(shard) => Part { job, shard, counts }.to_string(),
            None => job.figure(counts).to_string(),
        };
        files::print(printed.as_bytes())
    }

    /// The table is printed first, so that it is not lost if the drawing cannot be written.
    fn sweep(&self, sweep: &Sweep, model: Option<&ErrorModel>, svg: Option<&str>) -> Done {
        let models = sweep.rates().iter().map(|&rate| model_at(rate, model));
        let models: Vec<ErrorModel> = models.collect::<Result<_, _>>()?;
        let mut points = Vec::new();
        for (&rate, model) in sweep.rates().iter().zip(&models) {
            let counts = self
                .under(model)
                .and_then(|share| self.count(&share, 0..self.shots));
            let counts = counts.map_err(|failure| at_rate(rate, failure))?;
            points.push(Point { rate, counts });
        }
        let (seed, measurements) = (self.seed, self.book.measurements() as u64);
        let curve = Curve {
            seed,
            measurements,
            points,
        };
        files::print(curve.to_string().as_bytes())?;
        let axis = match model {
            Some(_) => "factor of the model's error rates",
            None => "error rate per operation and qudit",
        };
        match svg {
            Some(name) => files::save(name, share::svg(&curve, &self.title(), axis).as_bytes()),
            None => Ok(()),
        }
    }

    /// What a drawing is of: the circuit's name and how much was drawn.
    fn title(&self) -> String {
        let file = Path::new(files::called(self.name)).file_name();
        let name = file.map_or_else(|| self.name.into(), |name| name.to_string_lossy());
        format!("{name}: {} shots per point, seed {}", self.shots, self.seed)
    }
}

/// A refusal, with the rate of the sweep at which it came.
fn at_rate(rate: f64, failure: Failure) -> Failure {
    match failure {
        Failure::Refused(why) => Failure::Refused(format!("at the rate {rate}: {why}")),
        other => other,
    }
}

fn processors() -> NonZeroUsize {
    std::thread::available_parallelism().unwrap_or(NonZeroUsize::MIN)
}
