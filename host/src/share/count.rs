//! Counting unharmed shots: drawing error lists and running them in trays, on many threads.

use super::counts::Counts;
use super::error::ShareError;
use super::fingerprint::fingerprint;
use super::model::ErrorModel;
use super::part::Job;
use super::sampler::Sampler;
use super::trays::Trays;
use crate::book::{Book, MAX_ERRORS};
use crate::{Shots, Tray};
use std::num::NonZeroUsize;
use std::ops::Range;
use std::sync::{Mutex, PoisonError};
use std::thread::{self, ScopedJoinHandle};

/// A circuit under an error model, ready for shots to be counted.
///
/// The shots begin with all qudits at level 0. The circuit's own errors are checked and not used.
#[derive(Clone, Debug)]
pub struct Share {
    /// The circuit without its errors.
    book: Vec<u8>,
    tableau: Vec<u8>,
    /// The results of the run without errors.
    results: Vec<u8>,
    sampler: Sampler,
    unused_errors: usize,
    model: u64,
}

impl Share {
    /// Checks the circuit and the model, and runs the circuit once without errors.
    ///
    /// # Errors
    ///
    /// [`ShareError::Refused`] if a run would refuse the book, [`ShareError::NoRate`] if it has an
    /// operation of a kind for which the model has no rates.
    pub fn new(book: &Book, model: &ErrorModel) -> Result<Share, ShareError> {
        let sampler = Sampler::new(book, model)?;
        let (d, n) = (book.dimension().into(), book.qudits().into());
        let mut share = Share {
            book: book.without_errors().write().map_err(ShareError::Refused)?,
            tableau: vec![0; crate::tableau_len(n)],
            results: vec![0; crate::results_len(book.measurements())],
            sampler,
            unused_errors: book.errors().len(),
            model: fingerprint(model.told_apart(book).to_string().as_bytes()),
        };
        crate::layer(&mut share.tableau, d, n).map_err(ShareError::Refused)?;
        let mut end = share.tableau.clone();
        crate::direct_run(&share.book, &mut end, &mut share.results)
            .map_err(ShareError::Refused)?;
        Ok(share)
    }

    /// What draws the errors of each shot.
    pub fn sampler(&self) -> &Sampler {
        &self.sampler
    }

    /// How many measurements the circuit has.
    pub fn measurements(&self) -> usize {
        self.results.len() / 2
    }

    /// How many errors the circuit itself has. They strike no shot.
    pub fn unused_errors(&self) -> usize {
        self.unused_errors
    }

    /// The job that counts so many shots of this seed, for [`Part`](super::Part).
    pub fn job(&self, seed: u64, shots: u64) -> Job {
        Job {
            circuit: fingerprint(&self.book),
            model: self.model,
            seed,
            shots,
            measurements: self.measurements() as u64,
        }
    }

    /// Counts the unharmed shots among those with these numbers.
    ///
    /// Shot i of a seed has the same errors in every call. So the counts do not depend on the number
    /// of threads, and those of two ranges add up to the counts of both together.
    ///
    /// The shots are run in trays, and after each tray `progress` is told how many are done. It is
    /// called by one thread at a time, with rising numbers.
    ///
    /// ```
    /// use cagvost::book::Book;
    /// use cagvost::share::Share;
    /// use std::num::NonZeroUsize;
    ///
    /// // One qutrit is measured, and half of the time it was moved to another level before.
    /// let mut book = Book::new(3, 1);
    /// book.measure(0, 0);
    /// let share = Share::new(&book, &"measure x 0.5".parse().expect("a model"))?;
    /// let threads = NonZeroUsize::new(2).unwrap();
    /// let count = |shots| share.count(1, shots, threads, &|_| {});
    /// let counts = count(0..10_000)?;
    /// assert_eq!((counts.shots, counts.unharmed), (10_000, 4_973));
    /// assert_eq!(count(0..1_234)? + count(1_234..10_000)?, counts);
    /// # Ok::<(), cagvost::share::ShareError>(())
    /// ```
    ///
    /// # Errors
    ///
    /// [`ShareError::TooManyErrors`] with the first shot of the range that cannot be run.
    pub fn count(
        &self,
        seed: u64,
        shots: Range<u64>,
        threads: NonZeroUsize,
        progress: &(dyn Fn(u64) + Sync),
    ) -> Result<Counts, ShareError> {
        let trays = Trays::new(shots, threads, self.bytes_per_shot());
        let done = Mutex::new(0);
        let tell = |count: u64| {
            let mut done = done.lock().unwrap_or_else(PoisonError::into_inner);
            *done += count;
            progress(*done);
        };
        let work = || self.work(seed, &trays, &tell);
        let counted = thread::scope(|scope| {
            // This thread works too. Where the system has no room for another one, there are fewer.
            let others = 1..trays.count.min(threads.get() as u64);
            let spawn = |_| thread::Builder::new().spawn_scoped(scope, work).ok();
            let others: Vec<_> = others.map_while(spawn).collect();
            let own = work();
            let others = others.into_iter().map(joined);
            others.chain([own]).collect::<Vec<_>>()
        });
        total(counted)
    }

    /// The bytes that a shot takes in a thread's buffers, about.
    fn bytes_per_shot(&self) -> usize {
        let errors = self.sampler.mean_errors().ceil() as usize;
        crate::shots_len(1, self.measurements()) + 2 * 5 * errors
    }

    /// Runs trays until none is left. If a shot cannot be run, no further trays are handed out.
    fn work(
        &self,
        seed: u64,
        trays: &Trays,
        tell: &(dyn Fn(u64) + Sync),
    ) -> Result<Counts, ShareError> {
        let _stop = StopInPanic(trays);
        let mut lent = Lent::default();
        let mut sum = Counts::default();
        while let Some(shots) = trays.next() {
            let counts = self.run(seed, shots, &mut lent);
            let counts = counts.inspect_err(|_| trays.stop())?;
            tell(counts.shots);
            sum = sum + counts;
        }
        Ok(sum)
    }

    /// Draws and runs one tray.
    fn run(&self, seed: u64, shots: Range<u64>, lent: &mut Lent) -> Result<Counts, ShareError> {
        lent.tray.clear();
        for shot in shots {
            let draw = |bytes: &mut Vec<u8>| self.sampler.draw(seed, shot, bytes);
            let errors = lent.tray.append(draw) / 5;
            if errors > MAX_ERRORS {
                return Err(ShareError::TooManyErrors { shot, errors });
            }
        }
        lent.tray.write_to(&mut lent.bytes);
        let (count, measurements) = (lent.tray.shots(), self.measurements());
        lent.out.resize(crate::shots_len(count, measurements), 0);
        let run = crate::tray_run(&self.book, &lent.bytes, &self.tableau, &mut lent.out);
        let run = run.unwrap_or_else(|r| panic!("a tray run refuses drawn errors, a bug: {r}"));
        let shots = Shots::new(&lent.out, count, measurements);
        let results_unharmed = shots.iter().filter(|shot| shot.results == self.results);
        Ok(Counts {
            shots: run.shots() as u64,
            unharmed: run.clean as u64,
            results_unharmed: results_unharmed.count() as u64,
        })
    }
}

/// What a thread uses again for each tray: the errors, the bytes of the tray and what a run fills.
#[derive(Default)]
struct Lent {
    tray: Tray,
    bytes: Vec<u8>,
    out: Vec<u8>,
}

/// In a thread that panics no further trays are handed out, since nobody will have the counts.
struct StopInPanic<'a>(&'a Trays);

impl Drop for StopInPanic<'_> {
    fn drop(&mut self) {
        if thread::panicking() {
            self.0.stop();
        }
    }
}

/// What a thread ended with. If it panicked, so does this one.
fn joined<T>(thread: ScopedJoinHandle<'_, T>) -> T {
    let ended = thread.join();
    ended.unwrap_or_else(|panic| std::panic::resume_unwind(panic))
}

/// The sum, or the error of the first shot that has one.
///
/// Trays are handed out in order and each is drawn to its end or to its first error, so that no tray
/// before the first error is missing.
fn total(counted: Vec<Result<Counts, ShareError>>) -> Result<Counts, ShareError> {
    let first = |error: &ShareError| match error {
        ShareError::TooManyErrors { shot, .. } => *shot,
        ShareError::Refused(_) | ShareError::NoRate(_) => 0,
    };
    let errors = counted.iter().filter_map(|counts| counts.err());
    match errors.min_by_key(first) {
        Some(error) => Err(error),
        None => counted.into_iter().sum(),
    }
}

#[cfg(test)]
mod tests {
    use super::*;

    #[test]
    fn the_first_error_counts() {
        let many = |shot| Err(ShareError::TooManyErrors { shot, errors: 3000 });
        let good = Ok(Counts::default());
        assert_eq!(total(vec![good, many(9), many(4), good]), many(4));
        assert_eq!(total(vec![good, good]), good);
    }
}
