//! The share of unharmed shots of a circuit under an error model.
//!
//! A [`Share`] takes a circuit and an [`ErrorModel`], draws the errors of each shot, runs the shots
//! in trays on as many threads as are asked for, and counts those that were unharmed: that ended in
//! the state of the run without errors, and those in which every measurement had the result of that
//! run.
//!
//! ```
//! use cagvost::book::Book;
//! use cagvost::share::{ErrorModel, Share};
//! use std::num::NonZeroUsize;
//!
//! let circuit: Book = "
//!     qudits 2 dimension 3
//!     fourier 0
//!     sum 0 1
//!     measure 1
//! "
//! .parse()?;
//! let model: ErrorModel = "
//!     fourier  0.001
//!     sum      0.01
//!     measure  x 0.02
//! "
//! .parse()?;
//!
//! let share = Share::new(&circuit, &model)?;
//! let threads = NonZeroUsize::new(2).unwrap();
//! let (seed, shots) = (1, 100_000);
//! let counts = share.count(seed, 0..shots, threads, &|_| {})?;
//! assert_eq!(
//!     share.job(seed, shots).figure(counts).to_string(),
//!     "\
//! shots                  100000   seed 1
//! unharmed                96403   share 0.964030   95 % interval 0.962858 to 0.965166
//! every result unharmed   97148   share 0.971480   95 % interval 0.970430 to 0.972494
//! "
//! );
//! # Ok::<(), Box<dyn std::error::Error>>(())
//! ```
//!
//! # What counts as harm
//!
//! A shot is judged as a [`frame_run`](crate::frame_run) judges it: by its final state, which is
//! compared with that of the run without errors. At a free measurement the run without errors takes
//! the circuit's choice, and the shot that choice raised by the X power which its errors have brought
//! to the qudit. So an X error before a free measurement counts as harm, to the state and to the
//! result, although every outcome was as likely. A free reset takes its choice in the same way. The
//! choices themselves change no count.
//!
//! A correction by the result of a measurement uses the result that the shot has: where it undoes an
//! error that this measurement has found, the state is unharmed, and the result is not.
//!
//! # Where the errors come from
//!
//! Drawing is no part of what is proved. It is kept small: [`Generator`] gives the random numbers of
//! one shot, [`Sampler`] makes its errors of them, and the proved [`tray_run`](crate::tray_run) does
//! the rest. Shot i of a seed depends on the circuit, the model, the seed and i alone, so that the
//! counts are the same on any number of threads, and no operation is used whose result could differ
//! between machines.
//!
//! # Spreading the work
//!
//! A [`Shard`] is a part of the shots, and a [`Part`] its counts with a fingerprint of what was
//! counted. Parts are written to files and [added](Part::sum) to the figure of the whole.
//!
//! # Sweeps
//!
//! A [`Sweep`] is a list of error rates, and a [`Curve`] what was counted at each of them: a table,
//! or a drawing by [`svg`].

mod axis;
mod chart;
mod count;
mod counts;
mod error;
mod figure;
mod fingerprint;
mod generator;
mod interval;
mod kind;
mod logarithm;
mod model;
mod part;
mod rates;
mod sampler;
mod shard;
mod sum;
mod sweep;
mod trays;
mod value;

pub use chart::svg;
pub use count::Share;
pub use counts::Counts;
pub use error::ShareError;
pub use figure::Figure;
pub use generator::{Generator, SplitMix64};
pub use interval::Interval;
pub use kind::Kind;
pub use model::{ErrorModel, ScaleError};
pub use part::{Job, Part};
pub use rates::{Probability, Rates};
pub use sampler::Sampler;
pub use shard::Shard;
pub use sum::SumError;
pub use sweep::{Curve, Point, Sweep};
pub use value::ValueError;
