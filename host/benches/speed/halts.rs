//! Direct runs that halt and go on, and looks.

use crate::books::{self, Mix, certain_tableau, dense_tableau};
use crate::calls::{Columns, DIRECT, Job, Lent, Returned, TEST};
use crate::common::halts::{look_as_numbers, reached};
use crate::common::plain;
use crate::timing::{Unit, compare, head, line, take, take_beyond};
use crate::tuned::{self, Even, Specified};
use crate::{QUDITS, full_job};
use cagvost::book::Book;
use std::time::Duration;

/// How long the columns of a line take turns.
const BUDGET: Duration = Duration::from_millis(400);

/// A run is cut into so many calls.
const CALLS: usize = 64;

/// The qudit that is looked at.
const LOOKED_AT: usize = 40;

/// A call to go on: the book, the tableau, the results, the number and the count.
type GoOn = fn(&[u8], &mut [u8], &mut [u8], usize, usize) -> Returned;

fn by_cagvost(
    book: &[u8],
    t: &mut [u8],
    results: &mut [u8],
    from: usize,
    count: usize,
) -> Returned {
    reached(cagvost::go_on(book, t, results, from, count))
}

/// Goes on to the finish.
const GO_ON: Columns<4> = [
    |job, lent| finish(job, lent, by_cagvost),
    |job, lent| finish(job, lent, tuned::go_on::<Specified>),
    |job, lent| finish(job, lent, plain::go_on),
    |job, lent| finish(job, lent, tuned::go_on::<Even>),
];

fn finish(job: &Job, Lent { run, .. }: &mut Lent, go_on: GoOn) -> Returned {
    let (t, results) = (&mut run.tableau, &mut run.results);
    go_on(&job.book, t, results, job.from, usize::MAX)
}

/// The whole run, in as many calls.
const IN_CALLS: Columns<4> = [
    |job, lent| in_calls(job, lent, by_cagvost),
    |job, lent| in_calls(job, lent, tuned::go_on::<Specified>),
    |job, lent| in_calls(job, lent, plain::go_on),
    |job, lent| in_calls(job, lent, tuned::go_on::<Even>),
];

fn in_calls(job: &Job, Lent { run, .. }: &mut Lent, go_on: GoOn) -> Returned {
    let count = (job.operations() + 1).div_ceil(CALLS);
    let mut returned = (0, 0, 0);
    for _ in 0..CALLS {
        let (t, results) = (&mut run.tableau, &mut run.results);
        returned = go_on(&job.book, t, results, returned.2, count);
    }
    returned
}

const LOOK: Columns<3> = [
    |_, lent| look_as_numbers(cagvost::look(&lent.run.tableau, LOOKED_AT)),
    |_, lent| tuned::look(&lent.run.tableau, LOOKED_AT),
    |_, lent| plain::look_call(&lent.run.tableau, LOOKED_AT),
];

/// Runs with halts, then looks.
pub fn halts(dimensions: &[u8]) {
    refused_calls();
    head(
        "Full books on 64 qudits in one call and in 64. Last stage: going on behind all operations, where no \
         errors are left.\nA call that does nothing, given last, is subtracted: what remains has found which \
         errors, choices and results are\nspent, and has made its tables.",
        "µs per call",
    );
    for &d in dimensions {
        for mix in [Mix::Mixed, Mix::Memory] {
            cut(mix, d);
        }
    }
    head(
        "A look on 64 qudits, and the tableau test, which it makes first.",
        "ns per look",
    );
    dimensions.iter().for_each(|&d| looks(d));
}

fn cut(mix: Mix, d: u8) {
    let job = full_job(mix, d, QUDITS);
    let label = |what: &str| format!("{:<11} d {d:<2} {what}", mix.name());
    let [whole, parts] = [&DIRECT, &IN_CALLS].map(|columns| compare(&job, columns));
    assert!(whole == parts, "halts changed a run");
    let micros = |what: &str, times| line(&label(what), Unit::MicrosPerCall, &times);
    micros("in 1 call", take(&job, &DIRECT, BUDGET));
    micros("in 64 calls", take(&job, &IN_CALLS, BUDGET));
    let [last, nothing] = [0, 1].map(|past| {
        let mut job = full_job(mix, d, QUDITS);
        job.from = job.operations() + past;
        job
    });
    micros("last stage", take_beyond(&last, &nothing, &GO_ON, BUDGET));
    micros("nothing", take(&nothing, &GO_ON, BUDGET));
}

fn looks(d: u8) {
    for (kind, free, tableau) in [
        ("free", 1, dense_tableau(d, QUDITS)),
        ("certain", 0, certain_tableau(d, QUDITS)),
    ] {
        let job = Job::new(&Book::new(d, QUDITS), tableau);
        let (number, told, _) = compare(&job, &LOOK).0;
        assert_eq!((number, told), (0, free));
        let nanos =
            |what: &str, times| line(&format!("d {d:<2} {what}"), Unit::NanosPer(1), &times);
        nanos(&format!("look, {kind}"), take(&job, &LOOK, BUDGET));
        nanos(
            &format!("test of the {kind} one"),
            take(&job, &TEST, BUDGET),
        );
    }
}

/// The columns refuse alike what can be wrong with a number. Nothing is timed.
fn refused_calls() {
    let mut job = Job::new(&books::of_gates(31, QUDITS, 8), dense_tableau(31, QUDITS));
    for (from, expected) in [
        (0, (0, 0, 9)),
        (8, (0, 0, 9)),
        (9, (0, 0, 9)),
        (10, (13, 0, 0)),
    ] {
        job.from = from;
        assert_eq!(compare(&job, &GO_ON).0, expected, "from {from}");
    }
    let job = Job::new(&Book::new(31, 1), dense_tableau(31, 1));
    assert_eq!(compare(&job, &LOOK).0, (13, 0, 0));
}
