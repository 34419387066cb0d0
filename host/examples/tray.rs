//! A thousand shots of one noisy circuit: `cargo run --release --example tray`.
//!
//! Four qudits of dimension 5 are entangled and disentangled again, and measured. Without errors
//! each would be found at level 0. The program prints the share of clean shots and of those in which
//! a measurement shows that something went wrong.

use cagvost::book::{Book, Operation, WeylError};
use cagvost::{Refusal, Shots, Tray};

const D: u8 = 5;
const N: u8 = 4;
const SHOTS: usize = 1000;

/// At one place in so many, an error strikes.
const ONE_IN: u64 = 100;

fn main() -> Result<(), Refusal> {
    let book = circuit();
    let tray = noise(book.operations().len());
    let mut tableau = vec![0; cagvost::tableau_len(N.into())];
    let mut out = vec![0; cagvost::shots_len(tray.shots(), book.measurements())];

    cagvost::layer(&mut tableau, D.into(), N.into())?;
    let counts = cagvost::tray_run(&book.to_bytes(), &tray.to_bytes(), &tableau, &mut out)?;

    let share = |count: usize| 100.0 * count as f64 / counts.shots() as f64;
    let shots = Shots::new(&out, counts.shots(), book.measurements());
    let noticed = shots
        .iter()
        .filter(|shot| shot.results.chunks(2).any(|result| result[0] != 0))
        .count();
    println!(
        "{} shots of {} operations",
        counts.shots(),
        book.operations().len()
    );
    println!("clean:   {:5.1} %", share(counts.clean));
    println!("shifted: {:5.1} %", share(counts.shifted));
    println!("noticed: {:5.1} %", share(noticed));
    Ok(())
}

/// Fourier and a chain of SUM, then the inverse of each in reversed order, then all is measured.
fn circuit() -> Book {
    let mut book = Book::new(D, N);
    book.operation(Operation::Fourier { q: 0, times: 1 });
    for c in 0..N - 1 {
        book.operation(sum(c, 1));
    }
    // SUM applied D times is nothing, and so is Fourier applied four times: the inverses are the
    // powers before these, each in one entry.
    for c in (0..N - 1).rev() {
        book.operation(sum(c, D - 1));
    }
    book.operation(Operation::Fourier { q: 0, times: 3 });
    (0..N).for_each(|q| _ = book.measure(q, 0));
    book
}

/// SUM from a qudit to the next.
fn sum(c: u8, times: u8) -> Operation {
    let t = c + 1;
    Operation::Sum { c, t, times }
}

/// An error list for each shot, each error on a drawn qudit with drawn powers.
fn noise(operations: usize) -> Tray {
    let mut state = 1;
    // The high bits of a linear congruence: enough for an example.
    let mut below = |end: u64| {
        state = u64::wrapping_add(
            6364136223846793005u64.wrapping_mul(state),
            1442695040888963407,
        );
        (state >> 33) % end
    };
    let mut tray = Tray::new();
    for _ in 0..SHOTS {
        let mut errors = Vec::new();
        for place in 0..=operations {
            if below(ONE_IN) == 0 {
                errors.push(WeylError {
                    place: place as u16,
                    qudit: below(N.into()) as u8,
                    p: below(D.into()) as u8,
                    s: below(D.into()) as u8,
                });
            }
        }
        tray.shot(&errors);
    }
    tray
}

#[test]
fn it_runs() {
    main().expect("no refusal");
}
