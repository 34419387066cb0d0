//! What is drawn: where errors strike, how often, and by what.

use super::{circuit, is_likely, model};
use crate::common::trays::draw_circuit;
use crate::common::{Rng, sum};
use cagvost::Refusal;
use cagvost::book::{Book, DIMENSIONS, Operation, WeylError};
use cagvost::share::{ErrorModel, Kind, Probability, Sampler, Share, ShareError};
use std::collections::HashMap;

fn sampler(book: &Book, text: &str) -> Sampler {
    Sampler::new(book, &model(text)).unwrap_or_else(|e| panic!("{e}"))
}

/// So many of one operation on qudits 0 and 1.
fn repeated(d: u8, operation: Operation, times: usize) -> Book {
    let mut book = Book::new(d, 2);
    (0..times).for_each(|_| _ = book.operation(operation));
    book
}

fn errors_of(sampler: &Sampler, seed: u64, shots: u64) -> impl Iterator<Item = WeylError> {
    (0..shots).flat_map(move |shot| sampler.errors(seed, shot))
}

/// The chi-square of counts whose means are known is not above its mean, which is the number of
/// counts, by more than six standard deviations.
fn is_even(counts: &[f64], means: &[f64]) {
    let square = |(count, mean): (&f64, &f64)| (count - mean).powi(2) / mean;
    let sum: f64 = counts.iter().zip(means).map(square).sum();
    let freedom = counts.len() as f64;
    let bound = freedom + 6.0 * (2.0 * freedom).sqrt();
    assert!(sum < bound, "{sum} of {freedom}: {counts:?}");
}

// ---- Where

/// Before a measurement, after all else, on its qudits, and in the order of the places.
#[test]
fn errors_strike_the_qudits_of_an_operation_at_its_place() {
    let mut rng = Rng(3);
    for (d, n) in [(3, 1), (3, 5), (7, 64), (31, 20)] {
        let book = draw_circuit(&mut rng, d, n, 150, 50);
        let mut sites: HashMap<(u16, u8), usize> = HashMap::new();
        for (k, operation) in (0u16..).zip(book.operations()) {
            let place = k + u16::from(Kind::of(*operation) != Kind::Measure);
            operation
                .qudits()
                .for_each(|q| *sites.entry((place, q)).or_default() += 1);
        }
        let always = sampler(&book, "others 1");
        let seldom = sampler(&book, "others 0.1");
        for shot in 0..50 {
            let all = always.errors(1, shot);
            let mut struck = HashMap::new();
            all.iter()
                .for_each(|e| *struck.entry((e.place, e.qudit)).or_default() += 1);
            assert_eq!(struck, sites);
            let some = seldom.errors(1, shot);
            assert!(some.iter().all(|e| sites.contains_key(&(e.place, e.qudit))));
            for errors in [all, some] {
                assert!(errors.is_sorted_by_key(|e| e.place));
                let is_error = |e: &WeylError| (e.p, e.s) != (0, 0) && e.p < d && e.s < d;
                assert!(errors.iter().all(is_error));
            }
        }
    }
}

#[test]
fn the_places_of_a_small_circuit() {
    let book = circuit(
        "qudits 4 dimension 3\nfourier 2\nmeasure 1\nmeasure 1\nsum 3 0\nswap 1 2\nmeasure 0",
    );
    let sampler = sampler(&book, "others x 1 z 1");
    let errors = sampler.errors(5, 6);
    let places: Vec<_> = errors
        .iter()
        .map(|e| (e.place, e.qudit, e.p > 0, e.s > 0))
        .collect();
    let sites = [
        (1, 2),
        (1, 1),
        (2, 1),
        (4, 3),
        (4, 0),
        (5, 1),
        (5, 2),
        (5, 0),
    ];
    let both = |(place, q)| [(place, q, true, false), (place, q, false, true)];
    assert!(places.into_iter().eq(sites.into_iter().flat_map(both)));
}

#[test]
fn draw_appends_the_bytes_of_errors() {
    let book = draw_circuit(&mut Rng(8), 5, 6, 80, 20);
    let sampler = sampler(&book, "others x 0.02 z 0.03");
    let mut bytes = vec![9, 9];
    for shot in 0..200 {
        let before = bytes.clone();
        sampler.draw(3, shot, &mut bytes);
        let errors = sampler.errors(3, shot);
        let appended = errors.into_iter().flat_map(|error| error.to_bytes());
        assert_eq!(
            bytes,
            before.into_iter().chain(appended).collect::<Vec<u8>>()
        );
    }
    assert!(bytes.len() > 2000);
}

// ---- How often

/// How often each of the sites that have the places 0, 1, .. is struck.
fn strikes(sampler: &Sampler, sites: usize, seed: u64, shots: u64) -> Vec<f64> {
    let mut counts = vec![0.0; sites];
    for error in errors_of(sampler, seed, shots) {
        counts[usize::from(error.place)] += 1.0;
    }
    counts
}

fn measured(times: usize) -> Book {
    let mut book = Book::new(3, 1);
    (0..times).for_each(|_| _ = book.measure(0, 0));
    book
}

#[test]
fn every_site_is_struck_with_its_probability() {
    for p in [0.001, 0.02, 0.3, 0.5, 0.77, 0.999] {
        let sampler = sampler(&measured(64), &format!("measure {p}"));
        let counts = strikes(&sampler, 64, 17, 20_000);
        counts
            .iter()
            .for_each(|&count| is_likely(count as u64, 20_000, p));
        is_likely(counts.iter().sum::<f64>() as u64, 64 * 20_000, p);
    }
}

#[test]
fn never_and_always() {
    let book = circuit("qudits 2 dimension 3\nsum 0 1\nfourier 0\nmeasure 1\nsum 1 0\nfourier 1");
    let sampler = sampler(&book, "sum 1\nfourier 0\nmeasure x 0 z 1");
    for shot in 0..20_000 {
        let errors = sampler.errors(2, shot);
        let places: Vec<_> = errors
            .iter()
            .map(|error| (error.place, error.qudit))
            .collect();
        assert_eq!(places, [(1, 0), (1, 1), (2, 1), (4, 1), (4, 0)]);
    }
    let never = self::sampler(&book, "others 0");
    assert!((0..1000).all(|shot| never.errors(2, shot).is_empty()));
    // Between sites that are always struck, those that seldom are keep their probability.
    let sampler = self::sampler(&book, "sum 1\nfourier 0.25\nmeasure 1");
    let struck = errors_of(&sampler, 3, 20_000).count() as u64 - 5 * 20_000;
    is_likely(struck, 2 * 20_000, 0.25);
}

/// Frequent and rare sites by turns: 0.3 and 0.00003.
#[test]
fn rates_that_differ_much() {
    let mut book = Book::new(3, 1);
    for _ in 0..100 {
        book.operation(Operation::Fourier { q: 0, times: 1 })
            .measure(0, 0);
    }
    let sampler = sampler(&book, "fourier x 0.3\nmeasure z 0.00003");
    let (mut frequent, mut rare) = (0, 0);
    for error in errors_of(&sampler, 29, 100_000) {
        match error.s {
            0 => frequent += 1,
            _ => rare += 1,
        }
    }
    is_likely(frequent, 100 * 100_000, 0.3);
    is_likely(rare, 100 * 100_000, 0.00003);
}

/// A rate of a millionth, at 8,192 sites.
#[test]
fn small_rates() {
    let sampler = sampler(&repeated(3, sum(0, 1), 4096), "sum 1e-6");
    let places: Vec<u16> = errors_of(&sampler, 37, 200_000)
        .map(|error| error.place)
        .collect();
    is_likely(places.len() as u64, 8192 * 200_000, 1e-6);
    let mut counts = [0.0; 16];
    places
        .iter()
        .for_each(|place| counts[usize::from((place - 1) / 256)] += 1.0);
    is_even(&counts, &[places.len() as f64 / 16.0; 16]);
}

// ---- By what

#[test]
fn every_weyl_error_is_equally_likely() {
    for d in DIMENSIONS {
        let sampler = sampler(&repeated(d, sum(0, 1), 300), "sum 0.5");
        let mut counts = vec![0.0; usize::from(d).pow(2)];
        errors_of(&sampler, d.into(), 400)
            .for_each(|e| counts[usize::from(e.p) * usize::from(d) + usize::from(e.s)] += 1.0);
        assert_eq!(counts.remove(0), 0.0);
        let mean = counts.iter().sum::<f64>() / counts.len() as f64;
        is_even(&counts, &vec![mean; counts.len()]);
    }
}

#[test]
fn every_power_of_x_and_of_z_is_equally_likely() {
    for d in DIMENSIONS {
        let sampler = sampler(&repeated(d, sum(0, 1), 100), "sum x 0.4 z 0.2");
        let mut counts = [vec![0.0; d.into()], vec![0.0; d.into()]];
        for error in errors_of(&sampler, d.into(), 400) {
            match (error.p, error.s) {
                (p, 0) => counts[0][usize::from(p)] += 1.0,
                (0, s) => counts[1][usize::from(s)] += 1.0,
                _ => panic!("{error:?}"),
            }
        }
        for (mut counts, p) in counts.into_iter().zip([0.4, 0.2]) {
            assert_eq!(counts.remove(0), 0.0);
            let all: f64 = counts.iter().sum();
            is_likely(all as u64, 400 * 200, p);
            is_even(&counts, &vec![all / counts.len() as f64; counts.len()]);
        }
    }
}

// ---- Independence

/// Whether two events that each have probability p are independent: the four cases are as frequent as
/// products of p and 1 − p.
fn are_independent(cases: [f64; 4], p: f64) {
    let all: f64 = cases.iter().sum();
    let q = 1.0 - p;
    is_even(
        &cases,
        &[q * q, q * p, p * q, p * p].map(|share| share * all),
    );
}

#[test]
fn neighbouring_sites_and_successive_shots_are_independent() {
    for p in [0.02, 0.3, 0.8] {
        let sampler = sampler(&measured(40), &format!("measure {p}"));
        let struck: Vec<[bool; 40]> = (0..20_000)
            .map(|shot| {
                let errors = sampler.errors(43, shot);
                let mut struck = [false; 40];
                errors
                    .iter()
                    .for_each(|e| struck[usize::from(e.place)] = true);
                struck
            })
            .collect();
        let case = |one: bool, other: bool| 2 * usize::from(one) + usize::from(other);
        let mut sites = [0.0; 4];
        let mut shots = [0.0; 4];
        for pair in struck.chunks(2) {
            pair[0]
                .chunks(2)
                .for_each(|s| sites[case(s[0], s[1])] += 1.0);
            pair[0][1..39]
                .chunks(2)
                .for_each(|s| sites[case(s[0], s[1])] += 1.0);
            (0..40).for_each(|i| shots[case(pair[0][i], pair[1][i])] += 1.0);
        }
        are_independent(sites, p);
        are_independent(shots, p);
    }
}

/// Powers on two struck sites are independent of each other, and of those in the next shot.
#[test]
fn powers_are_independent() {
    let sampler = sampler(&measured(2), "measure 1");
    let mut within = [0.0; 64];
    let mut between = [0.0; 64];
    let index = |e: &WeylError| usize::from(e.p * 3 + e.s) - 1;
    let mut last = 0;
    for shot in 0..64_000 {
        let [one, other] = sampler.errors(47, shot)[..] else {
            panic!("two sites")
        };
        within[8 * index(&one) + index(&other)] += 1.0;
        between[8 * last + index(&one)] += 1.0;
        last = index(&one);
    }
    for counts in [within, between] {
        is_even(&counts, &[1000.0; 64]);
    }
}

/// The number of errors in a shot has the mean and the variance of independent sites.
#[test]
fn the_number_of_errors_is_binomial() {
    let sampler = sampler(&measured(400), "measure 0.05");
    let counts: Vec<f64> = (0..20_000)
        .map(|shot| sampler.errors(53, shot).len() as f64)
        .collect();
    let shots = counts.len() as f64;
    let mean = counts.iter().sum::<f64>() / shots;
    let variance = counts
        .iter()
        .map(|count| (count - mean).powi(2))
        .sum::<f64>()
        / shots;
    assert!((mean - 20.0).abs() < 5.0 * (19.0 / shots).sqrt(), "{mean}");
    assert!(
        (variance - 19.0).abs() < 5.0 * 19.0 * (2.1 / shots).sqrt(),
        "{variance}"
    );
}

// ---- Seeds and models

/// Draws that were computed by another program, from the description of the method. A change of the
/// generator or of the method would change every figure.
#[test]
fn known_draws() {
    let book = circuit("qudits 2 dimension 5\nfourier 0\nsum 0 1 ^2\nmeasure 1");
    let half = ErrorModel::uniform(Probability::new(0.5).expect("half"));
    let sampler = Sampler::new(&book, &half).expect("a good book");
    let drawn = |seed, shot| -> Vec<[u8; 4]> {
        let errors = sampler.errors(seed, shot).into_iter();
        errors.map(|e| [e.place as u8, e.qudit, e.p, e.s]).collect()
    };
    assert_eq!(drawn(1, 0), [[1, 0, 0, 2], [2, 0, 3, 2], [2, 1, 0, 2]]);
    assert_eq!(drawn(1, 1), [[2, 0, 3, 1]]);
    assert_eq!(drawn(2, 0), [[1, 0, 1, 0], [2, 1, 0, 2]]);
    let last = drawn(u64::MAX, u64::MAX);
    assert_eq!(last, [[1, 0, 3, 4], [2, 0, 0, 3], [2, 1, 1, 1]]);
}

#[test]
fn another_seed_gives_other_errors() {
    let sampler = sampler(&measured(200), "measure 0.3");
    let mut lists: Vec<Vec<u8>> = Vec::new();
    for (seed, shot) in (0..30).flat_map(|seed| (0..30).map(move |shot| (seed, shot))) {
        let mut bytes = Vec::new();
        sampler.draw(seed, shot, &mut bytes);
        lists.push(bytes);
    }
    lists.sort();
    lists.dedup();
    assert_eq!(lists.len(), 900);
}

/// Each operation has the rates of its own line, and of no other.
#[test]
fn each_kind_has_its_own_rates() {
    let book = circuit(
        "qudits 2 dimension 5\nfourier 0\nphase 0\nsum 0 1\ncz 0 1\nswap 0 1\nmultiplier 0 by 2\n\
         measure 0\nreset 0\ncorrect 1 by 0",
    );
    let kinds: [(&str, &[u16]); 9] = [
        ("fourier", &[1]),
        ("phase", &[2]),
        ("sum", &[3, 3]),
        ("cz", &[4, 4]),
        ("swap", &[5, 5]),
        ("multiplier", &[6]),
        ("measure", &[6]),
        ("reset", &[8]),
        ("correct", &[9]),
    ];
    assert!(kinds.map(|(name, _)| name) == Kind::ALL.map(Kind::name));
    for (kind, places) in kinds {
        let sampler = sampler(&book, &format!("{kind} 1\nothers 0"));
        let struck: Vec<u16> = sampler.errors(1, 0).iter().map(|e| e.place).collect();
        assert_eq!(struck, places, "{kind}");
    }
}

/// A kind that the circuit has and the model does not name is an error, and not a rate of 0.
#[test]
fn a_kind_without_rates_is_refused() {
    let book = circuit("qudits 2 dimension 3\nfourier 0\nswap 0 1\nmeasure 0");
    let refused = |text: &str| Share::new(&book, &model(text)).err();
    assert_eq!(refused("fourier 0\nswap 0\nmeasure 0"), None);
    assert_eq!(refused("fourier 0\nothers 0"), None);
    assert_eq!(
        refused("fourier 0\nmeasure 0"),
        Some(ShareError::NoRate(Kind::Swap))
    );
    assert_eq!(refused("sum 0"), Some(ShareError::NoRate(Kind::Fourier)));
    // A model from before there were resets and corrections says nothing of them.
    let book = circuit("qudits 2 dimension 3\nmeasure 0\nreset 0\ncorrect 1 by 0");
    let refused = |text: &str| Share::new(&book, &model(text)).err();
    assert_eq!(refused("measure 0"), Some(ShareError::NoRate(Kind::Reset)));
    assert_eq!(
        refused("measure 0\nreset 0"),
        Some(ShareError::NoRate(Kind::Correct))
    );
    assert_eq!(refused("measure 0\nreset 0\ncorrect 0"), None);
    assert_eq!(refused("measure 0\nothers 0"), None);
    let error = ShareError::NoRate(Kind::Swap).to_string();
    assert!(
        error.contains("'swap'") && error.contains("'others'"),
        "{error}"
    );
}

#[test]
fn a_bad_book_is_refused() {
    let refused = |book: &Book| Share::new(book, &model("others 0.1")).err();
    let mut book = Book::new(4, 1);
    assert_eq!(
        refused(&book),
        Some(ShareError::Refused(Refusal::Dimension))
    );
    book = Book::new(0, 0);
    assert_eq!(
        refused(&book),
        Some(ShareError::Refused(Refusal::Dimension))
    );
    book = Book::new(3, 1);
    book.operation(sum(0, 0));
    let refusal = Refusal::Operation { index: 0 };
    assert_eq!(refused(&book), Some(ShareError::Refused(refusal)));
    assert_eq!(
        ShareError::Refused(refusal).to_string(),
        refusal.to_string()
    );
    book = Book::new(3, 1);
    book.error(1, 0, 0);
    let refusal = Refusal::ErrorEntry { index: 0 };
    assert_eq!(refused(&book), Some(ShareError::Refused(refusal)));
}
