//! Shards, the files of their counts, and their sum.

use super::{circuit, count, count_on, model, share};
use crate::common::Rng;
use crate::common::trays::draw_circuit;
use cagvost::book::Book;
use cagvost::share::{Counts, Part, Shard, Share, SumError};

const SHOTS: u64 = 10_000;

fn drawn() -> Book {
    draw_circuit(&mut Rng(12), 5, 3, 30, 4)
}

/// All parts of a job, each read from its text.
fn parts(share: &Share, seed: u64, shots: u64, of: u32) -> Vec<Part> {
    let part = |index| {
        let shard = Shard::new(index, of).expect("a shard");
        let counts = count_on(share, seed, shard.range(shots), 2);
        let job = share.job(seed, shots);
        let part = Part { job, shard, counts };
        let read = part.to_string().parse();
        assert_eq!(read, Ok(part));
        part
    };
    (1..=of).map(part).collect()
}

#[test]
fn shards_add_up_to_the_whole() {
    let share = share(&drawn(), "others 0.01");
    for (shots, of) in [(SHOTS, 1), (SHOTS, 3), (SHOTS, 7), (5, 9), (0, 2)] {
        let whole = share.job(4, shots).figure(count(&share, 4, shots));
        let mut parts = parts(&share, 4, shots, of);
        assert_eq!(Part::sum(&parts), Ok(whole));
        parts.reverse();
        let middle = parts.len() / 2;
        parts.swap(0, middle);
        let sum = Part::sum(&parts).expect("all parts");
        assert_eq!(sum.to_string(), whole.to_string());
    }
}

/// One part of a job without measurements, as a file has it. The fingerprints were computed by
/// another program.
#[test]
fn the_text_of_a_part() {
    let book = circuit("qudits 1 dimension 3\nfourier 0");
    let share = share(&book, "fourier z 1");
    let text = parts(&share, 9, 100, 3)[1].to_string();
    let expected = "\
cagvost part 1
circuit 134970da19f144ef
model 104f6a4e2175d484
seed 9
shots 100
measurements 0
shard 2/3
counted 33
unharmed 0
results 33
check 7f7b4bbcd8b3e654
";
    assert_eq!(text, expected);
}

// ---- Sums that are refused

#[test]
fn no_parts_have_no_sum() {
    assert_eq!(Part::sum(&[]), Err(SumError::NoPart));
}

/// Another circuit, model, seed, number of shots or of shards: each is named.
#[test]
fn parts_of_different_jobs_are_not_added() {
    let book = drawn();
    let good = parts(&share(&book, "others 0.01"), 4, 100, 2);
    let refused = |other: Part, said: &str| {
        let error = Part::sum(&[good[0], other]).expect_err(said);
        let words = format!("parts 1 and 2 are of different jobs: the {said} differs");
        assert_eq!(error.to_string(), words);
        let error = Part::sum(&[good[1], good[0], other]).expect_err(said);
        assert!(
            error.to_string().starts_with("parts 1 and 3 are"),
            "{error}"
        );
    };
    let mut changed = book.clone();
    changed.choices_mut()[0] = (book.choices()[0] + 1) % 5;
    refused(
        parts(&share(&changed, "others 0.01"), 4, 100, 2)[1],
        "circuit",
    );
    refused(parts(&share(&book, "others 0.02"), 4, 100, 2)[1], "model");
    refused(parts(&share(&book, "others 0.01"), 5, 100, 2)[1], "seed");
    refused(parts(&share(&book, "others 0.01"), 4, 101, 2)[1], "shots");
    refused(
        parts(&share(&book, "others 0.01"), 4, 100, 3)[1],
        "number of shards",
    );
    let mut other = good[1];
    other.job.measurements += 1;
    refused(other, "measurements");
}

/// A model that means the same in other words is no other model.
#[test]
fn models_are_compared_by_what_they_mean() {
    let book = drawn();
    let job = |text: &str| share(&book, text).job(1, 10);
    assert_eq!(
        job("others 0.01"),
        job("# a comment\nswap uniform 1e-2\nothers 0.010")
    );
    assert_ne!(job("others 0.01"), job("others 0.01\nswap 0.010000001"));
    assert_eq!(model("others 0"), model("fourier 0\nothers 0"));
}

/// Parts that were counted before there were resets and corrections still add up, also where the model
/// has a rate for every kind. The number was computed by another program, of the seven lines that such
/// a model had.
#[test]
fn rates_of_resets_and_corrections_count_if_there_are_some() {
    let model_of = |text: &str, model: &str| share(&circuit(text), model).job(1, 10).model;
    let gates = "qudits 2 dimension 3\nfourier 0\nmeasure 0";
    assert_eq!(model_of(gates, "others 0.01"), 0x38e5_c6ee_6ef1_c0e9);
    let (reset, correct) = ("others 0.01\nreset 0.5", "others 0.01\ncorrect 0.5");
    for (more, counts) in [
        ("", [false, false]),
        ("\nreset 0", [true, false]),
        ("\ncorrect 1 by 0", [false, true]),
        ("\nreset 0\ncorrect 1 by 0", [true, true]),
    ] {
        let text = format!("{gates}{more}");
        let differs = |model| model_of(&text, model) != model_of(&text, "others 0.01");
        assert_eq!([reset, correct].map(differs), counts, "{more}");
    }
}

#[test]
fn shards_that_are_twice_there_or_missing_are_named() {
    let all = parts(&share(&drawn(), "others 0.01"), 4, 100, 9);
    let chosen = |indices: &[usize]| -> Result<_, String> {
        let parts: Vec<Part> = indices.iter().map(|&index| all[index - 1]).collect();
        Part::sum(&parts).map_err(|error| error.to_string())
    };
    assert!(chosen(&[9, 8, 7, 6, 5, 4, 3, 2, 1]).is_ok());
    let twice = chosen(&[1, 2, 3, 2, 5]);
    assert_eq!(twice, Err("parts 2 and 4 are both shard 2/9".to_string()));
    let missing = chosen(&[9, 1, 3, 2, 7]);
    let words = "of 9 shards these are missing: 4 to 6, 8";
    assert_eq!(missing, Err(words.to_string()));
}

// ---- Texts that are refused

/// A part with large numbers, so that its text has many bytes that matter.
fn large_part() -> Part {
    let mut part = parts(&share(&drawn(), "others 0.01"), 123_456_789, 3000, 2)[1];
    part.job.shots = 12_345_678_900;
    part.counts = Counts {
        shots: 6_172_839_450,
        unharmed: 5_172_839_451,
        results_unharmed: 6_172_839_450,
    };
    assert_eq!(part.to_string().parse(), Ok(part));
    part
}

/// What is said of a text that is no part. It names the line.
fn refused(text: &str) -> String {
    let error = text.parse::<Part>().expect_err(text);
    assert!(
        error
            .to_string()
            .starts_with(&format!("line {}, column ", error.line()))
    );
    assert!((1..=12).contains(&error.line()), "{error}");
    error.to_string()
}

#[test]
fn every_changed_byte_is_noticed() {
    let text = large_part().to_string();
    for place in 0..text.len() {
        for byte in b" \n\t#019afAF/zC-+^"
            .iter()
            .copied()
            .chain([text.as_bytes()[place] ^ 1, text.as_bytes()[place] ^ 32])
        {
            let mut bytes = text.clone().into_bytes();
            if bytes[place] != byte {
                bytes[place] = byte;
                refused(&String::from_utf8(bytes).expect("small characters"));
            }
        }
    }
}

#[test]
fn every_cut_and_every_addition_is_noticed() {
    let text = large_part().to_string();
    for place in 0..text.len() {
        refused(&text[..place]);
        refused(&text[place + 1..]);
        refused(&[&text[..place], &text[place + 1..]].concat());
        for more in [" ", "\n", "0", "#", "\u{feff}", "\r"] {
            refused(&[&text[..place], more, &text[place..]].concat());
        }
    }
    refused(&format!("{text}\n"));
    refused(&format!("{text}{text}"));
    refused(&text.replace('\n', "\r\n"));
    refused(&text.to_uppercase());
}

/// The messages of what is likely to go wrong.
#[test]
fn messages_say_what_is_wrong() {
    let text = large_part().to_string();
    let changed = |from: &str, to: &str| {
        assert!(text.contains(from));
        refused(&text.replace(from, to))
    };
    assert!(refused("").contains("expected 'cagvost part 1', found the end of the text"));
    assert!(refused("qudits 2 dimension 3").starts_with("line 1, column 1: expected 'cagvost'"));
    assert!(
        changed("shard 2/2", "shard 3/2").starts_with("line 7, column 7: expected a shard I/N")
    );
    assert!(changed("counted 6", "counted 5").contains("the number of this shard's shots"));
    assert!(changed("unharmed 5", "unharmed 9").contains("not above the number of counted shots"));
    assert!(changed("results 6", "results 9").contains("not above the number of counted shots"));
    assert!(changed("seed 1", "seed 2").starts_with("line 11, column 7: expected the check"));
    assert!(changed("seed 1", "seed -1").contains("expected a whole number, found '-1"));
    let (cut, _) = text.split_once("results").expect("a line");
    assert_eq!(
        refused(cut),
        "line 10, column 1: expected 'results', found the end of the text"
    );
    let end = refused(text.trim_end());
    assert!(
        end.starts_with("line 11, column 1: expected \"check"),
        "{end}"
    );
}

/// A part with a right check whose counts cannot be right is refused all the same.
#[test]
fn counts_must_fit_their_shard() {
    let part = large_part();
    let refused_counts = |change: fn(&mut Counts)| {
        let mut bad = part;
        change(&mut bad.counts);
        refused(&bad.to_string())
    };
    assert!(refused_counts(|counts| counts.shots += 1).starts_with("line 8, column 9"));
    assert!(refused_counts(|counts| counts.unharmed = counts.shots + 1).starts_with("line 9"));
    assert!(refused_counts(|counts| counts.results_unharmed += 1).starts_with("line 10"));
}
