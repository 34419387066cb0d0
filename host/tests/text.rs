//! Circuits as text, and books from bytes: what is read back, what is refused, and where.

use crate::common;

use cagvost::book::{
    Book, DIMENSIONS, MAX_CHOICES, MAX_ERRORS, MAX_OPERATIONS, MAX_QUDITS, Operation, WeylError,
};
use cagvost::{Refusal, TextError};
use common::{FULL, PAPER_BOOK, Rng, Shape, damage, draw_book, paper_book, plain};
use std::fs;

fn parse(text: &str) -> Result<Book, TextError> {
    text.parse()
}

/// Parses lines behind a header for three qudits of dimension 5.
fn parse_lines(lines: &str) -> Result<Book, TextError> {
    parse(&format!("qudits 3 dimension 5\n{lines}"))
}

/// A text and its book, which must be made of each other.
fn are_each_others(text: &str, book: &Book) {
    assert_eq!(parse(text).as_ref(), Ok(book), "{text}");
    assert_eq!(book.to_string(), text);
}

// ---- There and back

#[test]
fn the_specifications_book_as_text() {
    let text =
        "qudits 2 dimension 3\nfourier 0\nsum 0 1\nerror 1 x\nmeasure 0 choose 2\nmeasure 1\n";
    are_each_others(text, &paper_book());
    assert_eq!(parse(text).unwrap().write().unwrap(), PAPER_BOOK);
    assert_eq!(Book::from_bytes(&PAPER_BOOK), Ok(paper_book()));
}

/// Every line that the text form has, each as the bytes that it stands for.
#[test]
fn each_line_has_its_bytes() {
    for (line, entry) in [
        ("fourier 1", [0, 1, 0, 0]),
        ("fourier 2 ^2", [0, 2, 0, 2]),
        ("fourier 0 ^3", [0, 0, 0, 3]),
        ("phase 2", [1, 2, 0, 0]),
        ("phase 1 ^4", [1, 1, 0, 4]),
        ("sum 0 2", [2, 0, 2, 0]),
        ("sum 2 1 ^3", [2, 2, 1, 3]),
        ("cz 1 0", [3, 1, 0, 0]),
        ("cz 0 1 ^2", [3, 0, 1, 2]),
        ("swap 2 0", [4, 2, 0, 0]),
        ("multiplier 1 by 1", [5, 1, 0, 1]),
        ("multiplier 2 by 4", [5, 2, 0, 4]),
        ("measure 2", [6, 2, 0, 0]),
        ("reset 1", [7, 1, 0, 0]),
    ] {
        let book = parse_lines(line).unwrap();
        assert_eq!(book.bodies()[0], entry, "{line}");
        are_each_others(&format!("qudits 3 dimension 5\n{line}\n"), &book);
        let operation = Operation::from_bytes(entry).unwrap();
        assert_eq!(
            (operation.to_string(), operation.to_bytes()),
            (line.to_string(), entry)
        );
    }
}

/// A correction after so many measurements, the last of which it names: the low byte comes first.
#[test]
fn a_correction_has_its_bytes() {
    for (m, [low, high]) in [
        (0, [0, 0]),
        (1, [1, 0]),
        (255, [255, 0]),
        (256, [0, 1]),
        (258, [2, 1]),
        (4094, [254, 15]),
    ] {
        let measured = "measure 0\n".repeat(usize::from(m) + 1);
        let book = parse_lines(&format!("{measured}correct 2 by {m}\n")).unwrap();
        let entry = [8, 2, low, high];
        assert!(book.bodies()[0].ends_with(&entry), "{m}");
        let operation = Operation::Correct { t: 2, m };
        assert_eq!(book.operations().last(), Some(&operation));
        assert_eq!(Operation::from_bytes(entry), Some(operation));
        assert_eq!(operation.to_string(), format!("correct 2 by {m}"));
        comes_back(&book);
    }
}

/// A reset takes the next choice, as a measurement does, and a correction takes none.
#[test]
fn resets_have_choices() {
    let text = "qudits 3 dimension 5\nreset 0 choose 3\nmeasure 1\ncorrect 2 by 0\nreset 2\n\
                measure 0 choose 4\nerror 1 x\nreset 1 choose 1\n";
    let mut book = Book::new(5, 3);
    book.reset(0, 3).measure(1, 0).correct(2, 0).reset(2, 0);
    book.measure(0, 4).error(1, 1, 0).reset(1, 1);
    are_each_others(text, &book);
    assert_eq!(
        (book.choices(), book.measurements()),
        (&[3, 0, 0, 4, 1][..], 2)
    );
    comes_back(&book);
}

#[test]
fn each_error_has_its_bytes() {
    for (line, [qudit, p, s]) in [
        ("error 1 x", [1, 1, 0]),
        ("error 2 z", [2, 0, 1]),
        ("error 0 x^2", [0, 2, 0]),
        ("error 0 z^4", [0, 0, 4]),
        ("error 1 x z", [1, 1, 1]),
        ("error 1 x^2 z", [1, 2, 1]),
        ("error 1 x z^3", [1, 1, 3]),
        ("error 1 i", [1, 0, 0]),
    ] {
        let book = parse_lines(&format!("fourier 0\n{line}\nfourier 0\n")).unwrap();
        assert_eq!(book.bodies()[1], [1, 0, qudit, p, s], "{line}");
        assert_eq!(book.errors()[0].to_string(), line);
        assert_eq!(WeylError::from_bytes([1, 0, qudit, p, s]), book.errors()[0]);
    }
}

/// The place of an error is where its line stands.
#[test]
fn errors_strike_before_the_next_operation() {
    let text = "error 0 x\nerror 1 z\nfourier 0\nfourier 1\nerror 2 x^2\nmeasure 2\nerror 0 i\n";
    let book = parse_lines(text).unwrap();
    let places: Vec<u16> = book.errors().iter().map(|error| error.place).collect();
    assert_eq!(places, [0, 0, 2, 3]);
    are_each_others(&format!("qudits 3 dimension 5\n{text}"), &book);
}

#[test]
fn what_may_be_written_in_other_ways() {
    let book =
        parse("qudits 3 dimension 5\nphase 1 ^2\nerror 2 x^3 z\nmeasure 2 choose 4\nmeasure 0\n");
    for text in [
        "qudits 3 dimension 5\nphase 1^2\nerror 2 x ^3 z ^1\nmeasure 2 choose 4\nmeasure 0 choose 0",
        "\u{feff}# comment\n\n  QUDITS 3 Dimension 5 # header\r\n\tPhase 1 ^ 2#twice\r\nERROR 2 X^3 Z\r\n\
         \r\nMeasure 2 CHOOSE 4\nmeasure 0\n# end",
        "qudits 003 dimension 05\nphase 01 ^02\nerror 2 x^3 z^01\nmeasure 2 choose 4\nmeasure 0\n",
    ] {
        assert_eq!(parse(text), book, "{text}");
    }
    assert_eq!(
        parse_lines("MEASURE 0\nReset 1 Choose 0\n\tCORRECT 02 BY 000 # by the first"),
        parse_lines("measure 0\nreset 1\ncorrect 2 by 0")
    );
    let once = parse_lines("fourier 0 ^1\nerror 1 x^1 z^0\nerror 1 x^0").unwrap();
    are_each_others(
        "qudits 3 dimension 5\nfourier 0\nerror 1 x\nerror 1 i\n",
        &once,
    );
}

/// Books of every dimension, of one to 64 qudits, with every operation.
#[test]
fn drawn_books_come_back() {
    let mut rng = Rng(22);
    let mut seen = 0;
    for d in DIMENSIONS {
        for n in [1, 2, 3, 9, 10, 11, 63, MAX_QUDITS] {
            for _ in 0..20 {
                let (operations, errors) = (rng.below(60), rng.below(30));
                let measure_one_in = 4;
                let shape = Shape {
                    d,
                    n,
                    operations,
                    errors,
                    measure_one_in,
                };
                comes_back(&draw_book(&mut rng, shape));
                seen += operations;
            }
        }
    }
    assert!(seen > 40_000, "{seen}");
    comes_back(&draw_book(&mut rng, FULL));
}

fn comes_back(book: &Book) {
    let text = book.to_string();
    are_each_others(&text, book);
    let lines = 1 + book.operations().len() + book.errors().len();
    assert_eq!(text.lines().count(), lines, "{text}");
    let bytes = book.write().unwrap();
    assert_eq!(bytes, book.to_bytes());
    assert_eq!(Book::from_bytes(&bytes).as_ref(), Ok(book), "{text}");
}

/// Every entry that four bytes below 10 can be: those that are operations come back as they were.
#[test]
fn an_entry_is_an_operation_or_none() {
    let mut operations = 0;
    for number in 0..10u32.pow(4) {
        let entry = [1000, 100, 10, 1].map(|unit| (number / unit % 10) as u8);
        match Operation::from_bytes(entry) {
            Some(operation) => {
                operations += 1;
                assert_eq!(operation.to_bytes(), entry);
                let on_two = usize::from(matches!(entry[0], 2..=4));
                let qudits = [vec![entry[1]], vec![entry[1], entry[2]]];
                assert_eq!(Vec::from_iter(operation.qudits()), qudits[on_two]);
            }
            // A good entry of a book is never none.
            None => assert_eq!(plain::decode(7, 8, &entry), None, "{entry:?}"),
        }
    }
    // Fourier, phase gate, multiplier: 10² each; SUM, CZ, correction: 10³; swap 10²; measurement and
    // reset 10.
    assert_eq!(operations, 3 * 100 + 3 * 1000 + 100 + 2 * 10);
}

/// Measurements are counted among the operations, whatever choices there are.
#[test]
fn measurements_and_choices_are_counted_apart() {
    let mut book = Book::new(3, 2);
    book.operation(Operation::Measure { q: 1 });
    assert_eq!((book.measurements(), book.choices().len()), (1, 0));
    book.choice(2).choice(0);
    assert_eq!((book.measurements(), book.choices().len()), (1, 2));
    assert_eq!(book.write(), Err(Refusal::Choice { index: 1 }));
    assert!(
        book.to_string()
            .ends_with("\nchoice 0 without a measurement or a reset\n")
    );
    book.operation(Operation::Reset { q: 0 });
    assert_eq!((book.measurements(), book.choices().len()), (1, 2));
    assert_eq!(book.write(), Ok(book.to_bytes()));
    book.operation(Operation::Reset { q: 1 });
    assert_eq!(book.write(), Err(Refusal::Choice { index: 2 }));
    assert!(book.to_string().ends_with("\nreset 1 without a choice\n"));
}

#[test]
fn the_stored_books_come_back() {
    let mut accepted = 0;
    for entry in fs::read_dir("../examples").expect("the examples") {
        let path = entry.expect("an example").path();
        if path.extension().is_none_or(|extension| extension != "book") {
            continue;
        }
        let bytes = fs::read(&path).expect("a book");
        match plain::read(&bytes) {
            Ok(_) => {
                let book = Book::from_bytes(&bytes).expect("accepted");
                comes_back(&book);
                assert_eq!(book.to_bytes(), bytes, "{}", path.display());
                accepted += 1;
            }
            Err((number, place)) => {
                let refusal = Book::from_bytes(&bytes).expect_err("refused");
                assert_eq!((refusal.number(), refusal.place()), (number, place));
            }
        }
    }
    assert!(accepted >= 12, "{accepted}");
}

// ---- What is refused

/// Bytes that a run refuses are refused with the same number and place, others are read as they are.
#[test]
fn damaged_bytes_are_refused_as_a_run_does() {
    let mut rng = Rng(23);
    let mut numbers = [0; 8];
    for _ in 0..20_000 {
        let shape = Shape::small(&mut rng);
        let mut bytes = draw_book(&mut rng, shape).to_bytes();
        (0..1 + rng.below(2)).for_each(|_| damage(&mut rng, &mut bytes));
        let number = match (Book::from_bytes(&bytes), plain::read(&bytes)) {
            (Ok(book), Ok(_)) => {
                assert_eq!(book.to_bytes(), bytes);
                0
            }
            (Err(refusal), Err(returned)) => {
                assert_eq!(
                    (refusal.number(), refusal.place()),
                    returned,
                    "{bytes:02x?}"
                );
                refusal.number()
            }
            (one, other) => panic!("{one:?} and {:?}: {bytes:02x?}", other.err()),
        };
        numbers[number] += 1;
    }
    assert!(numbers.iter().all(|&times| times >= 20), "{numbers:?}");
}

/// A book of any values, good or bad, is read back from its text if the writer accepts it. If not, the
/// text is refused, by the writer's number where the text can say what is wrong.
#[test]
fn no_text_is_taken_for_another_book() {
    let mut rng = Rng(24);
    let [mut read, mut refused, mut unexpected] = [0; 3];
    for _ in 0..20_000 {
        let book = draw_any(&mut rng);
        match (book.write(), parse(&book.to_string())) {
            (Ok(_), parsed) => {
                assert_eq!(parsed.as_ref(), Ok(&book));
                read += 1;
            }
            (Err(number), Err(TextError::Refused { refusal, .. })) => {
                assert_eq!(refusal, number, "{book}");
                refused += 1;
            }
            (Err(_), Err(TextError::Unexpected { .. })) => {
                let text = book.to_string();
                let unsaid = [" without a ", " at place "];
                assert!(unsaid.iter().any(|words| text.contains(words)), "{text}");
                unexpected += 1;
            }
            (Err(number), parsed) => panic!("{number}, and read as {parsed:?}: {book}"),
        }
    }
    for times in [read, refused, unexpected] {
        assert!(times > 1000, "{read} {refused} {unexpected}");
    }
}

/// A small book with sometimes a bad value, a place that falls or a choice too many or too few.
fn draw_any(rng: &mut Rng) -> Book {
    let shape = Shape::small(rng);
    let drawn = draw_book(rng, shape);
    let [d, n] = [drawn.dimension(), drawn.qudits()].map(|good| {
        if rng.once_in(30) {
            rng.byte_below(70)
        } else {
            good
        }
    });
    let mut book = Book::new(d, n);
    for &operation in drawn.operations() {
        let mut bytes = operation.to_bytes();
        if rng.once_in(30) {
            bytes[1 + rng.below(3)] = rng.byte_below(9);
        }
        book.operation(Operation::from_bytes(bytes).unwrap_or(operation));
    }
    for &error in drawn.errors() {
        let mut bytes = error.to_bytes();
        if rng.once_in(6) {
            bytes[[0, 2, 3, 4][rng.below(4)]] = rng.byte_below(14);
        }
        book.error_at(WeylError::from_bytes(bytes));
    }
    for &choice in drawn.choices() {
        (0..[1, 1, 1, 1, 1, 1, 1, 1, 0, 2][rng.below(10)]).for_each(|_| _ = book.choice(choice));
    }
    book
}

/// Each text with where it is wrong, what should stand there and what does.
#[test]
fn a_text_that_cannot_be_read_says_where() {
    const OPERATION: &str =
        "fourier, phase, sum, cz, swap, multiplier, measure, reset, correct or error";
    const HEADER: &str = "'qudits N dimension D'";
    let end = "the end of the line";
    let header = "qudits 3 dimension 5";
    for (text, line, column, expected, found) in [
        ("", 1, 1, HEADER, "the end of the text"),
        ("# only a comment\n\n", 3, 1, HEADER, "the end of the text"),
        ("fourier 0", 1, 1, HEADER, "'fourier'"),
        ("  qudit 3 dimension 5", 1, 3, HEADER, "'qudit'"),
        ("qudits", 1, 7, "the number of qudits", end),
        ("qudits x dimension 5", 1, 8, "the number of qudits", "'x'"),
        (
            "qudits -3 dimension 5",
            1,
            8,
            "the number of qudits",
            "'-3'",
        ),
        (
            "qudits +3 dimension 5",
            1,
            8,
            "the number of qudits",
            "'+3'",
        ),
        (
            "qudits \u{b2} dimension 5",
            1,
            8,
            "the number of qudits",
            "'\u{b2}'",
        ),
        (
            "qudits \u{663} dimension 5",
            1,
            8,
            "the number of qudits",
            "'\u{663}'",
        ),
        (
            "\u{feff}\u{feff}qudits 3 dimension 5",
            1,
            1,
            HEADER,
            "'\u{feff}qudits'",
        ),
        (
            "{}\nfourier 0\u{feff}",
            2,
            9,
            "the qudit's number",
            "'0\u{feff}'",
        ),
        ("{}\nswap", 2, 5, "the qudit's number", end),
        ("{}\nswap 0", 2, 7, "the other qudit's number", end),
        ("{}\nfo\u{9b}0", 2, 1, OPERATION, "'fo\\u{9b}0'"),
        ("qudits 3 5", 1, 10, "'dimension'", "'5'"),
        ("qudits 3 dimension # 5", 1, 19, "the dimension", end),
        ("qudits 3 dimension 5 7", 1, 22, end, "'7'"),
        ("{}\nfurier 0", 2, 1, OPERATION, "'furier'"),
        ("{}\nfourier0", 2, 1, OPERATION, "'fourier0'"),
        ("{}\n\n # x\n  0 fourier", 4, 3, OPERATION, "'0'"),
        ("{}\nqudits 3 dimension 5", 2, 1, OPERATION, "'qudits'"),
        ("{}\nfourier", 2, 8, "the qudit's number", end),
        ("{}\nfourier q0", 2, 9, "the qudit's number", "'q0'"),
        ("{}\nfourier 0 1", 2, 11, end, "'1'"),
        ("{}\nfourier 0 ^", 2, 12, "the power", end),
        ("{}\nfourier 0 ^x", 2, 12, "the power", "'x'"),
        ("{}\nfourier 0 ^-1", 2, 12, "the power", "'-1'"),
        ("{}\nfourier 0 ^2 ^2", 2, 14, end, "'^'"),
        ("{}\nphase", 2, 6, "the qudit's number", end),
        ("{}\nsum", 2, 4, "the control's number", end),
        ("{}\nsum 0", 2, 6, "the target's number", end),
        ("{}\nsum 0 ^2 1", 2, 7, "the target's number", "'^'"),
        ("{}\ncz a 1", 2, 4, "the qudit's number", "'a'"),
        ("{}\ncz 1 1.0", 2, 6, "the other qudit's number", "'1.0'"),
        ("{}\nswap 0 1 ^2", 2, 10, end, "'^'"),
        ("{}\nmultiplier 1 2", 2, 14, "'by'", "'2'"),
        ("{}\nmultiplier 1 by", 2, 16, "the factor", end),
        ("{}\nmultiplier 1 by 2 ^2", 2, 19, end, "'^'"),
        ("{}\nmeasure", 2, 8, "the qudit's number", end),
        ("{}\nmeasure 0 chose 1", 2, 11, end, "'chose'"),
        ("{}\nmeasure 0 choose", 2, 17, "the choice", end),
        ("{}\nmeasure 0 ^2", 2, 11, end, "'^'"),
        ("{}\nreset", 2, 6, "the qudit's number", end),
        ("{}\nreset all", 2, 7, "the qudit's number", "'all'"),
        ("{}\nreset 0 choose", 2, 15, "the choice", end),
        ("{}\nreset 0 ^2", 2, 9, end, "'^'"),
        ("{}\nreset 0 1", 2, 9, end, "'1'"),
        ("{}\ncorrect", 2, 8, "the qudit's number", end),
        ("{}\ncorrect 0", 2, 10, "'by'", end),
        ("{}\ncorrect 0 1", 2, 11, "'by'", "'1'"),
        ("{}\ncorrect 0 by", 2, 13, "the measurement's number", end),
        (
            "{}\ncorrect 0 by M0",
            2,
            14,
            "the measurement's number",
            "'M0'",
        ),
        (
            "{}\ncorrect 0 by -1",
            2,
            14,
            "the measurement's number",
            "'-1'",
        ),
        (
            "{}\nmeasure 0\ncorrect 0 by 0 choose 1",
            3,
            16,
            end,
            "'choose'",
        ),
        ("{}\nmeasure 0\ncorrect 0 by 0 ^2", 3, 16, end, "'^'"),
        ("{}\nerror", 2, 6, "the qudit's number", end),
        ("{}\nerror 1", 2, 8, "x, z or i", end),
        ("{}\nerror 1 y", 2, 9, "x, z or i", "'y'"),
        (
            "{}\nerror 1 z x",
            2,
            11,
            "the end of the line (x stands before z)",
            "'x'",
        ),
        ("{}\nerror 1 x^", 2, 11, "the power", end),
        ("{}\nerror 1 x2", 2, 9, "x, z or i", "'x2'"),
        ("{}\nerror 1 i z", 2, 11, end, "'z'"),
        // A column is counted in characters.
        (
            "{}\nmeasure 0 \u{3c9}\u{3c9} x",
            2,
            11,
            end,
            "'\u{3c9}\u{3c9}'",
        ),
        ("{}\n\u{a0}fourier\u{a0}0 \u{3c9}", 2, 12, end, "'\u{3c9}'"),
    ] {
        let text = text.replace("{}", header);
        let (expected, found) = (expected.to_string(), found.to_string());
        let error = TextError::Unexpected {
            line,
            column,
            expected,
            found,
        };
        assert_eq!(parse(&text), Err(error), "{text}");
    }
}

/// Each text that can be read and is refused, with the line that is to blame.
#[test]
fn a_refusal_names_its_line() {
    for (text, line, blamed, refusal) in [
        (
            "qudits 2 dimension 4",
            1,
            "qudits 2 dimension 4",
            Refusal::Dimension,
        ),
        (
            "# d\n\n qudits 2 dimension 9 # no prime\nfourier 0",
            3,
            "qudits 2 dimension 9",
            Refusal::Dimension,
        ),
        (
            "qudits 0 dimension 3",
            1,
            "qudits 0 dimension 3",
            Refusal::QuditCount,
        ),
        (
            "qudits 65 dimension 3",
            1,
            "qudits 65 dimension 3",
            Refusal::QuditCount,
        ),
        (
            "{}\nfourier 3",
            2,
            "fourier 3",
            Refusal::Operation { index: 0 },
        ),
        (
            "{}\nfourier 0\n\nfourier 0 ^4",
            4,
            "fourier 0 ^4",
            Refusal::Operation { index: 1 },
        ),
        (
            "{}\nerror 0 x\nfourier 0 ^0",
            3,
            "fourier 0 ^0",
            Refusal::Operation { index: 0 },
        ),
        (
            "{}\nphase 0 ^5",
            2,
            "phase 0 ^5",
            Refusal::Operation { index: 0 },
        ),
        ("{}\nsum 1 1", 2, "sum 1 1", Refusal::Operation { index: 0 }),
        (
            "{}\nmeasure 0\ncz 0 1 ^5 # d",
            3,
            "cz 0 1 ^5",
            Refusal::Operation { index: 1 },
        ),
        (
            "{}\nswap 2 2",
            2,
            "swap 2 2",
            Refusal::Operation { index: 0 },
        ),
        (
            "{}\nmultiplier 0 by 0",
            2,
            "multiplier 0 by 0",
            Refusal::Operation { index: 0 },
        ),
        (
            "{}\nmultiplier 0 by 5",
            2,
            "multiplier 0 by 5",
            Refusal::Operation { index: 0 },
        ),
        (
            "{}\nmeasure 3",
            2,
            "measure 3",
            Refusal::Operation { index: 0 },
        ),
        ("{}\nreset 3", 2, "reset 3", Refusal::Operation { index: 0 }),
        (
            "{}\nmeasure 0\ncorrect 3 by 0",
            3,
            "correct 3 by 0",
            Refusal::Operation { index: 1 },
        ),
        (
            "{}\nerror 0 x\nfourier 0\nerror 3 x",
            4,
            "error 3 x",
            Refusal::ErrorEntry { index: 1 },
        ),
        (
            "{}\nmeasure 0\nreset 1 choose 5\nreset 2 choose 4",
            3,
            "reset 1 choose 5",
            Refusal::Choice { index: 1 },
        ),
        (
            "{}\nreset 1\ncorrect 1 by 0\nmeasure 0 choose 5",
            3,
            "correct 1 by 0",
            Refusal::Operation { index: 1 },
        ),
        (
            "{}\nreset 1\nmeasure 1\ncorrect 1 by 0\nmeasure 0 choose 5",
            5,
            "measure 0 choose 5",
            Refusal::Choice { index: 2 },
        ),
        (
            "{}\nerror 0 x^5",
            2,
            "error 0 x^5",
            Refusal::ErrorEntry { index: 0 },
        ),
        (
            "{}\nerror 0 x z^5",
            2,
            "error 0 x z^5",
            Refusal::ErrorEntry { index: 0 },
        ),
        (
            "{}\nmeasure 0\nfourier 0\nmeasure 1 choose 5",
            4,
            "measure 1 choose 5",
            Refusal::Choice { index: 1 },
        ),
        // Good entries of the same kind, before and behind it.
        (
            "{}\nfourier 0\nfourier 3\nfourier 1\nfourier 4",
            3,
            "fourier 3",
            Refusal::Operation { index: 1 },
        ),
        (
            "{}\nerror 0 x\nfourier 0\nerror 3 x\nerror 1 x\nfourier 0\nerror 4 x",
            4,
            "error 3 x",
            Refusal::ErrorEntry { index: 1 },
        ),
        (
            "{}\nmeasure 0\nmeasure 1 choose 5\nfourier 0\nmeasure 1\nmeasure 2 choose 6",
            3,
            "measure 1 choose 5",
            Refusal::Choice { index: 1 },
        ),
        // The first by the order of the numbers, not of the lines.
        (
            "{}\nmeasure 0 choose 9\nerror 9 x\nsum 0 0",
            4,
            "sum 0 0",
            Refusal::Operation { index: 1 },
        ),
    ] {
        let text = text.replace("{}", "qudits 3 dimension 5");
        let TextError::Refused {
            line: found,
            text: shown,
            refusal: number,
            meaning,
        } = parse(&text).unwrap_err()
        else {
            panic!("{text}");
        };
        assert_eq!(
            (found, &shown[..], number),
            (line, blamed, refusal),
            "{text}"
        );
        let names = meaning.starts_with("it names measurement ");
        assert!(names || meaning == refusal.meaning(), "{text}: {meaning}");
    }
}

/// A correction that names no earlier measurement: itself has no number, and neither has a reset.
#[test]
fn a_correction_must_name_an_earlier_measurement() {
    for (text, line, place, named, come) in [
        ("{}\ncorrect 0 by 0", 2, 0, "0", "no measurement comes"),
        (
            "{}\nreset 0\ncorrect 0 by 0",
            3,
            1,
            "0",
            "no measurement comes",
        ),
        (
            "{}\ncorrect 0 by 0\nmeasure 0",
            2,
            0,
            "0",
            "no measurement comes",
        ),
        (
            "{}\nmeasure 0\nreset 1\ncorrect 2 by 1\nmeasure 0",
            4,
            2,
            "1",
            "1 measurement comes",
        ),
        (
            "{}\nmeasure 0\n# later\nfourier 0\nmeasure 2\ncorrect 2 by 1\ncorrect 2 by 2",
            7,
            4,
            "2",
            "2 measurements come",
        ),
        (
            "{}\nmeasure 0\ncorrect 9 by 1",
            3,
            1,
            "1",
            "1 measurement comes",
        ),
        (
            "{}\ncorrect 0 by 4095",
            2,
            0,
            "4095",
            "no measurement comes",
        ),
        (
            "{}\ncorrect 0 by 65534",
            2,
            0,
            "65534",
            "no measurement comes",
        ),
        (
            "{}\ncorrect 0 by 65536",
            2,
            0,
            "65535 or later",
            "no measurement comes",
        ),
        (
            "{}\nmeasure 0\ncorrect 0 by 18446744073709551616",
            3,
            1,
            "65535 or later",
            "1 measurement comes",
        ),
    ] {
        let text = text.replace("{}", "qudits 3 dimension 5");
        let blamed = text.lines().nth(line - 1).unwrap();
        assert_eq!(
            parse(&text).unwrap_err().to_string(),
            format!(
                "line {line}, '{blamed}': refused 5 at {place}: it names measurement {named}, and \
                 {come} before it (they are counted from 0, without resets)"
            )
        );
    }
    // Where the name is good and the qudit is not, the words are those of 5.
    let error = parse_lines("measure 0\ncorrect 3 by 0").unwrap_err();
    let words = Refusal::Operation { index: 1 }.to_string();
    assert_eq!(
        error.to_string(),
        format!("line 3, 'correct 3 by 0': {words}")
    );
}

/// Numbers that fit no byte are refused like others that are too large.
#[test]
fn large_numbers_are_not_cut_to_a_byte() {
    let number = |text: &str| match parse(text) {
        Err(TextError::Refused { refusal, .. }) => refusal.number(),
        parsed => panic!("{text}: {parsed:?}"),
    };
    for large in [
        "256",
        "257",
        "259",
        "65536",
        "65539",
        "18446744073709551616",
        "99999999999999999999999999999",
    ] {
        assert_eq!(number(&format!("qudits 2 dimension {large}")), 2);
        assert_eq!(number(&format!("qudits {large} dimension 3")), 3);
        for line in [
            "fourier @",
            "fourier 0 ^@",
            "sum @ 1",
            "sum 1 @",
            "sum 0 1 ^@",
            "multiplier 0 by @",
            "measure @",
            "reset @",
            "measure 0\ncorrect @ by 0",
            "measure 0\ncorrect 0 by @",
        ] {
            let line = line.replace('@', large);
            assert_eq!(
                number(&format!("qudits 2 dimension 3\n{line}")),
                5,
                "{line}"
            );
        }
        for line in ["error @ x", "error 0 x^@", "error 0 z^@"] {
            let line = line.replace('@', large);
            assert_eq!(
                number(&format!("qudits 2 dimension 3\n{line}")),
                6,
                "{line}"
            );
        }
        for line in ["measure 0 choose @", "reset 0 choose @"] {
            let line = line.replace('@', large);
            assert_eq!(
                number(&format!("qudits 2 dimension 3\n{line}")),
                7,
                "{line}"
            );
        }
    }
}

/// Too many of a kind: the first line beyond is named.
#[test]
fn a_text_may_be_too_long() {
    let lines = |line: &str, count| {
        format!(
            "qudits 3 dimension 5\nfourier 0\n{}",
            format!("{line}\n").repeat(count)
        )
    };
    let refused = |text: &str| match parse(text) {
        Err(TextError::Refused { line, refusal, .. }) => Some((line, refusal)),
        Ok(_) => None,
        Err(error) => panic!("{error}"),
    };
    assert_eq!(MAX_CHOICES, MAX_OPERATIONS); // so that choices are never the first to be too many
    assert_eq!(refused(&lines("measure 0", MAX_OPERATIONS - 1)), None);
    let beyond = (MAX_OPERATIONS + 2, Refusal::Contents { entry: 0 });
    assert_eq!(refused(&lines("measure 0", MAX_OPERATIONS)), Some(beyond));
    assert_eq!(refused(&lines("reset 0", MAX_OPERATIONS - 1)), None);
    assert_eq!(refused(&lines("reset 0", MAX_OPERATIONS)), Some(beyond));
    assert_eq!(refused(&lines("fourier 1", 70_000)), Some(beyond));
    assert_eq!(refused(&lines("error 0 x", MAX_ERRORS)), None);
    let beyond = (MAX_ERRORS + 3, Refusal::Contents { entry: 1 });
    assert_eq!(refused(&lines("error 0 x", MAX_ERRORS + 1)), Some(beyond));
    assert_eq!(refused(&lines("error 0 x", MAX_ERRORS + 9)), Some(beyond));
}

#[test]
fn the_messages_say_what_and_where() {
    let says = |text: &str| parse(text).unwrap_err().to_string();
    assert_eq!(
        says("qudits 2 dimension 3\nsum 0 x\n"),
        "line 2, column 7: expected the target's number, found 'x'"
    );
    let refused = says("qudits 2 dimension 3\n  sum 0 0 # itself\n");
    assert!(
        refused.starts_with("line 2, 'sum 0 0': refused 5 at 0: "),
        "{refused}"
    );
    assert_eq!(parse("qudits 2 dimension 3\n\n\nx").unwrap_err().line(), 4);
    assert!(says(&"x".repeat(1_000_000)).len() < 200);
}
