//! Drawings of circuits: exact ones of small circuits, and those of drawn books read back.

use crate::common;

use cagvost::book::{Book, DIMENSIONS, MAX_ERRORS, MAX_OPERATIONS, Operation, WeylError};
use cagvost::drawing::LEGEND;
use common::{FULL, Rng, Shape, draw_book, paper_book, sum};

/// The drawing of a circuit in its text form, one operation or error after each comma.
fn drawn(text: &str) -> String {
    let book: Book = text.replace(", ", "\n").parse().expect("a circuit");
    book.drawing().to_string()
}

// ---- Exact drawings

#[test]
fn the_book_of_the_specification() {
    assert_eq!(
        paper_book().drawing().to_string(),
        "q0 ─F─●─M0────\n\
         q1 ───⊕─!X─M1─\n"
    );
}

#[test]
fn every_symbol_on_one_qudit() {
    assert_eq!(
        drawn(
            "qudits 1 dimension 31, fourier 0, fourier 0 ^3, phase 0, phase 0 ^30, \
             multiplier 0 by 12, measure 0 choose 5, error 0 x, error 0 z^2, error 0 x^30 z, \
             error 0 i, measure 0, reset 0 choose 7, correct 0 by 1, correct 0 by 0, measure 0"
        ),
        "q0 ─F─F^3─S─S^30─*12─M0─!X─!Z^2─!X^30Z─!I─M1─R─X^-M1─X^-M0─M2─\n"
    );
}

/// The power stands on the second qudit, also where this is the upper one.
#[test]
fn gates_on_two_qudits() {
    assert_eq!(
        drawn("qudits 2 dimension 5, sum 0 1, sum 1 0, sum 0 1 ^3, sum 1 0 ^4"),
        "q0 ─●─⊕─●───⊕^4─\n\
         q1 ─⊕─●─⊕^3─●───\n"
    );
    assert_eq!(
        drawn("qudits 2 dimension 5, cz 0 1, cz 1 0 ^2, swap 0 1, swap 1 0"),
        "q0 ─●─●^2─×─×─\n\
         q1 ─●─●───×─×─\n"
    );
}

#[test]
fn qudits_between_are_crossed() {
    assert_eq!(
        drawn("qudits 4 dimension 5, fourier 1, sum 0 3 ^2, swap 2 0, measure 2"),
        "q0 ───●───×────\n\
         q1 ─F─│───│────\n\
         q2 ───│───×─M0─\n\
         q3 ───⊕^2──────\n"
    );
}

/// What comes later in the circuit fills a free column further left, if it stands behind what comes
/// before it on its own qudits.
#[test]
fn the_leftmost_free_column() {
    assert_eq!(
        drawn(
            "qudits 3 dimension 3, fourier 0, fourier 0, cz 0 2, phase 1, phase 1, phase 1, phase 2"
        ),
        "q0 ─F─F─●───\n\
         q1 ─S─S─│─S─\n\
         q2 ─────●─S─\n"
    );
    let all = (0..64).map(|q| format!(", fourier {q}"));
    let text = drawn(&format!("qudits 64 dimension 3{}", all.collect::<String>()));
    assert!(text.lines().all(|line| line.ends_with(" ─F─")), "{text}");
}

/// A correction stands behind the measurement that it names, also where its own line is free before.
/// Measurements are numbered without resets.
#[test]
fn corrections_stand_behind_their_measurements() {
    assert_eq!(
        drawn(
            "qudits 3 dimension 3, reset 0, fourier 0, measure 0, reset 1, measure 1, \
             correct 2 by 0, phase 2, correct 0 by 1"
        ),
        "q0 ─R─F──M0─X^-M1───\n\
         q1 ─R─M1────────────\n\
         q2 ─────────X^-M0─S─\n"
    );
    assert_eq!(
        drawn("qudits 2 dimension 3, fourier 1, fourier 1, measure 1, correct 0 by 0, measure 0"),
        "q0 ────────X^-M0─M1─\n\
         q1 ─F─F─M0──────────\n"
    );
}

/// A layer of gates on neighbours takes two columns, so that one sees the pairs. Other symbols may
/// touch them.
#[test]
fn gates_on_two_qudits_do_not_touch() {
    assert_eq!(
        drawn("qudits 6 dimension 3, cz 0 1, cz 2 3, cz 4 5, sum 1 2, sum 3 4, phase 0, phase 5"),
        "q0 ─●─S─────\n\
         q1 ─●───●───\n\
         q2 ───●─⊕───\n\
         q3 ───●───●─\n\
         q4 ─●─────⊕─\n\
         q5 ─●─S─────\n"
    );
    assert_eq!(
        drawn("qudits 4 dimension 3, fourier 0, sum 1 2, measure 3"),
        "q0 ─F──\n\
         q1 ─●──\n\
         q2 ─⊕──\n\
         q3 ─M0─\n"
    );
}

#[test]
fn names_are_aligned() {
    let text = drawn("qudits 11 dimension 3, fourier 0, phase 10");
    let lines = Vec::from_iter(text.lines());
    assert_eq!(
        [lines[0], lines[9], lines[10]],
        ["q0  ─F─", "q9  ───", "q10 ─S─"]
    );
}

/// Ten lines have names of one digit.
#[test]
fn the_names_of_ten_lines() {
    let text = drawn("qudits 10 dimension 3, fourier 9");
    assert_eq!(text.lines().last(), Some("q9 ─F─"));
}

/// A gate crosses a line where nothing stands on it, also in front of what came before.
#[test]
fn a_gap_is_crossed() {
    assert_eq!(
        drawn("qudits 5 dimension 3, phase 4, phase 4, cz 1 4, cz 0 2"),
        "q0 ─●─────\n\
         q1 ─│───●─\n\
         q2 ─●───│─\n\
         q3 ─────│─\n\
         q4 ─S─S─●─\n"
    );
}

#[test]
fn circuits_without_operations() {
    assert_eq!(Book::new(3, 2).drawing().to_string(), "q0 ─\nq1 ─\n");
    assert_eq!(
        drawn("qudits 2 dimension 3, error 1 z"),
        "q0 ────\nq1 ─!Z─\n"
    );
}

#[test]
fn blocks_of_a_limited_width() {
    let text = "qudits 2 dimension 3\nfourier 0\nsum 0 1\nphase 0 ^2\nswap 0 1\nmeasure 1";
    let book: Book = text.parse().expect("a circuit");
    let drawn = |width| book.drawing().width(width).to_string();
    let whole = "q0 ─F─●─S^2─×────\nq1 ───⊕─────×─M0─\n";
    assert_eq!([0, 17, 1000].map(drawn), [whole; 3]);
    let two = "q0 ─F─●─S^2─×─\nq1 ───⊕─────×─\n\nq0 ────\nq1 ─M0─\n";
    assert_eq!([14, 16].map(drawn), [two; 2]);
    let each = "q0 ─F─\nq1 ───\n\nq0 ─●─\nq1 ─⊕─\n\nq0 ─S^2─\nq1 ─────\n\n\
                q0 ─×─\nq1 ─×─\n\nq0 ────\nq1 ─M0─\n";
    assert_eq!([1, 6].map(drawn), [each; 2]);
    // The second block is as wide as the first, and as wide as it may be.
    let book: Book = "qudits 1 dimension 3\nfourier 0\nphase 0\nfourier 0\nphase 0"
        .parse()
        .expect("a circuit");
    let even = "q0 ─F─S─\n\nq0 ─F─S─\n";
    assert_eq!(book.drawing().width(8).to_string(), even);
}

// ---- Reading a drawing

/// What stands on a line: a symbol alone, or with the one that it belongs to. The lines, then what
/// stands on them.
type Entry = (usize, usize, String, String);

fn alone(line: usize, symbol: String) -> Entry {
    (line, line, symbol, String::new())
}

/// A symbol and where it begins.
#[derive(Clone)]
struct Symbol {
    block: usize,
    column: usize,
    text: String,
}

impl Symbol {
    fn is_paired(&self) -> bool {
        self.text.starts_with(['●', '⊕', '×', '│'])
    }
}

/// The symbols of a line behind its name, which the wire parts.
fn symbols(block: usize, line: &str) -> Vec<Symbol> {
    let mut symbols: Vec<Symbol> = Vec::new();
    let mut inside = false;
    let wire = line.chars().position(|c| c == '─').expect("a wire");
    for (column, c) in line.chars().enumerate().skip(wire) {
        match symbols.last_mut() {
            _ if c == '─' => {}
            Some(symbol) if inside => symbol.text.push(c),
            _ => symbols.push(Symbol {
                block,
                column,
                text: c.to_string(),
            }),
        }
        inside = c != '─';
    }
    symbols
}

/// The symbols of each line, through all blocks. Each block has one line for each qudit, with its
/// name, and all are equally wide: no wider than this.
fn read(drawing: &str, n: usize, most: usize) -> Vec<Vec<Symbol>> {
    let mut lines = vec![Vec::new(); n];
    for (number, block) in drawing.split("\n\n").enumerate() {
        assert_eq!(block.lines().count(), n, "{drawing}");
        let widths = block.lines().map(|line| line.chars().count());
        let widths = Vec::from_iter(widths);
        assert!(widths.iter().all(|width| *width == widths[0]), "{drawing}");
        assert!(widths[0] <= most, "{drawing}");
        for (q, line) in block.lines().enumerate() {
            assert_eq!(line.split(' ').next(), Some(&format!("q{q}")[..]));
            lines[q].extend(symbols(number, line));
        }
    }
    assert!(drawing.ends_with('\n') && !drawing.ends_with("\n\n"));
    lines
}

/// What is paired and stands in this place of a line.
fn paired<'a>(line: &'a [Symbol], place: &Symbol) -> Option<&'a Symbol> {
    let at = |symbol: &&Symbol| (symbol.block, symbol.column) == (place.block, place.column);
    line.iter().find(at).filter(|symbol| symbol.is_paired())
}

/// The symbol as an entry. One that is paired belongs to all that it touches, above and below: these
/// must be two, and crossings between them.
fn entry(lines: &[Vec<Symbol>], q: usize, symbol: &Symbol) -> Entry {
    if !symbol.is_paired() {
        return alone(q, symbol.text.clone());
    }
    let touching = |line: &usize| paired(&lines[*line], symbol).is_some();
    let first = (0..q).rev().take_while(touching).last().unwrap_or(q);
    let last = (q..lines.len()).take_while(touching).last().unwrap_or(q);
    let text = |line: usize| {
        paired(&lines[line], symbol)
            .expect("it touches")
            .text
            .clone()
    };
    assert!(first < last, "{} on line {q} is alone", symbol.text);
    assert!((first + 1..last).all(|line| text(line) == "│"));
    assert!([first, last].into_iter().all(|line| text(line) != "│"));
    (first, last, text(first), text(last))
}

/// The entries of each line but for those that only cross it, and how many of these there are.
fn entries(drawing: &str, n: usize, most: usize) -> Vec<(Vec<Entry>, usize)> {
    let lines = read(drawing, n, most);
    let of_line = |(q, line): (usize, &Vec<Symbol>)| {
        let (crossings, own): (Vec<_>, Vec<_>) = line.iter().partition(|s| s.text == "│");
        let own = own.into_iter().map(|symbol| entry(&lines, q, symbol));
        (own.collect(), crossings.len())
    };
    lines.iter().enumerate().map(of_line).collect()
}

// ---- What a drawing should have

fn with_power(symbol: &str, k: u8) -> String {
    match k {
        1 => symbol.to_string(),
        k => format!("{symbol}^{k}"),
    }
}

fn error_text(error: &WeylError) -> String {
    let part = |letter, power| match power {
        0 => String::new(),
        power => with_power(letter, power),
    };
    match (error.p, error.s) {
        (0, 0) => "!I".to_string(),
        (p, s) => format!("!{}{}", part("X", p), part("Z", s)),
    }
}

fn pair(c: u8, control: &str, t: u8, target: String) -> Entry {
    let (c, t) = (usize::from(c), usize::from(t));
    let control = control.to_string();
    match c < t {
        true => (c, t, control, target),
        false => (t, c, target, control),
    }
}

fn operation_entry(operation: Operation, measured: usize) -> Entry {
    match operation {
        Operation::Fourier { q, times } => alone(q.into(), with_power("F", times)),
        Operation::PhaseGate { q, times } => alone(q.into(), with_power("S", times)),
        Operation::Sum { c, t, times } => pair(c, "●", t, with_power("⊕", times)),
        Operation::Cz { c, t, times } => pair(c, "●", t, with_power("●", times)),
        Operation::Swap { c, t } => pair(c, "×", t, "×".to_string()),
        Operation::Multiplier { q, u } => alone(q.into(), format!("*{u}")),
        Operation::Measure { q } => alone(q.into(), format!("M{measured}")),
        Operation::Reset { q } => alone(q.into(), "R".to_string()),
        Operation::Correct { t, m } => alone(t.into(), format!("X^-M{m}")),
    }
}

/// What each line of a book should have, in the book's order, and how often it is crossed.
fn expected(book: &Book) -> Vec<(Vec<Entry>, usize)> {
    let mut lines = vec![(Vec::new(), 0); book.qudits().into()];
    let mut measured = 0;
    for place in 0..=book.operations().len() {
        for error in book
            .errors()
            .iter()
            .filter(|e| usize::from(e.place) == place)
        {
            let line = usize::from(error.qudit);
            lines[line].0.push(alone(line, error_text(error)));
        }
        let Some(&operation) = book.operations().get(place) else {
            continue;
        };
        let entry = operation_entry(operation, measured);
        measured += usize::from(matches!(operation, Operation::Measure { .. }));
        let (first, last) = (entry.0, entry.1);
        (first + 1..last).for_each(|line| lines[line].1 += 1);
        operation
            .qudits()
            .for_each(|q| lines[usize::from(q)].0.push(entry.clone()));
    }
    lines
}

/// A drawing of any width, and one that is limited to so many columns.
fn is_read_back(book: &Book, width: usize) {
    let (n, expected) = (book.qudits().into(), expected(book));
    let whole = book.drawing().to_string();
    assert!(entries(&whole, n, usize::MAX) == expected, "{book}{whole}");
    assert_eq!(whole.lines().count(), n);
    let blocks = book.drawing().width(width).to_string();
    assert!(entries(&blocks, n, width) == expected, "{book}{blocks}");
    let known = |c: char| c.is_ascii() || "─│●⊕×".contains(c);
    assert!([whole, blocks].iter().all(|text| text.chars().all(known)));
}

/// That of `q63 ─!X^30Z^30─`, which has the widest symbol.
const LEAST_WIDTH: usize = 15;

#[test]
fn drawn_books_are_read_back() {
    let mut rng = Rng(1);
    for (d, most) in DIMENSIONS
        .into_iter()
        .flat_map(|d| [(d, 5), (d, 12), (d, 64)])
    {
        for _ in 0..8 {
            let shape = Shape {
                d,
                n: 1 + rng.byte_below(most),
                operations: rng.below(120),
                errors: rng.below(30),
                measure_one_in: 2 + rng.below(8),
            };
            let width = LEAST_WIDTH + rng.below(100);
            is_read_back(&draw_book(&mut rng, shape), width);
        }
    }
}

#[test]
fn full_books_are_read_back() {
    let mut rng = Rng(2);
    let many = Shape {
        n: 64,
        d: 31,
        ..FULL
    };
    for shape in [FULL, many] {
        let book = draw_book(&mut rng, shape);
        let counts = (book.operations().len(), book.errors().len());
        assert_eq!(counts, (MAX_OPERATIONS, MAX_ERRORS));
        is_read_back(&book, 120);
    }
}

/// As many columns as there are operations, each crossed by all lines but two.
#[test]
fn a_gate_over_all_lines_again_and_again() {
    let mut book = Book::new(3, 64);
    (0..MAX_OPERATIONS).for_each(|_| _ = book.operation(sum(0, 63)));
    let text = book.drawing().to_string();
    let expected = |symbol: &str| format!("─{symbol}").repeat(MAX_OPERATIONS) + "─";
    for (q, line) in text.lines().enumerate() {
        let symbol = if q == 0 { "●" } else { "│" };
        let symbol = if q == 63 { "⊕" } else { symbol };
        assert!(line.ends_with(&expected(symbol)), "line {q}");
    }
}

/// Each symbol begins a line of the legend.
#[test]
fn the_legend_has_every_symbol() {
    for symbol in [
        "F ", "S ", "● ⊕", "● ●", "× ×", "│", "*2", "M0", "R ", "X^-M0", "!X^2Z", "F^3",
    ] {
        assert!(
            LEGEND.lines().any(|line| line.starts_with(symbol)),
            "{symbol}"
        );
    }
    let meanings = LEGEND
        .lines()
        .map(|line| line.chars().skip(6).collect::<String>());
    for meaning in meanings {
        assert!(
            meaning.starts_with(' ') && meaning.trim().len() > 1,
            "{meaning}"
        );
    }
}

// ---- Books that a run refuses

#[test]
fn what_cannot_be_drawn_is_listed() {
    let mut book = Book::new(3, 2);
    book.operation(sum(0, 7))
        .operation(Operation::Cz {
            c: 1,
            t: 1,
            times: 2,
        })
        .error(9, 1, 0)
        .measure(0, 9)
        .operation(Operation::Fourier { q: 1, times: 0 });
    let text = book.drawing().to_string();
    let (lines, notes) = text.split_once("\n\n").expect("lines and notes");
    assert_eq!(lines, "q0 ─M0──\nq1 ─F^0─");
    let refusal = book.write().expect_err("a refused book");
    assert_eq!(
        notes,
        format!("not drawn: sum 0 7\nnot drawn: cz 1 1 ^2\nnot drawn: error 9 x\n{refusal}\n")
    );
}

/// A correction that names no earlier measurement, or one that is not drawn.
#[test]
fn corrections_by_no_measurement_are_drawn() {
    let mut book = Book::new(3, 2);
    book.operation(Operation::Fourier { q: 0, times: 1 })
        .correct(1, 0)
        .measure(7, 0)
        .correct(1, 0)
        .reset(9, 0)
        .correct(8, 0)
        .measure(0, 0)
        .correct(1, 65535)
        .correct(1, 1);
    let refusal = book.write().expect_err("a refused book");
    assert_eq!(
        book.drawing().to_string(),
        format!(
            "q0 ─F─────M1────────────────────\n\
             q1 ─X^-M0─X^-M0─X^-M65535─X^-M1─\n\n\
             not drawn: measure 7\nnot drawn: reset 9\nnot drawn: correct 8 by 0\n{refusal}\n"
        )
    );
}

/// An error with a place after the end stands at the end; one that is out of order, where it strikes.
#[test]
fn errors_with_bad_places_are_drawn() {
    let error = |place, p| WeylError {
        place,
        qudit: 0,
        p,
        s: 0,
    };
    let mut book = Book::new(5, 1);
    book.measure(0, 0).measure(0, 0);
    book.error_at(error(9, 1))
        .error_at(error(1, 2))
        .error_at(error(0, 3));
    let text = book.drawing().to_string();
    let refusal = book.write().expect_err("a refused book");
    assert_eq!(text, format!("q0 ─!X^3─M0─!X^2─M1─!X─\n\n{refusal}\n"));
}

/// Operations and errors of any bytes.
fn draw_any(rng: &mut Rng) -> Book {
    let n = if rng.once_in(2) {
        rng.byte()
    } else {
        rng.byte_below(4)
    };
    let mut book = Book::new(rng.byte(), n);
    for _ in 0..rng.below(30) {
        let entry = [
            rng.byte_below(9),
            rng.byte_below(6),
            rng.byte_below(6),
            rng.byte(),
        ];
        Operation::from_bytes(entry)
            .into_iter()
            .for_each(|o| _ = book.operation(o));
        let (place, qudit) = (rng.below(40) as u16, rng.byte_below(6));
        let (p, s) = (rng.byte(), rng.byte_below(2));
        if rng.once_in(3) {
            book.error_at(WeylError { place, qudit, p, s });
        }
    }
    book
}

/// Whether each of the qudits has a line, and none is there twice.
fn can_be_drawn(book: &Book, qudits: &[u8]) -> bool {
    let twice = qudits.len() == 2 && qudits[0] == qudits[1];
    !twice && qudits.iter().all(|q| *q < book.qudits())
}

#[test]
fn refused_books_are_drawn() {
    let mut rng = Rng(3);
    let (mut left_out, mut refused) = (0, 0);
    for _ in 0..2000 {
        let book = draw_any(&mut rng);
        let text = book.drawing().width(rng.below(90)).to_string();
        let operations = book.operations().iter().map(|o| Vec::from_iter(o.qudits()));
        let errors = book.errors().iter().map(|error| vec![error.qudit]);
        let missing = operations
            .chain(errors)
            .filter(|qudits| !can_be_drawn(&book, qudits));
        let missing = missing.count();
        let listed = text.lines().filter(|line| line.starts_with("not drawn: "));
        assert_eq!(listed.count(), missing, "{book}");
        let last = text.lines().last().unwrap_or("");
        match book.write() {
            Ok(_) => assert!(last.starts_with('q'), "{book}"),
            Err(refusal) => assert_eq!(last, refusal.to_string(), "{book}"),
        }
        left_out += missing;
        refused += usize::from(book.write().is_err());
    }
    assert!(left_out > 1000 && refused > 1000, "{left_out} {refused}");
}
