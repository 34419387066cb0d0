//! The specification in plain Rust, with `%` and no thought of speed.
//!
//! It uses nothing of the package, so that no fault of the package can hide in both.

use std::ops::Range;

/// A returned number and its place.
pub type Returned = (usize, usize);

// ---- Rows

/// ω^r times the product over qudits of X^a Z^b.
#[derive(Clone, Debug, PartialEq, Eq)]
pub struct Row {
    pub a: Vec<i64>,
    pub b: Vec<i64>,
    pub r: i64,
}

fn modulo(d: i64, x: i64) -> i64 {
    ((x % d) + d) % d
}

/// Σ x·y over the qudits.
fn dot(x: &[i64], y: &[i64]) -> i64 {
    x.iter().zip(y).map(|(x, y)| x * y).sum()
}

/// The number below d that times u leaves 1. It is searched for and not worked out, so that no fault
/// of the formula can be here too.
pub fn inverse(d: i64, u: i64) -> i64 {
    (1..d)
        .find(|v| u * v % d == 1)
        .expect("u is not a multiple of d")
}

/// v times w, in this order.
pub fn product(d: i64, v: &Row, w: &Row) -> Row {
    let sums = |x: &[i64], y: &[i64]| x.iter().zip(y).map(|(x, y)| (x + y) % d).collect();
    Row {
        a: sums(&v.a, &w.a),
        b: sums(&v.b, &w.b),
        r: (v.r + w.r + dot(&v.b, &w.a)) % d,
    }
}

/// v to the power h.
pub fn power(d: i64, v: &Row, h: i64) -> Row {
    let times = |x: &[i64]| x.iter().map(|x| x * h % d).collect();
    Row {
        a: times(&v.a),
        b: times(&v.b),
        r: (h * v.r + h * (h - 1) / 2 * dot(&v.a, &v.b)) % d,
    }
}

/// The pairing of v with w.
pub fn pairing(d: i64, v: &Row, w: &Row) -> i64 {
    modulo(d, dot(&v.b, &w.a) - dot(&v.a, &w.b))
}

/// No power anywhere: the identity, and a frame at first.
pub fn identity(n: usize) -> Row {
    Row {
        a: vec![0; n],
        b: vec![0; n],
        r: 0,
    }
}

/// ω^r Z on qudit q.
pub fn z_on(n: usize, q: usize, r: i64) -> Row {
    let mut row = identity(n);
    row.b[q] = 1;
    row.r = r;
    row
}

// ---- Tableau

/// Where the rows of a tableau begin, behind d and n. Only the calls and `tableau_of` know of these
/// two bytes: all else here has rows, or their bytes alone.
pub const ROWS: usize = 2;

/// The bytes of the rows of n qudits.
fn rows_len(n: usize) -> usize {
    2 * n * (2 * n + 1)
}

/// The bytes of a tableau of n qudits.
pub fn tableau_len(n: usize) -> usize {
    ROWS + rows_len(n)
}

/// The zero tableau: destabilizers, then stabilizers.
pub fn zero_rows(n: usize) -> Vec<Row> {
    let mut rows = vec![identity(n); 2 * n];
    for i in 0..n {
        rows[i].a[i] = 1;
        rows[n + i].b[i] = 1;
    }
    rows
}

/// The rows that the bytes begin with.
pub fn rows_of(n: usize, bytes: &[u8]) -> Vec<Row> {
    let numbers = |part: &[u8]| part.iter().map(|&x| i64::from(x)).collect::<Vec<_>>();
    bytes[..rows_len(n)]
        .chunks(2 * n + 1)
        .map(|row| Row {
            a: numbers(&row[..n]),
            b: numbers(&row[n..2 * n]),
            r: i64::from(row[2 * n]),
        })
        .collect()
}

/// The bytes of the rows.
pub fn bytes_of(rows: &[Row]) -> Vec<u8> {
    let mut bytes = Vec::new();
    for row in rows {
        bytes.extend(row.a.iter().map(|&x| x as u8));
        bytes.extend(row.b.iter().map(|&x| x as u8));
        bytes.push(row.r as u8);
    }
    bytes
}

/// The bytes of the tableau that has these rows: d and n, then theirs.
pub fn tableau_of(d: i64, rows: &[Row]) -> Vec<u8> {
    let mut bytes = vec![d as u8, (rows.len() / 2) as u8];
    bytes.extend(bytes_of(rows));
    bytes
}

/// Whether the bytes begin with the rows of a valid tableau.
pub fn is_valid(d: i64, n: usize, bytes: &[u8]) -> bool {
    if bytes[..rows_len(n)].iter().any(|&x| i64::from(x) >= d) {
        return false;
    }
    let rows = rows_of(n, bytes);
    (0..2 * n).all(|i| (0..2 * n).all(|j| pairing(d, &rows[i], &rows[j]) == expected(d, n, i, j)))
}

/// What row i paired with row j must give.
fn expected(d: i64, n: usize, i: usize, j: usize) -> i64 {
    if i == j + n {
        1
    } else if j == i + n {
        d - 1
    } else {
        0
    }
}

// ---- Operations

/// An operation on its qudits. The last number of the first four is how often it is applied.
#[derive(Clone, Copy, Debug, PartialEq, Eq)]
pub enum Op {
    Fourier(usize, i64),
    Phase(usize, i64),
    Sum(usize, usize, i64),
    Cz(usize, usize, i64),
    Swap(usize, usize),
    Multiplier(usize, i64),
    Measure(usize),
    Reset(usize),
    /// The qudit that is corrected, and the number of a measurement.
    Correct(usize, usize),
}

/// The operation that four bytes mean, if they mean one. Whether the measurement that a correction
/// names comes earlier is the reader's to say.
pub fn decode(d: i64, n: usize, entry: &[u8]) -> Option<Op> {
    let at = |i: usize| usize::from(entry[i]);
    let last = i64::from(entry[3]);
    let one = at(1) < n && at(2) == 0;
    let two = at(1) < n && at(2) < n && at(1) != at(2);
    match entry[0] {
        0 if one => Some(Op::Fourier(at(1), applications(last, 3)?)),
        1 if one => Some(Op::Phase(at(1), applications(last, d - 1)?)),
        2 if two => Some(Op::Sum(at(1), at(2), applications(last, d - 1)?)),
        3 if two => Some(Op::Cz(at(1), at(2), applications(last, d - 1)?)),
        4 if two && last == 0 => Some(Op::Swap(at(1), at(2))),
        5 if one && last >= 1 && last < d => Some(Op::Multiplier(at(1), last)),
        6 if one && last == 0 => Some(Op::Measure(at(1))),
        7 if one && last == 0 => Some(Op::Reset(at(1))),
        8 if at(1) < n => Some(Op::Correct(at(1), at(2) + 256 * at(3))),
        _ => None,
    }
}

/// How many applications the last byte means: 0 is once, 2 up to the most are that many, and 1 is
/// none of the numbers.
fn applications(last: i64, most: i64) -> Option<i64> {
    match last {
        0 => Some(1),
        1 => None,
        _ if last <= most => Some(last),
        _ => None,
    }
}

/// The four bytes that mean the operation.
fn encode(op: Op) -> [u8; 4] {
    let (code, first, second, last) = match op {
        Op::Fourier(q, k) => (0, q, 0, last_byte(k)),
        Op::Phase(q, k) => (1, q, 0, last_byte(k)),
        Op::Sum(c, t, k) => (2, c, t, last_byte(k)),
        Op::Cz(c, t, k) => (3, c, t, last_byte(k)),
        Op::Swap(c, t) => (4, c, t, 0),
        Op::Multiplier(q, u) => (5, q, 0, u),
        Op::Measure(q) => (6, q, 0, 0),
        Op::Reset(q) => (7, q, 0, 0),
        Op::Correct(t, m) => (8, t, m % 256, (m / 256) as i64),
    };
    [code, first as u8, second as u8, last as u8]
}

/// The last byte that means so many applications.
fn last_byte(applications: i64) -> i64 {
    if applications == 1 { 0 } else { applications }
}

/// The operation that undoes a gate: four applications of Fourier do nothing, and d of the others
/// that have powers. A measurement, a reset and a correction have none.
fn undoing(d: i64, op: Op) -> Option<Op> {
    match op {
        Op::Fourier(q, k) => Some(Op::Fourier(q, 4 - k)),
        Op::Phase(q, k) => Some(Op::Phase(q, d - k)),
        Op::Sum(c, t, k) => Some(Op::Sum(c, t, d - k)),
        Op::Cz(c, t, k) => Some(Op::Cz(c, t, d - k)),
        Op::Swap(c, t) => Some(Op::Swap(c, t)),
        Op::Multiplier(q, u) => Some(Op::Multiplier(q, inverse(d, u))),
        Op::Measure(_) | Op::Reset(_) | Op::Correct(..) => None,
    }
}

/// The gate on one row, each of its applications by itself. What is no gate is not done here.
pub fn gate(d: i64, op: Op, row: &mut Row) {
    let times = match op {
        Op::Fourier(_, k) | Op::Phase(_, k) | Op::Sum(_, _, k) | Op::Cz(_, _, k) => k,
        Op::Swap(..) | Op::Multiplier(..) => 1,
        Op::Measure(_) | Op::Reset(_) | Op::Correct(..) => panic!("{op:?} is no gate"),
    };
    for _ in 0..times {
        gate_once(d, op, row);
    }
}

/// One application of the gate on one row, however many it has.
fn gate_once(d: i64, op: Op, row: &mut Row) {
    match op {
        Op::Fourier(q, _) => {
            let (a, b) = (row.a[q], row.b[q]);
            row.a[q] = modulo(d, -b);
            row.b[q] = a;
            row.r = modulo(d, row.r - a * b);
        }
        Op::Phase(q, _) => {
            let a = row.a[q];
            row.b[q] = (row.b[q] + a) % d;
            row.r = (row.r + a * (a - 1) / 2) % d;
        }
        Op::Sum(c, t, _) => {
            row.a[t] = (row.a[t] + row.a[c]) % d;
            row.b[c] = modulo(d, row.b[c] - row.b[t]);
        }
        Op::Cz(c, t, _) => {
            row.b[c] = (row.b[c] + row.a[t]) % d;
            row.b[t] = (row.b[t] + row.a[c]) % d;
            row.r = (row.r + row.a[c] * row.a[t]) % d;
        }
        Op::Swap(c, t) => {
            row.a.swap(c, t);
            row.b.swap(c, t);
        }
        Op::Multiplier(q, u) => {
            row.a[q] = row.a[q] * u % d;
            row.b[q] = row.b[q] * inverse(d, u) % d;
        }
        Op::Measure(_) | Op::Reset(_) | Op::Correct(..) => unreachable!("{op:?} is no gate"),
    }
}

/// X^p Z^s on qudit `q`, before operation `place`.
#[derive(Clone, Copy, Debug, PartialEq, Eq)]
pub struct Error {
    pub place: usize,
    pub q: usize,
    pub p: i64,
    pub s: i64,
}

/// The error on one row.
pub fn apply_error(d: i64, error: Error, row: &mut Row) {
    let Error { q, p, s, .. } = error;
    row.r = modulo(d, row.r + s * row.a[q] - p * row.b[q]);
}

/// X to the minus so many on qudit q, on every row. It acts as an error X^p does, with p below 0.
fn lower(d: i64, rows: &mut [Row], q: usize, by: i64) {
    let (place, p, s) = (0, -by, 0);
    let lowering = Error { place, q, p, s };
    rows.iter_mut()
        .for_each(|row| apply_error(d, lowering, row));
}

// ---- Measurement

/// What a measurement would be.
#[derive(Clone, Copy, Debug, PartialEq, Eq)]
pub enum Look {
    /// With the number of its pivot among the stabilizers.
    Free(usize),
    /// With its outcome.
    Certain(i64),
}

/// The look at q of a valid tableau. That a certain product is Z on q is proved of the library's
/// definitions; here it is tested each time.
pub fn look(d: i64, n: usize, rows: &[Row], q: usize) -> Look {
    if let Some(k) = (0..n).find(|&k| rows[n + k].a[q] != 0) {
        return Look::Free(k);
    }
    let mut whole = identity(n);
    for i in 0..n {
        whole = product(d, &whole, &power(d, &rows[n + i], rows[i].a[q]));
    }
    assert_eq!(whole, z_on(n, q, whole.r), "a certain product is Z on q");
    Look::Certain(modulo(d, -whole.r))
}

/// The rows after a free measurement of q with pivot k and outcome m.
pub fn collapse(d: i64, n: usize, rows: &mut [Row], q: usize, k: usize, m: i64) {
    let pivot = rows[n + k].clone();
    let e = inverse(d, pivot.a[q]);
    for (i, row) in rows.iter_mut().enumerate() {
        if i == k {
            *row = power(d, &pivot, e);
        } else if i == n + k {
            *row = z_on(n, q, modulo(d, -m));
        } else {
            let h = modulo(d, -row.a[q] * e);
            *row = product(d, row, &power(d, &pivot, h));
        }
    }
}

/// Measures q: the outcome and the mark.
fn measure(d: i64, n: usize, rows: &mut [Row], q: usize, choice: i64) -> [u8; 2] {
    match look(d, n, rows, q) {
        Look::Free(k) => {
            collapse(d, n, rows, q, k, choice);
            [choice as u8, 1]
        }
        Look::Certain(outcome) => [outcome as u8, 0],
    }
}

/// Resets q: it is measured, and X to the minus outcome is applied.
fn reset(d: i64, n: usize, rows: &mut [Row], q: usize, choice: i64) {
    let [outcome, _] = measure(d, n, rows, q, choice);
    lower(d, rows, q, outcome.into());
}

// ---- Stabilizer sets

/// Whether v is a member of the stabilizer set of a valid tableau: a product of powers of its
/// stabilizers. The exponent of each can only be the pairing of v with its destabilizer.
pub fn stabilizes(d: i64, n: usize, rows: &[Row], v: &Row) -> bool {
    let mut whole = identity(n);
    for i in 0..n {
        let h = pairing(d, v, &rows[i]);
        whole = product(d, &whole, &power(d, &rows[n + i], h));
    }
    whole == *v
}

/// Whether the rows of two valid tableaus have the same stabilizer set: each has the other's
/// stabilizers. Nothing is known here of frames and shifts.
pub fn same_set(d: i64, n: usize, t: &[u8], u: &[u8]) -> bool {
    let (t, u) = (rows_of(n, t), rows_of(n, u));
    let has = |rows: &[Row], others: &[Row]| others[n..].iter().all(|v| stabilizes(d, n, rows, v));
    has(&t, &u) && has(&u, &t)
}

// ---- The book

/// An accepted book.
#[derive(Clone, Debug, PartialEq, Eq)]
pub struct Book {
    pub d: i64,
    pub n: usize,
    pub operations: Vec<Op>,
    pub errors: Vec<Error>,
    pub choices: Vec<i64>,
}

impl Book {
    /// How many results there are: those of code 6.
    pub fn measurements(&self) -> usize {
        count_results(&self.operations)
    }

    /// The errors of place k, in the order of their entries. Places never fall.
    fn errors_at(&self, k: usize) -> impl Iterator<Item = Error> {
        let first = self.errors.partition_point(|e| e.place < k);
        let rest = self.errors[first..].iter().copied();
        rest.take_while(move |e| e.place == k)
    }
}

/// How many results these operations give: one for each of code 6.
fn count_results(operations: &[Op]) -> usize {
    let gives_one = |op: &&Op| matches!(op, Op::Measure(_));
    operations.iter().filter(gives_one).count()
}

/// How many choices these operations take: one for each of the codes 6 and 7.
fn count_choices(operations: &[Op]) -> usize {
    let takes_one = |op: &&Op| matches!(op, Op::Measure(_) | Op::Reset(_));
    operations.iter().filter(takes_one).count()
}

/// Refusals 2 and 3.
fn check_sizes(d: usize, n: usize) -> Result<(), Returned> {
    if ![3, 5, 7, 11, 13, 17, 19, 23, 29, 31].contains(&d) {
        return Err((2, 0));
    }
    if n == 0 || n > 64 {
        return Err((3, 0));
    }
    Ok(())
}

/// The accepted book, or refusal 1 to 7.
pub fn read(book: &[u8]) -> Result<Book, Returned> {
    if book.len() < 22 || book[0] != 81 || book[3] != 3 {
        return Err((1, 0));
    }
    let (d, n) = (i64::from(book[1]), usize::from(book[2]));
    check_sizes(usize::from(book[1]), n)?;
    let [first, second, third] = read_contents(book)?;
    let operations = read_operations(d, n, first)?;
    let errors = read_errors(d, n, operations.len(), second)?;
    let choices = read_choices(d, count_choices(&operations), third)?;
    Ok(Book {
        d,
        n,
        operations,
        errors,
        choices,
    })
}

fn two_bytes(bytes: &[u8], i: usize) -> usize {
    usize::from(bytes[i]) + 256 * usize::from(bytes[i + 1])
}

/// The three bodies, or refusal 4.
pub fn read_contents(book: &[u8]) -> Result<[&[u8]; 3], Returned> {
    let (sizes, limits) = ([4, 5, 1], [4096, 2048, 4096]);
    let mut ends = [22; 4];
    for i in 0..3 {
        let entry = &book[4 + 6 * i..10 + 6 * i];
        let (offset, length) = (two_bytes(entry, 2), two_bytes(entry, 4));
        let named = usize::from(entry[0]) == i + 1 && entry[1] == 0 && offset == ends[i];
        let whole = length % sizes[i] == 0 && length / sizes[i] <= limits[i];
        if !named || !whole {
            return Err((4, i));
        }
        ends[i + 1] = offset + length;
    }
    if ends[3] != book.len() {
        return Err((4, 3));
    }
    Ok([0, 1, 2].map(|i| &book[ends[i]..ends[i + 1]]))
}

fn read_operations(d: i64, n: usize, body: &[u8]) -> Result<Vec<Op>, Returned> {
    let mut operations = Vec::new();
    let mut measured = 0;
    for (i, entry) in body.chunks(4).enumerate() {
        let op = decode(d, n, entry).ok_or((5, i))?;
        match op {
            // Measurement m comes earlier if more than m of them do.
            Op::Correct(_, m) if m >= measured => return Err((5, i)),
            Op::Measure(_) => measured += 1,
            _ => {}
        }
        operations.push(op);
    }
    Ok(operations)
}

fn read_errors(d: i64, n: usize, operations: usize, body: &[u8]) -> Result<Vec<Error>, Returned> {
    let mut errors = Vec::new();
    let mut lowest = 0;
    for (i, entry) in body.chunks(5).enumerate() {
        let error = Error {
            place: two_bytes(entry, 0),
            q: usize::from(entry[2]),
            p: i64::from(entry[3]),
            s: i64::from(entry[4]),
        };
        let placed = error.place >= lowest && error.place <= operations;
        if !placed || error.q >= n || error.p >= d || error.s >= d {
            return Err((6, i));
        }
        lowest = error.place;
        errors.push(error);
    }
    Ok(errors)
}

fn read_choices(d: i64, taken: usize, body: &[u8]) -> Result<Vec<i64>, Returned> {
    if body.len() != taken {
        return Err((7, body.len().min(taken)));
    }
    let choices: Vec<i64> = body.iter().map(|&c| i64::from(c)).collect();
    match choices.iter().position(|&c| c >= d) {
        Some(i) => Err((7, i)),
        None => Ok(choices),
    }
}

/// An accepted book, and the errors of each shot of an accepted tray.
struct Shots {
    circuit: Book,
    errors: Vec<Vec<Error>>,
}

/// Refusals 1 to 7 of the book, then 11, then 6 with the first shot that has a bad error.
fn read_shots(book: &[u8], tray: &[u8]) -> Result<Shots, Returned> {
    let circuit = read(book)?;
    let bodies = tray_bodies(tray).ok_or((11, 0))?;
    let mut errors = Vec::new();
    for (i, body) in bodies.into_iter().enumerate() {
        let read = read_errors(circuit.d, circuit.n, circuit.operations.len(), body);
        errors.push(read.map_err(|_| (6, i))?);
    }
    Ok(Shots { circuit, errors })
}

/// The error bodies of a tray, if its table of contents is a good one and true.
pub fn tray_bodies(tray: &[u8]) -> Option<Vec<&[u8]>> {
    let (count, rest) = tray.split_at_checked(2)?;
    let count = two_bytes(count, 0);
    if count > 4096 {
        return None;
    }
    let (lengths, mut rest) = rest.split_at_checked(2 * count)?;
    let mut bodies = Vec::new();
    for length in lengths.chunks(2).map(|length| two_bytes(length, 0)) {
        if length % 5 != 0 || length > 5 * 2048 {
            return None;
        }
        let (body, after) = rest.split_at_checked(length)?;
        bodies.push(body);
        rest = after;
    }
    rest.is_empty().then_some(bodies)
}

/// The bytes that these bodies make as a book, accepted or not.
///
/// A number that does not fit stands there as the largest that does, and is refused as it must be:
/// 255 is no dimension and no number of qudits, and 65,535 bytes are too many for every body. An
/// offset that does not fit comes after such a body, which is refused first.
pub fn book_of(bodies: [&[u8]; 3], d: usize, n: usize) -> Vec<u8> {
    let mut book = vec![81, d.min(255) as u8, n.min(255) as u8, 3];
    let mut offset = 22;
    for (kind, body) in (1..).zip(bodies) {
        book.extend([kind, 0]);
        for number in [offset, body.len()].map(|number| number.min(65_535)) {
            book.extend([(number % 256) as u8, (number / 256) as u8]);
        }
        offset += body.len();
    }
    book.extend(bodies.concat());
    book
}

// ---- Calls

/// Writes a book: its bytes are made first, and the reader judges them.
pub fn write(bodies: [&[u8]; 3], d: usize, n: usize, out: &mut [u8]) -> Returned {
    let book = book_of(bodies, d, n);
    if let Err(returned) = read(&book) {
        return returned;
    }
    if out.len() < book.len() {
        return (8, 0);
    }
    out[..book.len()].copy_from_slice(&book);
    (0, book.len())
}

/// Writes the mirror of a book: what undoes its operations, the last of them first.
pub fn mirror(book: &[u8], out: &mut [u8]) -> Returned {
    let book = match read(book) {
        Ok(book) => book,
        Err(returned) => return returned,
    };
    let mut entries = Vec::new();
    for (i, &op) in book.operations.iter().enumerate() {
        match undoing(book.d, op) {
            Some(op) => entries.push(encode(op)),
            None => return (12, i),
        }
    }
    entries.reverse();
    let mirror = book_of([&entries.concat(), &[], &[]], book.d as usize, book.n);
    if out.len() < mirror.len() {
        return (8, 0);
    }
    out[..mirror.len()].copy_from_slice(&mirror);
    (0, mirror.len())
}

/// Lays the zero tableau.
pub fn layer(tableau: &mut [u8], d: usize, n: usize) -> Returned {
    if let Err(returned) = check_sizes(d, n) {
        return returned;
    }
    if tableau.len() < tableau_len(n) {
        return (8, 0);
    }
    tableau[..tableau_len(n)].copy_from_slice(&tableau_of(d as i64, &zero_rows(n)));
    (0, 0)
}

/// Tests a tableau for the d and the n that it begins with.
pub fn test(tableau: &[u8]) -> Returned {
    if tableau.len() < ROWS {
        return (8, 0);
    }
    let (d, n) = (usize::from(tableau[0]), usize::from(tableau[1]));
    if let Err(returned) = check_sizes(d, n) {
        return returned;
    }
    if tableau.len() < tableau_len(n) {
        return (8, 0);
    }
    if !is_valid(d as i64, n, &tableau[ROWS..]) {
        return (9, 0);
    }
    (0, 0)
}

/// Whether a run of the book may start from a tableau that is long enough: it begins with the book's
/// d and n, and its rows are valid for them. Else it is refused by 9.
fn may_start(book: &Book, tableau: &[u8]) -> bool {
    let is_named = i64::from(tableau[0]) == book.d && usize::from(tableau[1]) == book.n;
    is_named && is_valid(book.d, book.n, &tableau[ROWS..])
}

/// The direct run: each error is applied to every row at its place. The third number is that of a
/// finished run.
pub fn direct_run(book: &[u8], tableau: &mut [u8], results: &mut [u8]) -> (usize, usize, usize) {
    go_on(book, tableau, results, 0, usize::MAX)
}

/// The direct run from operation `from` on, for so many operations. The third number is that of the
/// next one.
pub fn go_on(
    book: &[u8],
    tableau: &mut [u8],
    results: &mut [u8],
    from: usize,
    count: usize,
) -> (usize, usize, usize) {
    let book = match read(book) {
        Ok(book) => book,
        Err((number, place)) => return (number, place, 0),
    };
    let n = book.n;
    if tableau.len() < tableau_len(n) || results.len() < 2 * book.measurements() {
        return (8, 0, 0);
    }
    if !may_start(&book, tableau) {
        return (9, 0, 0);
    }
    let finished = book.operations.len() + 1;
    if from > finished {
        return (13, 0, 0);
    }
    let next = from.saturating_add(count).min(finished);
    let mut rows = rows_of(n, &tableau[ROWS..]);
    strike_from(&book, from..next, &mut rows, results);
    tableau[ROWS..tableau_len(n)].copy_from_slice(&bytes_of(&rows));
    (0, book.measurements(), next)
}

/// These operations of a direct run, each with the errors of its place before it. Behind the last one
/// there is a place for errors alone. What earlier operations have taken and given is counted.
fn strike_from(book: &Book, numbers: Range<usize>, rows: &mut [Row], results: &mut [u8]) {
    let (d, n) = (book.d, book.n);
    let earlier = &book.operations[..numbers.start.min(book.operations.len())];
    let mut choices = book.choices[count_choices(earlier)..].iter();
    let mut done = count_results(earlier);
    for k in numbers {
        for error in book.errors_at(k) {
            rows.iter_mut().for_each(|row| apply_error(d, error, row));
        }
        let Some(&op) = book.operations.get(k) else {
            break;
        };
        match op {
            Op::Measure(q) => {
                let result = measure(d, n, rows, q, next(&mut choices));
                results[2 * done..2 * done + 2].copy_from_slice(&result);
                done += 1;
            }
            Op::Reset(q) => reset(d, n, rows, q, next(&mut choices)),
            // By whatever is lent there, also if it is no outcome: `apply_error` takes it modulo d.
            Op::Correct(t, m) => lower(d, rows, t, results[2 * m].into()),
            _ => rows.iter_mut().for_each(|row| gate(d, op, row)),
        }
    }
}

/// The next choice of an accepted book.
fn next<'a>(choices: &mut impl Iterator<Item = &'a i64>) -> i64 {
    *choices.next().expect("as many choices as are taken")
}

/// The look at a qudit of a tableau: 0, then 1 and 0 for free, or 0 and the outcome for certain.
pub fn look_call(tableau: &[u8], qudit: usize) -> (usize, usize, usize) {
    let (number, _) = test(tableau);
    if number != 0 {
        return (number, 0, 0);
    }
    let (d, n) = (i64::from(tableau[0]), usize::from(tableau[1]));
    if qudit >= n {
        return (13, 0, 0);
    }
    match look(d, n, &rows_of(n, &tableau[ROWS..]), qudit) {
        Look::Free(_) => (0, 1, 0),
        Look::Certain(outcome) => (0, 0, outcome as usize),
    }
}

/// The frame run: errors change the frame alone, and the rows' phases are shifted at the end. The
/// third number is the verdict.
pub fn frame_run(
    book: &[u8],
    tableau: &mut [u8],
    results: &mut [u8],
    shifts: &mut [u8],
    frame: &mut [u8],
) -> (usize, usize, usize) {
    let book = match read(book) {
        Ok(book) => book,
        Err((number, place)) => return (number, place, 0),
    };
    let (d, n) = (book.d, book.n);
    let short = tableau.len() < tableau_len(n) || results.len() < 2 * book.measurements();
    if short || shifts.len() < 2 * n || frame.len() < 2 * n {
        return (8, 0, 0);
    }
    if !may_start(&book, tableau) {
        return (9, 0, 0);
    }
    let mut rows = rows_of(n, &tableau[ROWS..]);
    let mut carried = identity(n);
    carry_all(&book, &mut rows, &mut carried, results);
    let verdict = shift_all(d, &carried, &mut rows, shifts);
    tableau[ROWS..tableau_len(n)].copy_from_slice(&bytes_of(&rows));
    // A frame has no phase: the last byte of its row is left off.
    frame[..2 * n].copy_from_slice(&bytes_of(&[carried])[..2 * n]);
    (0, book.measurements(), verdict)
}

/// The tray run: every shot is a frame run of its own, from the lent tableau, of the book with this
/// shot's errors in place of its own. The last two numbers are the clean and the shifted shots.
pub fn tray(book: &[u8], tray: &[u8], tableau: &[u8], out: &mut [u8]) -> (usize, usize, usize) {
    let shots = match read_shots(book, tray) {
        Ok(shots) => shots,
        Err((number, place)) => return (number, place, 0),
    };
    let Shots { circuit, errors } = shots;
    let width = 1 + 2 * circuit.measurements();
    if tableau.len() < tableau_len(circuit.n) || out.len() < errors.len() * width {
        return (8, 0, 0);
    }
    if !may_start(&circuit, tableau) {
        return (9, 0, 0);
    }
    let mut ended = [0, 0];
    for (i, errors) in errors.into_iter().enumerate() {
        let book = Book {
            errors,
            ..circuit.clone()
        };
        let (verdict, results) = one_shot(&book, &tableau[ROWS..]);
        let row = &mut out[i * width..(i + 1) * width];
        row[0] = verdict as u8;
        row[1..].copy_from_slice(&results);
        ended[verdict] += 1;
    }
    (0, ended[0], ended[1])
}

/// The verdict and the results of a frame run from a copy of the rows.
fn one_shot(book: &Book, rows: &[u8]) -> (usize, Vec<u8>) {
    let mut rows = rows_of(book.n, rows);
    let mut carried = identity(book.n);
    let mut results = vec![0; 2 * book.measurements()];
    carry_all(book, &mut rows, &mut carried, &mut results);
    let mut shifts = vec![0; 2 * book.n];
    let verdict = shift_all(book.d, &carried, &mut rows, &mut shifts);
    (verdict, results)
}

/// All operations and errors of a frame run. The rows are corrected by the clean results.
fn carry_all(book: &Book, rows: &mut [Row], carried: &mut Row, results: &mut [u8]) {
    let (d, n) = (book.d, book.n);
    let (mut choices, mut clean, mut shifts) = (book.choices.iter(), vec![], vec![]);
    for k in 0..=book.operations.len() {
        for error in book.errors_at(k) {
            carry(d, error, carried);
        }
        let Some(&op) = book.operations.get(k) else {
            break;
        };
        match op {
            Op::Measure(q) => {
                let [outcome, mark] = measure(d, n, rows, q, next(&mut choices));
                let (outcome, done) = (i64::from(outcome), clean.len());
                results[2 * done] = ((outcome + carried.a[q]) % d) as u8;
                results[2 * done + 1] = mark;
                clean.push(outcome);
            }
            Op::Reset(q) => reset(d, n, rows, q, next(&mut choices)),
            Op::Correct(t, m) => lower(d, rows, t, clean[m]),
            _ => rows.iter_mut().for_each(|row| gate(d, op, row)),
        }
        carry_through(d, op, carried, &mut shifts);
    }
}

/// Adds each row's shift to its phase. The verdict is that of the stabilizers, rows n to 2n − 1.
fn shift_all(d: i64, carried: &Row, rows: &mut [Row], shifts: &mut [u8]) -> usize {
    let n = carried.a.len();
    let mut verdict = 0;
    for (i, (row, shift)) in rows.iter_mut().zip(shifts).enumerate() {
        let by = pairing(d, carried, row);
        row.r = (row.r + by) % d;
        *shift = by as u8;
        if i >= n && by != 0 {
            verdict = 1;
        }
    }
    verdict
}

/// The error joins the frame.
fn carry(d: i64, error: Error, frame: &mut Row) {
    frame.a[error.q] = (frame.a[error.q] + error.p) % d;
    frame.b[error.q] = (frame.b[error.q] + error.s) % d;
}

/// What an operation makes of the frame, and of the shifts that the results before it have. A
/// measurement leaves the frame, and its result has the frame's X power as shift. A reset takes that
/// power away, and a correction takes the shift of its measurement out of that of its target.
fn carry_through(d: i64, op: Op, frame: &mut Row, shifts: &mut Vec<i64>) {
    match op {
        Op::Measure(q) => shifts.push(frame.a[q]),
        Op::Reset(q) => frame.a[q] = 0,
        Op::Correct(t, m) => frame.a[t] = modulo(d, frame.a[t] - shifts[m]),
        _ => gate(d, op, frame),
    }
}

/// What the errors and the operations of a book make of a frame that comes from elsewhere. The phase
/// of its row means nothing.
pub fn carried_on(book: &Book, mut frame: Row) -> Row {
    let mut shifts = Vec::new();
    for k in 0..=book.operations.len() {
        for error in book.errors_at(k) {
            carry(book.d, error, &mut frame);
        }
        if let Some(&op) = book.operations.get(k) {
            carry_through(book.d, op, &mut frame, &mut shifts);
        }
    }
    frame
}

/// Each choice of the book raised by the X power that the frame of its errors has on the qudit that
/// is measured or reset, just before that.
pub fn raised_choices(book: &Book) -> Vec<u8> {
    let mut carried = identity(book.n);
    let (mut raised, mut shifts) = (Vec::new(), Vec::new());
    for (k, &op) in book.operations.iter().enumerate() {
        for error in book.errors_at(k) {
            carry(book.d, error, &mut carried);
        }
        if let Op::Measure(q) | Op::Reset(q) = op {
            let choice = book.choices[raised.len()];
            raised.push(((choice + carried.a[q]) % book.d) as u8);
        }
        carry_through(book.d, op, &mut carried, &mut shifts);
    }
    raised
}
