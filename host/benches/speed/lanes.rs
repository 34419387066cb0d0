//! The fastest safe Rust that we could write for the tray run: the frames of 256 shots side by side,
//! so that a gate is one loop over arrays that the compiler turns into vectors.
//!
//! - The circuit is run once without errors, by `tuned.rs` with the specification's phases. A shot
//!   has its results, raised by its frame; one without errors has them as they are and takes no lane.
//! - A power of a gate is one pass over the lanes too, on 16 bits with one reduction.
//! - The shifts of a result that a correction names are kept, all lanes side by side, so that the
//!   correction is one pass, wherever the results are by then.
//! - For every place there is a linked list of the lanes whose next error is there. The library
//!   keeps lists for 256 places at a time instead, which are easier to prove and somewhat slower.
//! - Results are gathered in tiles of 64 measurements by 256 lanes, and transposed by shuffles of
//!   whole halves, which are vectors too.
//! - Verdicts are worked out lane by lane, as far as the first stabilizer that is shifted. 16 lanes
//!   together would all have to wait for the last of them: where shots have few errors, that took
//!   twice as long.

use crate::tuned::{
    Book, Modulo, ROWS, Returned, Specified, add, dot, is_power, is_valid_for, read, run_rows,
    tableau_len, two_bytes,
};
use cagvost::book::MAX_OPERATIONS;

const LANES: usize = 256;
const TILE: usize = 64;
const QUDITS: usize = 64;

/// No lane.
const NONE: u16 = u16::MAX;

/// One power of all lanes.
type Line = [u8; LANES];

// ---- Gates

fn gain(d: u8, x: &mut Line, y: &Line) {
    for (x, &y) in x.iter_mut().zip(y) {
        *x = add(d, *x, y);
    }
}

fn lose(d: u8, x: &mut Line, y: &Line) {
    for (x, &y) in x.iter_mut().zip(y) {
        *x = subtract(d, *x, y);
    }
}

fn subtract(d: u8, x: u8, y: u8) -> u8 {
    let rest = x.wrapping_sub(y);
    rest.min(rest.wrapping_add(d))
}

fn fourier(d: u8, x: &mut Line, z: &mut Line) {
    for (x, z) in x.iter_mut().zip(z) {
        (*x, *z) = (subtract(d, 0, *z), *x);
    }
}

fn negate(d: u8, x: &mut Line) {
    for x in x {
        *x = subtract(d, 0, *x);
    }
}

/// Each number times u.
fn multiply(d: u8, x: &mut Line, u: u8) {
    let by = Divisor::new(d);
    for x in x {
        *x = by.rest(u16::from(*x) * u16::from(u));
    }
}

/// Each number gains the other one times u: many gains in one pass.
fn gain_times(d: u8, x: &mut Line, y: &Line, u: u8) {
    let by = Divisor::new(d);
    for (x, &y) in x.iter_mut().zip(y) {
        *x = by.rest(u16::from(*x) + u16::from(y) * u16::from(u));
    }
}

/// Finds rests of numbers below 1,024: the quotient by d is found by a product.
#[derive(Clone, Copy)]
struct Divisor {
    d: u16,
    reciprocal: u16,
}

impl Divisor {
    fn new(d: u8) -> Divisor {
        Divisor {
            d: d.into(),
            reciprocal: (65536 / u32::from(d) + 1) as u16,
        }
    }

    fn rest(self, x: u16) -> u8 {
        let quotient = ((u32::from(x) * u32::from(self.reciprocal)) >> 16) as u16;
        x.wrapping_sub(quotient.wrapping_mul(self.d)) as u8
    }
}

/// The lines of two different qudits.
fn two(lines: &mut [Line; QUDITS], c: usize, t: usize) -> [&mut Line; 2] {
    lines.get_disjoint_mut([c, t]).expect("two qudits")
}

/// A gate that is applied once, on all lanes.
#[inline(never)]
fn gate(x: &mut [Line; QUDITS], z: &mut [Line; QUDITS], entry: &[u8], m: &Modulo) {
    let (d, q, t) = (
        m.d,
        usize::from(entry[1]) % QUDITS,
        usize::from(entry[2]) % QUDITS,
    );
    match entry[0] {
        0 => fourier(d, &mut x[q], &mut z[q]),
        1 => gain(d, &mut z[q], &x[q]),
        2 => {
            let [control, target] = two(x, q, t);
            gain(d, target, control);
            let [control, target] = two(z, q, t);
            lose(d, control, target);
        }
        3 => {
            gain(d, &mut z[q], &x[t]);
            gain(d, &mut z[t], &x[q]);
        }
        4 => {
            let [control, target] = two(x, q, t);
            control.swap_with_slice(target);
            let [control, target] = two(z, q, t);
            control.swap_with_slice(target);
        }
        _ => {
            multiply(d, &mut x[q], entry[3]);
            multiply(d, &mut z[q], m.inverse(entry[3]));
        }
    }
}

/// The power of a gate on all lanes.
#[inline(never)]
fn power(x: &mut [Line; QUDITS], z: &mut [Line; QUDITS], entry: &[u8], d: u8) {
    let (q, t, k) = (
        usize::from(entry[1]) % QUDITS,
        usize::from(entry[2]) % QUDITS,
        entry[3],
    );
    match (entry[0], k) {
        (0, 2) => {
            negate(d, &mut x[q]);
            negate(d, &mut z[q]);
        }
        // Three times is backwards.
        (0, _) => fourier(d, &mut z[q], &mut x[q]),
        (1, _) => gain_times(d, &mut z[q], &x[q], k),
        (2, _) => {
            let [control, target] = two(x, q, t);
            gain_times(d, target, control, k);
            let [control, target] = two(z, q, t);
            gain_times(d, control, target, d - k);
        }
        _ => {
            gain_times(d, &mut z[q], &x[t], k);
            gain_times(d, &mut z[t], &x[q], k);
        }
    }
}

/// A reset or a correction on all lanes.
#[inline(never)]
fn adjust(x: &mut [Line; QUDITS], kept: &mut Kept, entry: &[u8], d: u8) {
    let target = &mut x[usize::from(entry[1]) % QUDITS];
    if entry[0] == 7 {
        target.fill(0);
    } else if let Some(shifts) = kept.line(two_bytes(entry, 2)) {
        lose(d, target, shifts);
    }
}

// ---- A block of shots

/// What all shots share: the run without errors, and the bytes that each shot fills.
struct Circuit<'a> {
    book: Book<'a>,
    tray: &'a [u8],
    /// The final rows; their phases do not matter.
    rows: Vec<u8>,
    results: Vec<u8>,
    modulo: Modulo,
}

impl Circuit<'_> {
    fn width(&self) -> usize {
        1 + self.results.len()
    }
}

/// The shifts that corrections take out, for the block that is run.
struct Kept {
    /// Where those of each measurement are kept, or none if no correction names it.
    places: Vec<u16>,
    lines: Vec<Line>,
}

impl Kept {
    fn new(book: &Book) -> Kept {
        let (mut places, mut count) = (vec![NONE; book.measurements], 0);
        let entries = book.operations.chunks_exact(4);
        for entry in entries.filter(|entry| entry[0] == 8) {
            let place = &mut places[two_bytes(entry, 2)];
            if *place == NONE {
                *place = count;
                count += 1;
            }
        }
        let lines = vec![[0; LANES]; count.into()];
        Kept { places, lines }
    }

    /// The line of a measurement, if it is named.
    fn line(&mut self, measurement: usize) -> Option<&mut Line> {
        let place = self.places[measurement];
        self.lines.get_mut(usize::from(place))
    }
}

struct Block {
    x: [Line; QUDITS],
    z: [Line; QUDITS],
    /// The first lane whose next error is at this place, and the one after each lane.
    first: [u16; MAX_OPERATIONS + 1],
    after: [u16; LANES],
    /// Where in the tray each lane's next error begins, and where its last ends.
    next: [u32; LANES],
    end: [u32; LANES],
    /// The shot of each lane.
    shots: [usize; LANES],
    used: usize,
    tile: [u8; TILE * LANES],
    spare: [u8; TILE * LANES],
}

impl Block {
    fn new() -> Box<Block> {
        Box::new(Block {
            x: [[0; LANES]; QUDITS],
            z: [[0; LANES]; QUDITS],
            first: [NONE; MAX_OPERATIONS + 1],
            after: [NONE; LANES],
            next: [0; LANES],
            end: [0; LANES],
            shots: [0; LANES],
            used: 0,
            tile: [0; TILE * LANES],
            spare: [0; TILE * LANES],
        })
    }

    /// Gives the next lane to a shot with errors from `start` to `end` of the tray.
    fn add(&mut self, shot: usize, start: usize, end: usize, tray: &[u8]) {
        let lane = self.used;
        self.next[lane] = start as u32;
        self.end[lane] = end as u32;
        self.shots[lane] = shot;
        self.enqueue(lane as u16, two_bytes(tray, start));
        self.used += 1;
    }

    fn enqueue(&mut self, lane: u16, place: usize) {
        self.after[usize::from(lane) % LANES] = self.first[place];
        self.first[place] = lane;
    }

    /// The errors of this place, in every lane that has one.
    #[inline(never)]
    fn apply_errors(&mut self, tray: &[u8], place: usize, d: u8) {
        let mut lane = self.first[place];
        while lane != NONE {
            let l = usize::from(lane) % LANES;
            let after = self.after[l];
            let (mut at, end) = (self.next[l] as usize, self.end[l] as usize);
            loop {
                let error = &tray[at..at + 5];
                let q = usize::from(error[2]) % QUDITS;
                self.x[q][l] = add(d, self.x[q][l], error[3]);
                self.z[q][l] = add(d, self.z[q][l], error[4]);
                at += 5;
                if at >= end {
                    break;
                }
                let next = two_bytes(tray, at);
                if next != place {
                    self.enqueue(lane, next);
                    break;
                }
            }
            self.next[l] = at as u32;
            lane = after;
        }
    }

    /// Runs the block and empties it. How many of its shots were shifted.
    fn run(&mut self, circuit: &Circuit, kept: &mut Kept, out: &mut [u8]) -> usize {
        self.carry(circuit, kept, out);
        let shifted = self.write_verdicts(circuit, out);
        self.x.as_flattened_mut().fill(0);
        self.z.as_flattened_mut().fill(0);
        self.first.fill(NONE);
        self.used = 0;
        shifted
    }

    /// All operations and errors. The results are written.
    fn carry(&mut self, circuit: &Circuit, kept: &mut Kept, out: &mut [u8]) {
        let (d, tray) = (circuit.modulo.d, circuit.tray);
        let (mut done, mut held) = (0, 0);
        for (k, entry) in circuit.book.operations.chunks_exact(4).enumerate() {
            if self.first[k] != NONE {
                self.apply_errors(tray, k, d);
            }
            if is_power(entry) {
                power(&mut self.x, &mut self.z, entry, d);
                continue;
            }
            if entry[0] < 6 {
                gate(&mut self.x, &mut self.z, entry, &circuit.modulo);
                continue;
            }
            if entry[0] > 6 {
                adjust(&mut self.x, kept, entry, d);
                continue;
            }
            let line = &mut self.tile[held * LANES..(held + 1) * LANES];
            let frame = &self.x[usize::from(entry[1]) % QUDITS];
            for (result, &x) in line.iter_mut().zip(frame) {
                *result = add(d, x, circuit.results[2 * done]);
            }
            if let Some(kept) = kept.line(done) {
                kept.copy_from_slice(frame);
            }
            (done, held) = (done + 1, held + 1);
            if held == TILE || 2 * done == circuit.results.len() {
                self.flush(circuit, done - held, held, out);
                held = 0;
            }
        }
        self.apply_errors(tray, circuit.book.operations.len() / 4, d);
    }

    /// Writes the results of `held` measurements from `base` on.
    #[inline(never)]
    fn flush(&mut self, circuit: &Circuit, base: usize, held: usize, out: &mut [u8]) {
        // Each shuffle puts one more bit of the measurement's number below those of the lane's.
        for _ in 0..TILE.ilog2() / 2 {
            shuffle(&self.tile, &mut self.spare);
            shuffle(&self.spare, &mut self.tile);
        }
        let clean = &circuit.results[2 * base..2 * (base + held)];
        let mut marks = [0; TILE];
        for (mark, result) in marks.iter_mut().zip(clean.chunks_exact(2)) {
            *mark = result[1];
        }
        for (lane, &shot) in self.tile.chunks_exact(TILE).zip(&self.shots[..self.used]) {
            let start = shot * circuit.width() + 1 + 2 * base;
            interleave(
                &lane[..held],
                &marks[..held],
                &mut out[start..start + 2 * held],
            );
        }
    }

    /// Writes the verdicts. How many shots were shifted.
    fn write_verdicts(&self, circuit: &Circuit, out: &mut [u8]) -> usize {
        let mut shifted = 0;
        for (lane, shot) in self.shots[..self.used].iter().enumerate() {
            let verdict = self.is_shifted(circuit, lane);
            out[shot * circuit.width()] = verdict.into();
            shifted += usize::from(verdict);
        }
        shifted
    }

    /// Whether the frame of this lane shifts a stabilizer.
    fn is_shifted(&self, circuit: &Circuit, lane: usize) -> bool {
        let (n, m) = (circuit.book.n, &circuit.modulo);
        let [mut x, mut z] = [[0; QUDITS]; 2];
        for q in 0..n {
            x[q] = self.x[q][lane];
            z[q] = self.z[q][lane];
        }
        let mut stabilizers = circuit.rows.chunks_exact(2 * n + 1).skip(n);
        stabilizers.any(|row| {
            let plus = m.reduce(dot(&z[..n], &row[..n]));
            plus != m.reduce(dot(&x[..n], &row[n..2 * n]))
        })
    }
}

/// The two halves, one byte of each by turns.
#[inline(never)]
fn shuffle(from: &[u8; TILE * LANES], to: &mut [u8; TILE * LANES]) {
    let (first, second) = from.split_at(TILE * LANES / 2);
    let pairs = first.iter().zip(second);
    for (to, (&x, &y)) in to.chunks_exact_mut(2).zip(pairs) {
        to[0] = x;
        to[1] = y;
    }
}

/// Results and marks by turns.
#[inline(never)]
fn interleave(results: &[u8], marks: &[u8], out: &mut [u8]) {
    let pairs = results.iter().zip(marks);
    for (out, (&result, &mark)) in out.chunks_exact_mut(2).zip(pairs) {
        out[0] = result;
        out[1] = mark;
    }
}

// ---- The call

/// The tray run. The last two numbers are the clean and the shifted shots.
pub fn tray(book: &[u8], tray: &[u8], tableau: &[u8], out: &mut [u8]) -> (usize, usize, usize) {
    let circuit = match start(book, tray, tableau, out) {
        Ok(circuit) => circuit,
        Err((number, place)) => return (number, place, 0),
    };
    let (width, mut block, mut shifted) = (circuit.width(), Block::new(), 0);
    let mut kept = Kept::new(&circuit.book);
    for (i, [start, end]) in bodies(tray).enumerate() {
        if start == end {
            let row = &mut out[i * width..(i + 1) * width];
            row[0] = 0;
            row[1..].copy_from_slice(&circuit.results);
            continue;
        }
        block.add(i, start, end, tray);
        if block.used == LANES {
            shifted += block.run(&circuit, &mut kept, out);
        }
    }
    if block.used > 0 {
        shifted += block.run(&circuit, &mut kept, out);
    }
    (0, two_bytes(tray, 0) - shifted, shifted)
}

/// All tests in their order, then the run without errors on a copy of the rows.
fn start<'a>(
    book: &'a [u8],
    tray: &'a [u8],
    tableau: &[u8],
    out: &[u8],
) -> Result<Circuit<'a>, Returned> {
    let mut book = read(book)?;
    if !table_fits(tray) {
        return Err((11, 0));
    }
    let limits = Limits::new(&book);
    if let Some(shot) = bodies(tray).position(|[start, end]| !limits.hold(&tray[start..end])) {
        return Err((6, shot));
    }
    let mut results = vec![0; 2 * book.measurements];
    let tableau = tableau.get(..tableau_len(book.n)).ok_or((8, 0))?;
    if out.len() < two_bytes(tray, 0) * (1 + results.len()) {
        return Err((8, 0));
    }
    if !is_valid_for(&book, tableau) {
        return Err((9, 0));
    }
    let (mut rows, modulo) = (tableau[ROWS..].to_vec(), Modulo::new(book.d));
    book.errors = &[];
    let stages = 0..book.finished();
    run_rows::<Specified>(&book, stages, &mut rows, &mut results, &modulo);
    Ok(Circuit {
        book,
        tray,
        rows,
        results,
        modulo,
    })
}

/// Where the errors of each shot begin and end.
fn bodies(tray: &[u8]) -> impl Iterator<Item = [usize; 2]> {
    let mut end = 2 + 2 * two_bytes(tray, 0);
    let lengths = tray[2..end].chunks_exact(2);
    lengths.map(move |length| {
        let start = end;
        end += two_bytes(length, 0);
        [start, end]
    })
}

/// Whether the tray has a good table of contents, and just the bodies that it says.
fn table_fits(tray: &[u8]) -> bool {
    if tray.len() < 2 || two_bytes(tray, 0) > 4096 {
        return false;
    }
    let Some(table) = tray.get(2..2 + 2 * two_bytes(tray, 0)) else {
        return false;
    };
    let mut end = 2 + table.len();
    let mut good = true;
    for length in table.chunks_exact(2).map(|length| two_bytes(length, 0)) {
        good &= length.is_multiple_of(5) && length <= 5 * 2048;
        end += length;
    }
    good && end == tray.len()
}

/// What a book with these operations may have in its error entries.
struct Limits {
    /// The largest value of each byte, for 16 entries. Places are not among them.
    bytes: [u8; 80],
    operations: usize,
}

impl Limits {
    fn new(book: &Book) -> Limits {
        let entry = [255, 255, book.n as u8 - 1, book.d - 1, book.d - 1];
        let mut bytes = [0; 80];
        for (i, limit) in bytes.iter_mut().enumerate() {
            *limit = entry[i % 5];
        }
        Limits {
            bytes,
            operations: book.operations.len() / 4,
        }
    }

    /// Whether the errors are good.
    fn hold(&self, body: &[u8]) -> bool {
        let mut over = [0; 80];
        for part in body.chunks(80) {
            for (over, (&x, &limit)) in over.iter_mut().zip(part.iter().zip(&self.bytes)) {
                *over |= x.saturating_sub(limit);
            }
        }
        over == [0; 80] && self.hold_places(body)
    }

    /// Places do not fall, so that only the last can be too high.
    fn hold_places(&self, body: &[u8]) -> bool {
        let (mut last, mut rising) = (0, true);
        for entry in body.chunks_exact(5) {
            let place = two_bytes(entry, 0);
            rising &= last <= place;
            last = place;
        }
        rising && last <= self.operations
    }
}
