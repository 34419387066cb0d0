//! The fastest safe Rust that we could write for the same calls, on the same row-major bytes, with
//! d and n known at run time only.
//!
//! A run is made of what is here and of what depends on the phases that it keeps in its rows
//! ([`Phases`]): `specified.rs` keeps the specification's, as the library does, and `even.rs` others
//! that take less work.
//!
//! - Additions by an unsigned minimum, all powers of the pivot made once, block by block.
//! - Tables of rests, products, inverses and triangle numbers for single bytes, made once for each
//!   run: what walks down a column of a row-major tableau is not vectorised, and a look-up is
//!   cheaper there than arithmetic. They are as long as it takes for a byte to need no check.
//! - A power of a gate is one pass over the rows, with one look-up more where it adds a multiple. A
//!   gate applied once has a loop of its own, without that.
//! - The rows that a free measurement changes are listed first, without a branch. The two that it
//!   overwrites are not among them.
//! - A gate on the frame works on the powers alone.
//! - A reset and a correction lower a qudit by one pass over the Z powers on it, and by none where the
//!   level is 0.
//! - Half of the pairings, made of powers from −15 to 15, so that their sums fit 16 bits with a
//!   sign, two at a time, and tested for divisibility without a division.
//! - Operations and choices are tested without a branch, several at a time. If one is bad, they are
//!   gone through again to find the first.
//! - In a long mirror the last byte of each entry is looked up. If there is a multiplier, all inverses
//!   are made before, side by side.

mod even;
mod specified;

use cagvost::book::MAX_OPERATIONS;
use std::array;
use std::ops::Range;
use std::slice::Iter;

pub use even::Even;
pub use specified::Specified;

/// A returned number and its place.
pub type Returned = (usize, usize);

/// The largest number of powers in a row.
const POWERS: usize = 128;

// ---- Arithmetic modulo d

pub fn add(d: u8, x: u8, y: u8) -> u8 {
    let sum = x.wrapping_add(y);
    sum.min(sum.wrapping_sub(d))
}

/// What a byte is looked up in.
type Table = [u8; 256];

/// The products, from place 32·x on those of x. Two bytes never lead past the end.
type Products = [u8; 32 * 255 + 256];

/// Arithmetic on single bytes by tables. What they hold for numbers not named has no meaning.
pub struct Modulo {
    pub d: u8,
    /// Above 2^32/d by at most 1.
    reciprocal: u64,
    /// The rest of each sum of four numbers below d, and of each difference of two, wrapped.
    rests: Table,
    /// Of numbers below d.
    products: Products,
    /// Of numbers from 1 to d − 1.
    inverses: Table,
    /// x(x−1)/2 for numbers x below d.
    triangles: Table,
}

impl Modulo {
    pub fn new(d: u8) -> Modulo {
        let mut rests = [0; 256];
        for i in 0..=255 {
            rests[usize::from(i)] = match i {
                _ if i < d => i,
                _ if i > 255 - d => i.wrapping_add(d),
                _ => i % d,
            };
        }
        let products = products(d);
        Modulo {
            d,
            reciprocal: (1 << 32) / u64::from(d) + 1,
            rests,
            products,
            inverses: inverses(d, &products),
            triangles: triangles(d),
        }
    }

    /// The rest of a sum or difference.
    fn rest(&self, x: u8) -> u8 {
        self.rests[usize::from(x)]
    }

    /// The rest of a sum of products below 2^27. The quotient is found by a product: that of x and
    /// the reciprocal is too high by at most x, which is less than 2^32/d.
    pub fn reduce(&self, x: u32) -> u8 {
        let quotient = (u64::from(x) * self.reciprocal) >> 32;
        (x - quotient as u32 * u32::from(self.d)) as u8
    }

    fn product(&self, x: u8, y: u8) -> u8 {
        product(&self.products, x, y)
    }

    /// x times each number.
    fn times(&self, x: u8) -> &Table {
        let from = &self.products[32 * usize::from(x)..];
        from.first_chunk()
            .expect("two bytes do not lead past the end")
    }

    pub fn inverse(&self, u: u8) -> u8 {
        look_up(&self.inverses, u)
    }
}

/// All products, those of x by those of x − 1.
fn products(d: u8) -> Products {
    let mut products = [0; _];
    for x in 1..usize::from(d) {
        for y in 0..d {
            let at = 32 * x + usize::from(y);
            products[at] = add(d, products[at - 32], y);
        }
    }
    products
}

fn product(products: &Products, x: u8, y: u8) -> u8 {
    products[32 * usize::from(x) + usize::from(y)]
}

/// The inverse of each number, by that of a smaller one: as d is (d/x)·x and a rest, −(d/x) times x
/// leaves that rest.
fn inverses(d: u8, products: &Products) -> Table {
    let mut inverses = [0; 256];
    inverses[1] = 1;
    for x in 2..d {
        let smaller = look_up(&inverses, d % x);
        inverses[usize::from(x)] = product(products, d - d / x, smaller);
    }
    inverses
}

/// x(x−1)/2 for each number x, which is that for x − 1 and x − 1.
fn triangles(d: u8) -> Table {
    let mut triangles = [0; 256];
    for x in 1..d {
        triangles[usize::from(x)] = add(d, look_up(&triangles, x - 1), x - 1);
    }
    triangles
}

fn look_up(table: &Table, x: u8) -> u8 {
    table[usize::from(x)]
}

// ---- Rows

/// The powers of a row with their end padded, in blocks of one vector each.
type Blocks = [[u8; 16]; 8];

/// The powers of a row gain others, block by block.
#[inline(always)]
fn gain_blocks(d: u8, powers: &mut [u8], others: &Blocks) {
    let (blocks, rest) = powers.as_chunks_mut::<16>();
    let mut others = others.iter();
    for (block, other) in blocks.iter_mut().zip(&mut others) {
        gain(d, block, other);
    }
    if let Some(other) = others.next() {
        gain(d, rest, other);
    }
}

/// x + y in place of x, place by place.
#[inline(always)]
fn gain(d: u8, x: &mut [u8], y: &[u8]) {
    for (x, &y) in x.iter_mut().zip(y) {
        *x = add(d, *x, y);
    }
}

/// Σ x·y, at most 64·30·30.
#[inline(always)]
pub fn dot<T: Copy + Into<u16>>(x: &[u8], y: &[T]) -> u32 {
    let products = x.iter().zip(y).map(|(&x, &y)| u16::from(x) * y.into());
    products.sum::<u16>().into()
}

/// Σ a·b of a row.
fn own_dot(row: &[u8], n: usize) -> u32 {
    dot(&row[..n], &row[n..2 * n])
}

/// Powers as the numbers nearest to 0 that leave the same rest: from −15 to 15.
fn centre(centred: &mut [i16; POWERS], powers: &[u8], d: u8) {
    for (centred, &x) in centred.iter_mut().zip(powers) {
        *centred = i16::from(x) - if x > d / 2 { i16::from(d) } else { 0 };
    }
}

/// A row as the left side of a pairing: Z powers, then X powers with their sign changed.
fn left_side(left: &mut [i16; POWERS], powers: &[i16; POWERS], n: usize) {
    left[..n].copy_from_slice(&powers[n..2 * n]);
    for (left, &a) in left[n..].iter_mut().zip(&powers[..n]) {
        *left = -a;
    }
}

/// The pairings of two left sides with a row, not reduced: at most 128·15·15.
fn pairings([x, v]: [&[i16]; 2], y: &[i16]) -> [i16; 2] {
    let (mut first, mut second) = (0, 0);
    for ((&x, &v), &y) in x.iter().zip(v).zip(y) {
        first += x * y;
        second += v * y;
    }
    [first, second]
}

// ---- The tableau test

/// Tests for divisibility by d with one product.
#[derive(Clone, Copy)]
struct Divisor {
    /// The inverse of d modulo 2^32.
    inverse: u32,
    most: u32,
    /// A multiple of d above every pairing.
    lift: i32,
}

impl Divisor {
    fn new(d: u8) -> Divisor {
        let d = u32::from(d);
        let mut inverse = d;
        for _ in 0..4 {
            inverse = inverse.wrapping_mul(2u32.wrapping_sub(d.wrapping_mul(inverse)));
        }
        Divisor {
            inverse,
            most: u32::MAX / d,
            lift: d as i32 * 16384,
        }
    }

    /// Whether the pairing is 1, for partners, or 0.
    fn divides(self, pairing: i16, partners: bool) -> bool {
        let lifted = i32::from(pairing) - i32::from(partners) + self.lift;
        (lifted as u32).wrapping_mul(self.inverse) <= self.most
    }
}

fn is_valid(d: u8, n: usize, rows: &[u8]) -> bool {
    if rows.iter().fold(0, |most, &x| x.max(most)) >= d {
        return false;
    }
    let divisor = Divisor::new(d);
    let mut powers = [[0; POWERS]; POWERS];
    for (centred, row) in powers.iter_mut().zip(rows.chunks_exact(2 * n + 1)) {
        centre(centred, &row[..2 * n], d);
    }
    let mut lefts = [[0; POWERS]; 2];
    (0..n).all(|g| {
        for (left, powers) in lefts.iter_mut().zip(&powers[2 * g..]) {
            left_side(left, powers, n);
        }
        let lefts = lefts.each_ref().map(|left| &left[..2 * n]);
        let earlier = powers[..2 * g + 1].iter().enumerate();
        earlier.fold(true, |good, (j, other)| {
            let [first, second] = pairings(lefts, &other[..2 * n]);
            good & divisor.divides(first, 2 * g == n + j)
                & divisor.divides(second, 2 * g + 1 == n + j)
        })
    })
}

// ---- Phases

/// What the last byte of each row holds during a run, and all that depends on it.
pub trait Phases {
    /// Puts these phases in place of the specification's.
    fn enter(rows: &mut [u8], n: usize, m: &Modulo);

    /// Puts the specification's back.
    fn leave(rows: &mut [u8], n: usize, m: &Modulo);

    fn fourier(rows: &mut [u8], n: usize, q: usize, m: &Modulo);

    /// The Fourier gate applied three times, which undoes it.
    fn fourier_back(rows: &mut [u8], n: usize, q: usize, m: &Modulo);

    fn phase_gate(rows: &mut [u8], n: usize, q: usize, multiple: impl Multiple, m: &Modulo);

    fn cz(rows: &mut [u8], n: usize, pair: (usize, usize), multiple: impl Multiple, m: &Modulo);

    /// The outcome that the weighted product of the stabilizers fixes.
    fn certain(rows: &[u8], n: usize, q: usize, m: &Modulo) -> u8;

    /// Multiplies rows by powers of the pivot: the number of each row is listed with its exponent.
    fn sweep(rows: &mut [u8], n: usize, listed: &[(u8, u8)], pivot: &Pivot, m: &Modulo);

    /// The phase of power h of the pivot.
    fn phase_of_power(h: u8, n: usize, pivot: &Pivot, m: &Modulo) -> u8;
}

// ---- Gates and errors on every row

/// x times the number of applications: where a gate applied once adds x, its power adds this.
pub trait Multiple: Fn(u8) -> u8 {}

impl<F: Fn(u8) -> u8> Multiple for F {}

/// The Fourier gate applied twice. It moves no kind of phase.
fn fourier_twice(rows: &mut [u8], n: usize, q: usize, m: &Modulo) {
    let (w, z) = (2 * n + 1, n + q);
    assert!(q < w && z < w);
    for row in rows.chunks_exact_mut(w) {
        let (a, b) = (row[q], row[z]);
        row[q] = m.rest(a.wrapping_neg());
        row[z] = m.rest(b.wrapping_neg());
    }
}

fn sum(rows: &mut [u8], n: usize, (c, t): (usize, usize), multiple: impl Multiple, m: &Modulo) {
    let (w, zc, zt) = (2 * n + 1, n + c, n + t);
    assert!(c < w && t < w && zc < w && zt < w);
    for row in rows.chunks_exact_mut(w) {
        let a = row[t].wrapping_add(multiple(row[c]));
        let b = row[zc].wrapping_sub(multiple(row[zt]));
        row[t] = m.rest(a);
        row[zc] = m.rest(b);
    }
}

fn swap(rows: &mut [u8], n: usize, (c, t): (usize, usize)) {
    let (w, zc, zt) = (2 * n + 1, n + c, n + t);
    assert!(c < w && t < w && zc < w && zt < w);
    for row in rows.chunks_exact_mut(w) {
        let (a, x, b, z) = (row[c], row[t], row[zc], row[zt]);
        row[c] = x;
        row[t] = a;
        row[zc] = z;
        row[zt] = b;
    }
}

fn multiplier(rows: &mut [u8], n: usize, q: usize, u: u8, m: &Modulo) {
    let (w, z) = (2 * n + 1, n + q);
    assert!(q < w && z < w);
    let (by, back) = (m.times(u), m.times(m.inverse(u)));
    for row in rows.chunks_exact_mut(w) {
        let (a, b) = (look_up(by, row[q]), look_up(back, row[z]));
        row[q] = a;
        row[z] = b;
    }
}

/// Whether an operation is a gate that is applied more than once.
pub fn is_power(entry: &[u8]) -> bool {
    entry[0] < 4 && entry[3] != 0
}

/// A gate that is applied once, on every row.
fn gate<P: Phases>(rows: &mut [u8], n: usize, entry: &[u8], m: &Modulo) {
    let (q, t) = (usize::from(entry[1]), usize::from(entry[2]));
    let once = |x| x;
    match entry[0] {
        0 => P::fourier(rows, n, q, m),
        1 => P::phase_gate(rows, n, q, once, m),
        2 => sum(rows, n, (q, t), once, m),
        3 => P::cz(rows, n, (q, t), once, m),
        4 => swap(rows, n, (q, t)),
        _ => multiplier(rows, n, q, entry[3], m),
    }
}

/// The power of a gate on every row.
fn power<P: Phases>(rows: &mut [u8], n: usize, entry: &[u8], m: &Modulo) {
    let (q, t, k) = (usize::from(entry[1]), usize::from(entry[2]), entry[3]);
    let multiple = |x| m.product(k, x);
    match (entry[0], k) {
        (0, 2) => fourier_twice(rows, n, q, m),
        (0, _) => P::fourier_back(rows, n, q, m),
        (1, _) => P::phase_gate(rows, n, q, multiple, m),
        (2, _) => sum(rows, n, (q, t), multiple, m),
        _ => P::cz(rows, n, (q, t), multiple, m),
    }
}

/// A gate or its power on every row.
#[inline(always)]
fn gate_or_power<P: Phases>(rows: &mut [u8], n: usize, entry: &[u8], m: &Modulo) {
    if is_power(entry) {
        power::<P>(rows, n, entry, m);
    } else {
        gate::<P>(rows, n, entry, m);
    }
}

/// A gate that is applied once, on a frame, which has no phase.
fn gate_frame(frame: &mut [u8], n: usize, entry: &[u8], m: &Modulo) {
    let (x, z) = frame.split_at_mut(n);
    let (q, t, u) = (usize::from(entry[1]), usize::from(entry[2]), entry[3]);
    match entry[0] {
        0 => (x[q], z[q]) = (m.rest(z[q].wrapping_neg()), x[q]),
        1 => z[q] = add(m.d, z[q], x[q]),
        2 => {
            x[t] = add(m.d, x[t], x[q]);
            z[q] = m.rest(z[q].wrapping_sub(z[t]));
        }
        3 => {
            z[q] = add(m.d, z[q], x[t]);
            z[t] = add(m.d, z[t], x[q]);
        }
        4 => {
            x.swap(q, t);
            z.swap(q, t);
        }
        _ => {
            x[q] = m.product(u, x[q]);
            z[q] = m.product(m.inverse(u), z[q]);
        }
    }
}

/// The power of a gate on a frame.
fn power_frame(frame: &mut [u8], n: usize, entry: &[u8], m: &Modulo) {
    let (x, z) = frame.split_at_mut(n);
    let (q, t, k) = (usize::from(entry[1]), usize::from(entry[2]), entry[3]);
    let minus = |x: u8| m.rest(x.wrapping_neg());
    match (entry[0], k) {
        (0, 2) => (x[q], z[q]) = (minus(x[q]), minus(z[q])),
        (0, _) => (x[q], z[q]) = (z[q], minus(x[q])),
        (1, _) => z[q] = add(m.d, z[q], m.product(k, x[q])),
        (2, _) => {
            x[t] = add(m.d, x[t], m.product(k, x[q]));
            z[q] = m.rest(z[q].wrapping_sub(m.product(k, z[t])));
        }
        _ => {
            z[q] = add(m.d, z[q], m.product(k, x[t]));
            z[t] = add(m.d, z[t], m.product(k, x[q]));
        }
    }
}

/// An error on every row. It adds to every kind of phase alike.
fn apply_error(rows: &mut [u8], n: usize, error: &[u8], m: &Modulo) {
    let (w, q) = (2 * n + 1, usize::from(error[2]));
    let (z, last) = (n + q, 2 * n);
    assert!(q < w && z < w && last < w);
    let (plus, minus) = (m.times(error[4]), m.times(m.rest(error[3].wrapping_neg())));
    for row in rows.chunks_exact_mut(w) {
        let gained = look_up(plus, row[q]).wrapping_add(look_up(minus, row[z]));
        row[last] = m.rest(row[last].wrapping_add(gained));
    }
}

// ---- Measurements

/// X to the minus so many on every row. It adds to every kind of phase alike.
#[inline(never)]
fn lower(rows: &mut [u8], n: usize, (q, by): (usize, u8), m: &Modulo) {
    if by == 0 {
        return;
    }
    let (w, z, last) = (2 * n + 1, n + q, 2 * n);
    assert!(z < w && last < w);
    let gained = m.times(by);
    for row in rows.chunks_exact_mut(w) {
        row[last] = m.rest(row[last].wrapping_add(look_up(gained, row[z])));
    }
}

/// The stabilizer by which a free measurement multiplies.
#[repr(align(64))]
pub struct Pivot {
    /// The X and Z powers of each of its powers but power 0.
    powers: [Blocks; 32],
    /// Its own phase.
    phase: u8,
}

impl Pivot {
    fn new() -> Pivot {
        Pivot {
            powers: [[[0; 16]; 8]; 32],
            phase: 0,
        }
    }

    /// Takes a row in and makes its powers, each from the one before.
    fn set(&mut self, row: &[u8], n: usize, d: u8) {
        self.powers[1].as_flattened_mut()[..2 * n].copy_from_slice(&row[..2 * n]);
        self.phase = row[2 * n];
        for i in 0..(2 * n).div_ceil(16) {
            let first = self.powers[1][i];
            let mut power = first;
            for h in 2..usize::from(d) {
                gain(d, &mut power, &first);
                self.powers[h][i] = power;
            }
        }
    }

    fn power(&self, h: u8) -> &Blocks {
        &self.powers[usize::from(h & 31)]
    }
}

/// The stabilizer that makes a measurement of q free, if there is one.
fn pivot_of(rows: &[u8], n: usize, q: usize) -> Option<usize> {
    let w = 2 * n + 1;
    let mut stabilizers = rows[n * w..].chunks_exact(w);
    stabilizers.position(|row| row[q] != 0)
}

/// A measurement: the outcome and the mark.
fn measure<P: Phases>(
    rows: &mut [u8],
    n: usize,
    (q, choice): (usize, u8),
    m: &Modulo,
    pivot: &mut Pivot,
) -> [u8; 2] {
    let Some(k) = pivot_of(rows, n, q) else {
        return [P::certain(rows, n, q, m), 0];
    };
    collapse::<P>(rows, n, (q, k, choice), m, pivot);
    [choice, 1]
}

/// The rows whose power on q is not 0, each with its exponent.
struct Changing {
    list: [(u8, u8); POWERS],
    count: usize,
}

impl Changing {
    fn as_slice(&self) -> &[(u8, u8)] {
        &self.list[..self.count]
    }
}

/// Finds them without a branch, which would often be foreseen wrongly for small d.
fn changing(rows: &[u8], w: usize, q: usize, exponents: &Table) -> Changing {
    let mut list = [(0, 0); POWERS];
    let mut count = 0;
    for (i, row) in (0..).zip(rows.chunks_exact(w)) {
        let h = look_up(exponents, row[q]);
        list[count % POWERS] = (i, h);
        count += usize::from(h != 0);
    }
    Changing { list, count }
}

/// A free measurement of q by stabilizer k.
fn collapse<P: Phases>(
    rows: &mut [u8],
    n: usize,
    (q, k, choice): (usize, usize, u8),
    m: &Modulo,
    pivot: &mut Pivot,
) {
    let w = 2 * n + 1;
    let (measured, partner) = ((n + k) * w, k * w);
    let inverse = m.inverse(rows[measured + q]);
    pivot.set(&rows[measured..measured + w], n, m.d);
    // Both are overwritten in the end. Without a power on q they are not listed.
    rows[measured + q] = 0;
    rows[partner + q] = 0;
    let changing = changing(rows, w, q, m.times(m.d - inverse));
    P::sweep(rows, n, changing.as_slice(), pivot, m);
    let partner = &mut rows[partner..partner + w];
    partner[..2 * n].copy_from_slice(&pivot.power(inverse).as_flattened()[..2 * n]);
    partner[2 * n] = P::phase_of_power(inverse, n, pivot, m);
    let measured = &mut rows[measured..measured + w];
    measured.fill(0);
    measured[n + q] = 1;
    measured[2 * n] = m.rest(choice.wrapping_neg());
}

// ---- The book

pub struct Book<'a> {
    pub d: u8,
    pub n: usize,
    pub operations: &'a [u8],
    pub errors: &'a [u8],
    pub choices: &'a [u8],
    /// How many results there are. Of the choices, some may be resets'.
    pub measurements: usize,
}

impl Book<'_> {
    /// The number of a finished run.
    pub fn finished(&self) -> usize {
        self.operations.len() / 4 + 1
    }
}

/// Refusals 2 and 3.
fn check_sizes(d: usize, n: usize) -> Result<(), Returned> {
    if ![3, 5, 7, 11, 13, 17, 19, 23, 29, 31].contains(&d) {
        return Err((2, 0));
    }
    if n == 0 || n > 64 {
        return Err((3, 0));
    }
    Ok(())
}

pub fn two_bytes(bytes: &[u8], i: usize) -> usize {
    usize::from(u16::from_le_bytes([bytes[i], bytes[i + 1]]))
}

/// The accepted book, or refusal 1 to 7.
pub fn read(book: &[u8]) -> Result<Book<'_>, Returned> {
    if book.len() < 22 || book[0] != 81 || book[3] != 3 {
        return Err((1, 0));
    }
    let (d, n) = (book[1], usize::from(book[2]));
    check_sizes(d.into(), n)?;
    let bodies = bodies(book)?;
    let measurements = check_bodies(d, n, bodies)?;
    let [operations, errors, choices] = bodies;
    Ok(Book {
        d,
        n,
        operations,
        errors,
        choices,
        measurements,
    })
}

/// Whether body i may have this length: whole entries, and not too many.
fn is_length(i: usize, length: usize) -> bool {
    let (sizes, limits) = ([4, 5, 1], [4096, 2048, 4096]);
    length.is_multiple_of(sizes[i]) && length / sizes[i] <= limits[i]
}

fn bodies(book: &[u8]) -> Result<[&[u8]; 3], Returned> {
    let mut ends = [22; 4];
    for (i, entry) in book[4..22].chunks_exact(6).enumerate() {
        let (offset, length) = (two_bytes(entry, 2), two_bytes(entry, 4));
        let named = usize::from(entry[0]) == i + 1 && entry[1] == 0 && offset == ends[i];
        if !named || !is_length(i, length) {
            return Err((4, i));
        }
        ends[i + 1] = offset + length;
    }
    if ends[3] != book.len() {
        return Err((4, 3));
    }
    Ok([0, 1, 2].map(|i| &book[ends[i]..ends[i + 1]]))
}

/// Whether an entry is a gate or a measurement.
fn is_operation(d: u32, n: u32, entry: &[u8]) -> bool {
    let entry = code_first(entry);
    let [code, q, t, k] = [0, 8, 16, 24].map(|by| (entry >> by) & 255);
    let two = (code > 1) & (code < 5);
    let second = (two & (t < n) & (t != q)) | (!two & (t == 0));
    // Fourier has powers 2 and 3. Swap and measure, the codes 100 and 110, have 0 alone.
    let end = match code {
        0 => 4,
        _ if code & 0b101 == 0b100 => 1,
        _ => d,
    };
    // The multiplier has no factor 0, and no power is spelled 1.
    let excluded = if code == 5 { 0 } else { 1 };
    (code < 7) & (q < n) & second & (k < end) & (k != excluded)
}

/// Whether an entry is a reset, or a correction by one of so many results.
fn is_adjustment(n: usize, measured: usize, entry: &[u8]) -> bool {
    let is_placed = usize::from(entry[1]) < n;
    match entry[0] {
        7 => is_placed && entry[2..] == [0, 0],
        8 => is_placed && two_bytes(entry, 2) < measured,
        _ => false,
    }
}

/// The bytes of an operation as one number, the code in the lowest bits.
fn code_first(entry: &[u8]) -> u32 {
    u32::from_le_bytes([entry[0], entry[1], entry[2], entry[3]])
}

/// Refusals 5 to 7, or the number of measurements.
fn check_bodies(
    d: u8,
    n: usize,
    [operations, errors, choices]: [&[u8]; 3],
) -> Result<usize, Returned> {
    let is_adjusted = check_operations(d, n, operations)?;
    check_errors(d, n, operations.len() / 4, errors)?;
    let measurements = count::<MEASURE>(operations);
    if !is_adjusted {
        check_choices(d, measurements, choices)?;
    } else {
        check_choices(d, count::<MEASURE_OR_RESET>(operations), choices)?;
    }
    Ok(measurements)
}

/// The bits by which a code is told to be 110, and those by which it is told to be 110 or 111.
const MEASURE: u32 = 0b1111_1111;
const MEASURE_OR_RESET: u32 = 0b1111_1110;

/// How many operations have a code with 110 in these bits.
fn count<const BITS: u32>(operations: &[u8]) -> usize {
    let entries = operations.chunks_exact(4);
    let counted = entries.map(|entry| u32::from(code_first(entry) & BITS == 0b110));
    counted.sum::<u32>() as usize
}

/// Whether there are resets or corrections. If there are not, one pass without a branch is enough.
fn check_operations(d: u8, n: usize, body: &[u8]) -> Result<bool, Returned> {
    let is_good = |entry: &[u8]| is_operation(d.into(), n as u32, entry);
    let mut entries = body.chunks_exact(4);
    let all = entries.clone();
    if all.fold(true, |good, entry| good & is_good(entry)) {
        return Ok(false);
    }
    let mut measured = 0;
    let first = entries.position(|entry| {
        let is_bad = !is_good(entry) && !is_adjustment(n, measured, entry);
        measured += usize::from(entry[0] == 6);
        is_bad
    });
    first.map_or(Ok(true), |index| Err((5, index)))
}

fn check_errors(d: u8, n: usize, operations: usize, body: &[u8]) -> Result<(), Returned> {
    let mut lowest = 0;
    for (index, entry) in body.chunks_exact(5).enumerate() {
        let place = two_bytes(entry, 0);
        let placed = lowest <= place && place <= operations;
        if !placed || usize::from(entry[2]) >= n || entry[3] >= d || entry[4] >= d {
            return Err((6, index));
        }
        lowest = place;
    }
    Ok(())
}

fn check_choices(d: u8, taken: usize, choices: &[u8]) -> Result<(), Returned> {
    if choices.len() != taken {
        return Err((7, choices.len().min(taken)));
    }
    if choices.iter().fold(0, |most, &x| x.max(most)) < d {
        return Ok(());
    }
    let first = choices.iter().position(|&choice| choice >= d);
    Err((7, first.expect("one is bad")))
}

/// Takes the next error off the body, if its place is k.
fn take_error<'a>(errors: &mut &'a [u8], k: usize) -> Option<&'a [u8]> {
    let (error, rest) = errors.split_at_checked(5)?;
    if two_bytes(error, 0) != k {
        return None;
    }
    *errors = rest;
    Some(error)
}

// ---- Calls

/// Where the rows of a tableau begin, behind d and n.
pub const ROWS: usize = 2;

/// The bytes of a tableau of n qudits.
pub fn tableau_len(n: usize) -> usize {
    ROWS + 2 * n * (2 * n + 1)
}

pub fn test(tableau: &[u8]) -> Returned {
    let &[d, n, ..] = tableau else {
        return (8, 0);
    };
    let n = usize::from(n);
    if let Err(returned) = check_sizes(d.into(), n) {
        return returned;
    }
    match tableau.get(ROWS..tableau_len(n)) {
        None => (8, 0),
        Some(rows) if !is_valid(d, n, rows) => (9, 0),
        Some(_) => (0, 0),
    }
}

/// The look at a qudit of a tableau: 0, then 1 and 0 for free, or 0 and the outcome for certain.
pub fn look(tableau: &[u8], qudit: usize) -> (usize, usize, usize) {
    let (number, _) = test(tableau);
    if number != 0 {
        return (number, 0, 0);
    }
    let (d, n) = (tableau[0], usize::from(tableau[1]));
    if qudit >= n {
        return (13, 0, 0);
    }
    let rows = &tableau[ROWS..tableau_len(n)];
    match pivot_of(rows, n, qudit) {
        Some(_) => (0, 1, 0),
        None => {
            let outcome = Specified::certain(rows, n, qudit, &Modulo::new(d));
            (0, 0, outcome.into())
        }
    }
}

/// Whether a tableau of the length that the book's n needs is the book's and valid.
pub fn is_valid_for(book: &Book, tableau: &[u8]) -> bool {
    let (sizes, rows) = tableau.split_at(ROWS);
    sizes == [book.d, book.n as u8] && is_valid(book.d, book.n, rows)
}

/// Writes the book of three bodies.
pub fn write(bodies: [&[u8]; 3], d: usize, n: usize, out: &mut [u8]) -> Returned {
    match check_all(bodies, d, n, out) {
        Ok(out) => (0, lay(bodies, d as u8, n as u8, out)),
        Err(returned) => returned,
    }
}

/// The part of the buffer that the book fills, or a refusal.
fn check_all<'a>(
    bodies: [&[u8]; 3],
    d: usize,
    n: usize,
    out: &'a mut [u8],
) -> Result<&'a mut [u8], Returned> {
    check_sizes(d, n)?;
    if let Some(i) = (0..3).find(|&i| !is_length(i, bodies[i].len())) {
        return Err((4, i));
    }
    check_bodies(d as u8, n, bodies)?;
    let length = 22 + bodies.map(<[u8]>::len).iter().sum::<usize>();
    out.get_mut(..length).ok_or((8, 0))
}

/// Fills the buffer with the book of good bodies. Its length.
fn lay(bodies: [&[u8]; 3], d: u8, n: u8, out: &mut [u8]) -> usize {
    lay_head(bodies.map(<[u8]>::len), d, n, out);
    let mut offset = 22;
    for body in bodies {
        out[offset..offset + body.len()].copy_from_slice(body);
        offset += body.len();
    }
    offset
}

/// Fills the first 22 bytes of a book with bodies of these lengths.
fn lay_head(lengths: [usize; 3], d: u8, n: u8, out: &mut [u8]) {
    out[..4].copy_from_slice(&[81, d, n, 3]);
    let mut offset = 22;
    for (i, length) in lengths.into_iter().enumerate() {
        let [low, high] = (offset as u16).to_le_bytes();
        let [least, most] = (length as u16).to_le_bytes();
        let entry = [i as u8 + 1, 0, low, high, least, most];
        out[4 + 6 * i..10 + 6 * i].copy_from_slice(&entry);
        offset += length;
    }
}

/// Writes the mirror of a book.
pub fn mirror(book: &[u8], out: &mut [u8]) -> Returned {
    let book = match read(book) {
        Ok(book) => book,
        Err(returned) => return returned,
    };
    // A good book has a choice for each measurement and each reset, and no correction without one.
    if !book.choices.is_empty() {
        let mut entries = book.operations.chunks_exact(4);
        let first = entries.position(|entry| entry[0] > 5);
        return (12, first.expect("a measurement or a reset"));
    }
    let length = 22 + book.operations.len();
    let Some(out) = out.get_mut(..length) else {
        return (8, 0);
    };
    lay_head([book.operations.len(), 0, 0], book.d, book.n as u8, out);
    lay_back(&book, &mut out[22..]);
    (0, length)
}

/// Fills the buffer with what undoes the operations, the last of them first. For few it takes longer
/// to make the table than to work out each last byte.
fn lay_back(book: &Book, out: &mut [u8]) {
    let entries = book.operations.chunks_exact(4).map(code_first).rev();
    let entries = out.chunks_exact_mut(4).zip(entries);
    if book.operations.len() < 4 * 32 {
        for (back, entry) in entries {
            let last = undoing(book.d, entry & 255, entry >> 24);
            back.copy_from_slice(&with_last(entry, last));
        }
        return;
    }
    let lasts = lasts(book.d, book.operations);
    for (back, entry) in entries {
        let [code, k] = [entry & 7, (entry >> 24) & 31].map(|x| x as usize);
        back.copy_from_slice(&with_last(entry, lasts[code][k]));
    }
}

/// The bytes of an operation with another last byte.
fn with_last(entry: u32, last: u8) -> [u8; 4] {
    (entry & 0xff_ffff | u32::from(last) << 24).to_le_bytes()
}

/// The last byte of what undoes an operation with this code and last byte.
fn undoing(d: u8, code: u32, k: u32) -> u8 {
    match code {
        0 => left_of(4, k as u8),
        1..=3 => left_of(d, k as u8),
        5 => inverses_of(d, [k as u16])[0],
        _ => 0,
    }
}

/// The applications that are left of so many, as an entry has them: 0 for once.
fn left_of(order: u8, k: u8) -> u8 {
    let left = order.wrapping_sub(k.max(1));
    if left == 1 { 0 } else { left }
}

/// The last byte of what undoes an operation, by the operation's code and last byte.
fn lasts(d: u8, operations: &[u8]) -> [[u8; 32]; 8] {
    let mut lasts = [[0; 32]; 8];
    lasts[0] = array::from_fn(|k| left_of(4, k as u8));
    lasts[1..4].fill(array::from_fn(|k| left_of(d, k as u8)));
    let codes = operations
        .chunks_exact(4)
        .map(|entry| code_first(entry) & 255);
    if codes.fold(false, |any, code| any | (code == 5)) {
        lasts[5] = inverses_of(d, array::from_fn(|u| u as u16));
    }
    lasts
}

/// Each number to the power d − 2, by squares, all of them side by side.
fn inverses_of<const N: usize>(d: u8, mut squares: [u16; N]) -> [u8; N] {
    let d = u16::from(d);
    // Above 2^16/d by at most 1, which is near enough for products of two numbers below 32.
    let reciprocal = (1 << 16) / u32::from(d) + 1;
    let rest = |x: u16| x - ((u32::from(x) * reciprocal) >> 16) as u16 * d;
    let (mut powers, mut left) = ([1; N], d - 2);
    while left > 0 {
        for (power, square) in powers.iter_mut().zip(&mut squares) {
            if left % 2 == 1 {
                *power = rest(*power * *square);
            }
            *square = rest(*square * *square);
        }
        left /= 2;
    }
    powers.map(|power| power as u8)
}

/// The book and the part of the tableau that it needs, not yet tested, or a refusal.
fn start<'a, 'b>(
    book: &'a [u8],
    tableau: &'b mut [u8],
    results: &[u8],
) -> Result<(Book<'a>, &'b mut [u8]), Returned> {
    let book = read(book)?;
    let tableau = tableau.get_mut(..tableau_len(book.n)).ok_or((8, 0))?;
    if results.len() < 2 * book.measurements {
        return Err((8, 0));
    }
    Ok((book, tableau))
}

/// The direct run: each error is applied to every row at its place. The third number is that of a
/// finished run.
pub fn direct_run<P: Phases>(
    book: &[u8],
    tableau: &mut [u8],
    results: &mut [u8],
) -> (usize, usize, usize) {
    go_on::<P>(book, tableau, results, 0, usize::MAX)
}

/// The direct run from operation `from` on, for so many operations. The third number is that of the
/// next one.
pub fn go_on<P: Phases>(
    book: &[u8],
    tableau: &mut [u8],
    results: &mut [u8],
    from: usize,
    count: usize,
) -> (usize, usize, usize) {
    let (book, tableau) = match start(book, tableau, results) {
        Ok(started) => started,
        Err((number, place)) => return (number, place, 0),
    };
    if !is_valid_for(&book, tableau) {
        return (9, 0, 0);
    }
    if from > book.finished() {
        return (13, 0, 0);
    }
    let next = from.saturating_add(count).min(book.finished());
    if from < next {
        let modulo = Modulo::new(book.d);
        let rows = &mut tableau[ROWS..];
        run_rows::<P>(&book, from..next, rows, results, &modulo);
    }
    (0, book.measurements, next)
}

/// These stages of a direct run on the rows of a valid tableau.
pub fn run_rows<P: Phases>(
    book: &Book,
    stages: Range<usize>,
    rows: &mut [u8],
    results: &mut [u8],
    modulo: &Modulo,
) {
    P::enter(rows, book.n, modulo);
    apply_errors::<P>(book, stages, rows, results, modulo);
    P::leave(rows, book.n, modulo);
}

/// Where a run stands: the errors and choices that are not spent, and how many results are done.
struct Standing<'a> {
    errors: &'a [u8],
    choices: Iter<'a, u8>,
    done: usize,
}

impl<'a> Standing<'a> {
    /// Before the operation of this number.
    fn new(book: &Book<'a>, number: usize) -> Standing<'a> {
        let earlier = &book.operations[..4 * number];
        let (entries, _) = book.errors.as_chunks::<5>();
        let spent = entries.partition_point(|error| two_bytes(error, 0) < number);
        Standing {
            errors: &book.errors[5 * spent..],
            choices: book.choices[count::<MEASURE_OR_RESET>(earlier)..].iter(),
            done: count::<MEASURE>(earlier),
        }
    }
}

/// The operations of these stages, each behind the errors of its place, and behind the last one of
/// all the errors that are left.
fn apply_errors<P: Phases>(
    book: &Book,
    stages: Range<usize>,
    rows: &mut [u8],
    results: &mut [u8],
    modulo: &Modulo,
) {
    let (n, end) = (book.n, stages.end.min(book.finished() - 1));
    let mut at = Standing::new(book, stages.start);
    let mut pivot = Pivot::new();
    let entries = book.operations[4 * stages.start..4 * end].chunks_exact(4);
    for (k, entry) in (stages.start..).zip(entries) {
        while let Some(error) = take_error(&mut at.errors, k) {
            apply_error(rows, n, error, modulo);
        }
        if entry[0] < 6 {
            gate_or_power::<P>(rows, n, entry, modulo);
            continue;
        }
        let q = usize::from(entry[1]);
        if entry[0] == 8 {
            // What is lent may be any byte.
            let by = modulo.reduce(results[2 * two_bytes(entry, 2)].into());
            lower(rows, n, (q, by), modulo);
            continue;
        }
        let measured = (q, next(&mut at.choices));
        let result = measure::<P>(rows, n, measured, modulo, &mut pivot);
        if entry[0] == 6 {
            results[2 * at.done..2 * at.done + 2].copy_from_slice(&result);
            at.done += 1;
        } else {
            lower(rows, n, (q, result[0]), modulo);
        }
    }
    if stages.end == book.finished() {
        for error in at.errors.chunks_exact(5) {
            apply_error(rows, n, error, modulo);
        }
    }
}

/// The next choice of a good book.
fn next<'a>(choices: &mut impl Iterator<Item = &'a u8>) -> u8 {
    *choices.next().expect("as many choices as are taken")
}

/// The frame run: errors change the frame alone. The third number is the verdict.
pub fn frame_run<P: Phases>(
    book: &[u8],
    tableau: &mut [u8],
    results: &mut [u8],
    shifts: &mut [u8],
    frame: &mut [u8],
) -> (usize, usize, usize) {
    let (book, tableau) = match start(book, tableau, results) {
        Ok(started) => started,
        Err((number, place)) => return (number, place, 0),
    };
    let n = book.n;
    let (Some(shifts), Some(frame)) = (shifts.get_mut(..2 * n), frame.get_mut(..2 * n)) else {
        return (8, 0, 0);
    };
    if !is_valid_for(&book, tableau) {
        return (9, 0, 0);
    }
    let modulo = Modulo::new(book.d);
    let rows = &mut tableau[ROWS..];
    frame.fill(0);
    P::enter(rows, n, &modulo);
    let measurements = carry_along::<P>(&book, rows, results, frame, &modulo);
    P::leave(rows, n, &modulo);
    let verdict = shift(rows, n, frame, shifts, &modulo);
    (0, measurements, verdict)
}

/// All operations and errors of a frame run. How many measurements there were.
fn carry_along<P: Phases>(
    book: &Book,
    rows: &mut [u8],
    results: &mut [u8],
    frame: &mut [u8],
    modulo: &Modulo,
) -> usize {
    let (n, mut errors, mut done) = (book.n, book.errors, 0);
    let (mut choices, mut pivot) = (book.choices.iter(), Pivot::new());
    let mut shifts = [0; MAX_OPERATIONS];
    for (k, entry) in book.operations.chunks_exact(4).enumerate() {
        while let Some(error) = take_error(&mut errors, k) {
            carry(frame, n, error, modulo.d);
        }
        if entry[0] < 6 {
            gate_both::<P>((rows, frame), n, entry, modulo);
            continue;
        }
        let q = usize::from(entry[1]);
        if entry[0] == 8 {
            let m = two_bytes(entry, 2);
            correct((rows, frame), n, (q, results[2 * m], shifts[m]), modulo);
            continue;
        }
        let measured = (q, next(&mut choices));
        let [clean, mark] = measure::<P>(rows, n, measured, modulo, &mut pivot);
        if entry[0] == 6 {
            let reported = add(modulo.d, clean, frame[q]);
            results[2 * done..2 * done + 2].copy_from_slice(&[reported, mark]);
            shifts[done] = frame[q];
            done += 1;
        } else {
            lower(rows, n, (q, clean), modulo);
            frame[q] = 0;
        }
    }
    for error in errors.chunks_exact(5) {
        carry(frame, n, error, modulo.d);
    }
    done
}

/// A gate or its power on the rows and on the frame.
#[inline(always)]
fn gate_both<P: Phases>((rows, frame): (&mut [u8], &mut [u8]), n: usize, entry: &[u8], m: &Modulo) {
    gate_or_power::<P>(rows, n, entry, m);
    if is_power(entry) {
        power_frame(frame, n, entry, m);
    } else {
        gate_frame(frame, n, entry, m);
    }
}

/// A correction in a frame run: of the rows by the clean result, of the frame by the shift.
#[inline(never)]
fn correct(
    (rows, frame): (&mut [u8], &mut [u8]),
    n: usize,
    (t, reported, shift): (usize, u8, u8),
    m: &Modulo,
) {
    lower(rows, n, (t, m.rest(reported.wrapping_sub(shift))), m);
    frame[t] = m.rest(frame[t].wrapping_sub(shift));
}

/// The error joins the frame.
fn carry(frame: &mut [u8], n: usize, error: &[u8], d: u8) {
    let q = usize::from(error[2]);
    frame[q] = add(d, frame[q], error[3]);
    frame[n + q] = add(d, frame[n + q], error[4]);
}

/// Shifts the phase of each row by the pairing of the frame with that row. The verdict is that of
/// the stabilizers' shifts.
fn shift(rows: &mut [u8], n: usize, frame: &[u8], shifts: &mut [u8], m: &Modulo) -> usize {
    for (row, shift) in rows.chunks_exact_mut(2 * n + 1).zip(&mut *shifts) {
        let plus = m.reduce(dot(&frame[n..2 * n], &row[..n]));
        let minus = m.reduce(dot(&frame[..n], &row[n..2 * n]));
        *shift = m.rest(plus.wrapping_sub(minus));
        row[2 * n] = m.rest(row[2 * n].wrapping_add(*shift));
    }
    let any = shifts[n..].iter().fold(0, |any, &shift| any | shift);
    usize::from(any != 0)
}
