//! Tableaus that own their bytes, and their rows as a person reads them.

use crate::book::MAX_QUDITS;
use crate::{Look, Refusal, layer, look, tableau_len, test_tableau};
use std::fmt;

/// Where the rows begin, behind d and n.
const ROWS: usize = 2;

/// A valid tableau: n destabilizers and n stabilizers, each with its phase.
///
/// It comes from the proved layer, from bytes that passed the proved test, or from a run, which is
/// proved to leave a valid one. So every `Tableau` is valid.
///
/// ```
/// use cagvost::Tableau;
///
/// let zero = Tableau::zero(3, 2)?;
/// assert_eq!(zero.destabilizer(0).to_string(), "X0");
/// assert_eq!(zero.stabilizer(1).to_string(), "Z1");
/// assert_eq!(
///     zero.to_string(),
///     "destabilizer 0  X0\n\
///      destabilizer 1  X1\n\
///      stabilizer 0    Z0\n\
///      stabilizer 1    Z1\n"
/// );
/// # Ok::<(), cagvost::Refusal>(())
/// ```
#[derive(Clone, Debug, PartialEq, Eq, Hash)]
pub struct Tableau {
    bytes: Vec<u8>,
}

impl Tableau {
    /// The zero tableau of `n` qudits of dimension `d`, every qudit at level 0: destabilizer i is X on
    /// qudit i, and stabilizer i is Z on it.
    ///
    /// # Errors
    ///
    /// [`Refusal::Dimension`], then [`Refusal::QuditCount`].
    pub fn zero(d: usize, n: usize) -> Result<Tableau, Refusal> {
        // The layer refuses a larger n, so that nothing larger need be made for it.
        let mut bytes = vec![0; tableau_len(n.min(MAX_QUDITS.into()))];
        layer(&mut bytes, d, n)?;
        Ok(Tableau { bytes })
    }

    /// The tableau that these bytes begin with, by the proved test. What comes behind it is not kept.
    ///
    /// ```
    /// use cagvost::{Refusal, Tableau};
    ///
    /// let zero = Tableau::zero(5, 3)?;
    /// let mut stored = zero.as_bytes().to_vec();
    /// assert_eq!(Tableau::from_bytes(&stored)?, zero);
    /// stored.pop();
    /// assert_eq!(Tableau::from_bytes(&stored), Err(Refusal::ShortBuffer));
    /// # Ok::<(), Refusal>(())
    /// ```
    ///
    /// # Errors
    ///
    /// As [`test_tableau`] has them.
    pub fn from_bytes(bytes: &[u8]) -> Result<Tableau, Refusal> {
        test_tableau(bytes)?;
        let bytes = bytes[..tableau_len(bytes[1].into())].to_vec();
        Ok(Tableau { bytes })
    }

    /// The bytes, lent to a run, which is proved to leave a valid tableau there.
    pub(crate) fn lend(&mut self) -> &mut [u8] {
        &mut self.bytes
    }

    /// The bytes: d, n and the rows, as [`direct_run`](crate::direct_run) takes them.
    pub fn as_bytes(&self) -> &[u8] {
        &self.bytes
    }

    /// The dimension.
    pub fn dimension(&self) -> u8 {
        self.bytes[0]
    }

    /// The number of qudits.
    pub fn qudits(&self) -> u8 {
        self.bytes[1]
    }

    /// Looks at a qudit, counted from 0: what a measurement there would be.
    ///
    /// ```
    /// use cagvost::{Book, Look, Refusal, Simulation, Tableau};
    ///
    /// let zero = Tableau::zero(3, 2)?;
    /// assert_eq!(zero.look(1)?, Look::Certain(0));
    /// assert_eq!(zero.look(2), Err(Refusal::NoSuchQudit));
    ///
    /// let book: Book = "qudits 2 dimension 3\nfourier 1".parse()?;
    /// let turned = Simulation::new(&book)?.direct().tableau;
    /// assert_eq!(turned.look(1)?, Look::Free);
    /// # Ok::<(), Box<dyn std::error::Error>>(())
    /// ```
    ///
    /// # Errors
    ///
    /// [`Refusal::NoSuchQudit`] if there is none of this number: there are [`Tableau::qudits`].
    pub fn look(&self, qudit: usize) -> Result<Look, Refusal> {
        look(&self.bytes, qudit)
    }

    /// Destabilizer `i`, counted from 0.
    ///
    /// # Panics
    ///
    /// If there is none: there are as many as qudits.
    pub fn destabilizer(&self, i: usize) -> Row {
        let n = self.count();
        assert!(i < n, "no destabilizer {i} in a tableau of {n} qudits");
        self.row(i)
    }

    /// Stabilizer `i`, counted from 0.
    ///
    /// # Panics
    ///
    /// If there is none: there are as many as qudits.
    pub fn stabilizer(&self, i: usize) -> Row {
        let n = self.count();
        assert!(i < n, "no stabilizer {i} in a tableau of {n} qudits");
        self.row(n + i)
    }

    /// All destabilizers, in order.
    pub fn destabilizers(&self) -> impl ExactSizeIterator<Item = Row> {
        (0..self.count()).map(|i| self.destabilizer(i))
    }

    /// All stabilizers, in order.
    pub fn stabilizers(&self) -> impl ExactSizeIterator<Item = Row> {
        (0..self.count()).map(|i| self.stabilizer(i))
    }

    fn count(&self) -> usize {
        self.qudits().into()
    }

    fn row(&self, index: usize) -> Row {
        let n = self.count();
        let start = ROWS + index * (2 * n + 1);
        let (x, rest) = self.bytes[start..].split_at(n);
        Row {
            phase: rest[n],
            x: x.to_vec(),
            z: rest[..n].to_vec(),
        }
    }
}

/// Writes one row a line, each with its name, destabilizers first.
impl fmt::Display for Tableau {
    fn fmt(&self, f: &mut fmt::Formatter<'_>) -> fmt::Result {
        let destabilizers = self.destabilizers().map(|row| ("destabilizer", row));
        let stabilizers = self.stabilizers().map(|row| ("stabilizer", row));
        let width = format!("destabilizer {}", self.count() - 1).len();
        for (i, (kind, row)) in destabilizers.chain(stabilizers).enumerate() {
            let name = format!("{kind} {}", i % self.count());
            writeln!(f, "{name:width$}  {row}")?;
        }
        Ok(())
    }
}

/// A row of a tableau: ω to the phase, times X^a Z^b on each qudit.
///
/// It is written qudit by qudit, X on the left of Z. A power of 1 is not written, and the identity is
/// `1`.
///
/// ```
/// use cagvost::Row;
///
/// let row = |phase, x: [u8; 2], z: [u8; 2]| Row { phase, x: x.into(), z: z.into() };
/// assert_eq!(row(2, [1, 0], [0, 2]).to_string(), "ω^2 X0 Z1^2");
/// assert_eq!(row(1, [3, 0], [1, 0]).to_string(), "ω X0^3 Z0");
/// assert_eq!(row(0, [0, 0], [0, 0]).to_string(), "1");
/// ```
#[derive(Clone, Debug, PartialEq, Eq, Hash)]
pub struct Row {
    /// The power of ω.
    pub phase: u8,
    /// The X power on each qudit.
    pub x: Vec<u8>,
    /// The Z power on each qudit.
    pub z: Vec<u8>,
}

impl fmt::Display for Row {
    fn fmt(&self, f: &mut fmt::Formatter<'_>) -> fmt::Result {
        f.pad(&product(self.phase, &self.x, &self.z))
    }
}

/// What the errors of a run have become at its end: X^a Z^b on each qudit, up to a phase.
///
/// It is written as a [`Row`] without its phase.
///
/// ```
/// use cagvost::Frame;
///
/// let frame = Frame { x: vec![0, 1], z: vec![2, 0] };
/// assert_eq!(frame.to_string(), "Z0^2 X1");
/// ```
#[derive(Clone, Debug, PartialEq, Eq, Hash)]
pub struct Frame {
    /// The X power on each qudit.
    pub x: Vec<u8>,
    /// The Z power on each qudit.
    pub z: Vec<u8>,
}

impl fmt::Display for Frame {
    fn fmt(&self, f: &mut fmt::Formatter<'_>) -> fmt::Result {
        f.pad(&product(0, &self.x, &self.z))
    }
}

/// The product in words, without the factors that are 1.
fn product(phase: u8, x: &[u8], z: &[u8]) -> String {
    let mut factors = vec![("ω".to_string(), phase)];
    for q in 0..x.len().max(z.len()) {
        for (letter, powers) in [('X', x), ('Z', z)] {
            let power = powers.get(q).copied().unwrap_or(0);
            factors.push((format!("{letter}{q}"), power));
        }
    }
    factors.retain(|&(_, power)| power != 0);
    if factors.is_empty() {
        return "1".to_string();
    }
    let words = factors.iter().map(|(base, k)| Power(base, *k).to_string());
    words.collect::<Vec<String>>().join(" ")
}

/// `X^2`: something to a power. A power of 1 is not written.
pub(crate) struct Power<T>(pub(crate) T, pub(crate) u8);

impl<T: fmt::Display> fmt::Display for Power<T> {
    fn fmt(&self, f: &mut fmt::Formatter<'_>) -> fmt::Result {
        match self {
            Power(base, 1) => write!(f, "{base}"),
            Power(base, power) => write!(f, "{base}^{power}"),
        }
    }
}
