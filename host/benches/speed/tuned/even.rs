//! Even phases: from entry to exit, a row's last byte holds r − ½ Σ a·b.
//!
//! They simply add under products of rows that commute, so that a sweep adds them as it adds powers,
//! and of the gates only the phase gate moves them. This leans on the tableau's validity, which each
//! run has tested.

use super::{Modulo, Multiple, Phases, Pivot, gain_blocks, look_up, own_dot};

pub struct Even;

impl Phases for Even {
    fn enter(rows: &mut [u8], n: usize, m: &Modulo) {
        add_to_phases(rows, n, m.d / 2, m);
    }

    fn leave(rows: &mut [u8], n: usize, m: &Modulo) {
        add_to_phases(rows, n, m.d / 2 + 1, m);
    }

    fn fourier(rows: &mut [u8], n: usize, q: usize, m: &Modulo) {
        let (w, z) = (2 * n + 1, n + q);
        assert!(q < w && z < w);
        for row in rows.chunks_exact_mut(w) {
            let (a, b) = (row[q], row[z]);
            row[q] = m.rest(b.wrapping_neg());
            row[z] = a;
        }
    }

    fn fourier_back(rows: &mut [u8], n: usize, q: usize, m: &Modulo) {
        let (w, z) = (2 * n + 1, n + q);
        assert!(q < w && z < w);
        for row in rows.chunks_exact_mut(w) {
            let (a, b) = (row[q], row[z]);
            row[q] = b;
            row[z] = m.rest(a.wrapping_neg());
        }
    }

    fn phase_gate(rows: &mut [u8], n: usize, q: usize, multiple: impl Multiple, m: &Modulo) {
        let (w, z, last) = (2 * n + 1, n + q, 2 * n);
        assert!(q < w && z < w && last < w);
        let halves = m.times(m.d / 2);
        for row in rows.chunks_exact_mut(w) {
            let (gained, b, s) = (multiple(row[q]), row[z], row[last]);
            row[z] = m.rest(b.wrapping_add(gained));
            row[last] = m.rest(s.wrapping_add(look_up(halves, gained)));
        }
    }

    fn cz(rows: &mut [u8], n: usize, (c, t): (usize, usize), multiple: impl Multiple, m: &Modulo) {
        let (w, zc, zt) = (2 * n + 1, n + c, n + t);
        assert!(c < w && t < w && zc < w && zt < w);
        for row in rows.chunks_exact_mut(w) {
            let b = row[zc].wrapping_add(multiple(row[t]));
            let z = row[zt].wrapping_add(multiple(row[c]));
            row[zc] = m.rest(b);
            row[zt] = m.rest(z);
        }
    }

    /// Even phases add up, and that of Z on q is its phase.
    fn certain(rows: &[u8], n: usize, q: usize, m: &Modulo) -> u8 {
        let w = 2 * n + 1;
        let (destabilizers, stabilizers) = rows.split_at(n * w);
        let powers = destabilizers.chunks_exact(w).map(|row| u16::from(row[q]));
        let phases = stabilizers.chunks_exact(w).map(|row| u16::from(row[2 * n]));
        let sum: u16 = powers.zip(phases).map(|(h, s)| h * s).sum();
        m.rest(m.reduce(sum.into()).wrapping_neg())
    }

    fn sweep(rows: &mut [u8], n: usize, listed: &[(u8, u8)], pivot: &Pivot, m: &Modulo) {
        let (w, phases) = (2 * n + 1, m.times(pivot.phase));
        for &(i, h) in listed {
            let (powers, phase) = rows[usize::from(i) * w..][..w].split_at_mut(2 * n);
            gain_blocks(m.d, powers, pivot.power(h));
            phase[0] = m.rest(phase[0].wrapping_add(look_up(phases, h)));
        }
    }

    fn phase_of_power(h: u8, _: usize, pivot: &Pivot, m: &Modulo) -> u8 {
        m.product(h, pivot.phase)
    }
}

/// Adds x·Σ a·b to each row's phase.
fn add_to_phases(rows: &mut [u8], n: usize, x: u8, m: &Modulo) {
    for row in rows.chunks_exact_mut(2 * n + 1) {
        let own = m.reduce(own_dot(row, n));
        row[2 * n] = m.rest(row[2 * n].wrapping_add(look_up(m.times(x), own)));
    }
}
