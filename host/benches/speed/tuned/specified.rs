//! The specification's phases: at every moment of a run, a row's last byte holds its r.
//!
//! - Fourier, phase gate and CZ move it by one entry of a table.
//! - In a free measurement, a row times power h of the pivot takes Σ b·a' with the X powers a' of
//!   that power. This leaves the same rest as h times the sum with those of the pivot, which are
//!   laid out once, in 16 bits each. One reduction is enough for a row.
//! - In a certain measurement no rows are multiplied: the phase of the product is a sum over the
//!   stabilizers.

use super::{
    Modulo, Multiple, POWERS, Phases, Pivot, changing, dot, gain_blocks, look_up, own_dot,
};

pub struct Specified;

impl Phases for Specified {
    fn enter(_: &mut [u8], _: usize, _: &Modulo) {}

    fn leave(_: &mut [u8], _: usize, _: &Modulo) {}

    fn fourier(rows: &mut [u8], n: usize, q: usize, m: &Modulo) {
        let (w, z, last) = (2 * n + 1, n + q, 2 * n);
        assert!(q < w && z < w && last < w);
        for row in rows.chunks_exact_mut(w) {
            let (a, b, r) = (row[q], row[z], row[last]);
            row[q] = m.rest(b.wrapping_neg());
            row[z] = a;
            row[last] = m.rest(r.wrapping_sub(m.product(a, b)));
        }
    }

    fn fourier_back(rows: &mut [u8], n: usize, q: usize, m: &Modulo) {
        let (w, z, last) = (2 * n + 1, n + q, 2 * n);
        assert!(q < w && z < w && last < w);
        for row in rows.chunks_exact_mut(w) {
            let (a, b, r) = (row[q], row[z], row[last]);
            row[q] = b;
            row[z] = m.rest(a.wrapping_neg());
            row[last] = m.rest(r.wrapping_sub(m.product(a, b)));
        }
    }

    fn phase_gate(rows: &mut [u8], n: usize, q: usize, multiple: impl Multiple, m: &Modulo) {
        let (w, z, last) = (2 * n + 1, n + q, 2 * n);
        assert!(q < w && z < w && last < w);
        for row in rows.chunks_exact_mut(w) {
            let (a, b, r) = (row[q], row[z], row[last]);
            row[z] = m.rest(b.wrapping_add(multiple(a)));
            row[last] = m.rest(r.wrapping_add(multiple(look_up(&m.triangles, a))));
        }
    }

    fn cz(rows: &mut [u8], n: usize, (c, t): (usize, usize), multiple: impl Multiple, m: &Modulo) {
        let (w, zc, zt, last) = (2 * n + 1, n + c, n + t, 2 * n);
        assert!(c < w && t < w && zc < w && zt < w && last < w);
        for row in rows.chunks_exact_mut(w) {
            let (a, x, b, z, r) = (row[c], row[t], row[zc], row[zt], row[last]);
            let gained = multiple(x);
            row[zc] = m.rest(b.wrapping_add(gained));
            row[zt] = m.rest(z.wrapping_add(multiple(a)));
            row[last] = m.rest(r.wrapping_add(m.product(a, gained)));
        }
    }

    /// The phase of the product is Σ h·(r − ½ Σ a·b), since the stabilizers commute and the product
    /// is Z on q, both because the tableau is valid. The outcome is minus this: half of the sum of
    /// h·(Σ a·b − 2·r), which is at most 64·30·(57,600 + 2·31).
    fn certain(rows: &[u8], n: usize, q: usize, m: &Modulo) -> u8 {
        let w = 2 * n + 1;
        let (destabilizers, stabilizers) = rows.split_at(n * w);
        let twice = 2 * u32::from(m.d);
        let mut sum = 0;
        for &(i, h) in changing(destabilizers, w, q, m.times(1)).as_slice() {
            let row = &stabilizers[usize::from(i) * w..][..w];
            sum += u32::from(h) * (own_dot(row, n) + twice - 2 * u32::from(row[2 * n]));
        }
        m.product(m.reduce(sum), m.d / 2 + 1)
    }

    fn sweep(rows: &mut [u8], n: usize, listed: &[(u8, u8)], pivot: &Pivot, m: &Modulo) {
        let (w, own) = (2 * n + 1, pivot_dot(pivot, n));
        let mut wide = [0; POWERS / 2];
        for (wide, &a) in wide.iter_mut().zip(pivot.power(1).as_flattened()) {
            *wide = u16::from(a);
        }
        for &(i, h) in listed {
            let (powers, phase) = rows[usize::from(i) * w..][..w].split_at_mut(2 * n);
            let mixed = dot(&powers[n..], &wide[..n]);
            gain_blocks(m.d, powers, pivot.power(h));
            let gained = u32::from(h) * mixed + power_phase(h, own, pivot);
            phase[0] = m.reduce(u32::from(phase[0]) + gained);
        }
    }

    fn phase_of_power(h: u8, n: usize, pivot: &Pivot, m: &Modulo) -> u8 {
        m.reduce(power_phase(h, pivot_dot(pivot, n), pivot))
    }
}

/// Σ a·b of the pivot.
fn pivot_dot(pivot: &Pivot, n: usize) -> u32 {
    own_dot(pivot.power(1).as_flattened(), n)
}

/// The phase of power h of a pivot whose Σ a·b is `own`, not reduced: at most 30·30 + 435·57,600.
fn power_phase(h: u8, own: u32, pivot: &Pivot) -> u32 {
    let h = u32::from(h);
    h * u32::from(pivot.phase) + h * (h - 1) / 2 * own
}
