//! The calls into the proved static library: the only unsafe code of this package.
//!
//! Why each call is sound, whatever the caller hands in:
//! - pointer and length come from one slice, so they name memory that is lent for the whole call;
//! - a buffer that the library writes comes from `&mut`, so no other buffer overlaps it;
//! - the functions are proved to take every input: no number, book or tableau, however damaged,
//!   makes them leave the slices, and they end;
//! - they keep no pointer and no state, so calls from several threads do not meet.
//!
//! The declarations repeat the library's source (`crates/cagvost/src/lib.rt`), and
//! tests/documents/exports.rs holds them to it.

/// What an exported function returns: 0 and a count, or a refusal's number and its place.
#[repr(C)]
#[derive(Clone, Copy, Debug, PartialEq, Eq)]
pub(crate) struct Answer {
    pub(crate) number: usize,
    pub(crate) place: usize,
}

/// What a direct run returns, at once or where it halts: an answer and the number of its next
/// operation, which is 0 with any refusal.
#[repr(C)]
#[derive(Clone, Copy, Debug, PartialEq, Eq)]
pub(crate) struct DirectAnswer {
    pub(crate) number: usize,
    pub(crate) place: usize,
    pub(crate) next: usize,
}

/// What a look returns: 0, then 1 and 0 for free, or 0 and the outcome for certain; or a refusal's
/// number, 0 and 0.
#[repr(C)]
#[derive(Clone, Copy, Debug, PartialEq, Eq)]
pub(crate) struct LookAnswer {
    pub(crate) number: usize,
    pub(crate) free: usize,
    pub(crate) outcome: usize,
}

/// What the frame run returns: an answer and its verdict, which is 0 with any refusal.
#[repr(C)]
#[derive(Clone, Copy, Debug, PartialEq, Eq)]
pub(crate) struct FrameAnswer {
    pub(crate) number: usize,
    pub(crate) place: usize,
    pub(crate) verdict: usize,
}

/// What the tray run returns: 0 and how many shots were clean and shifted, or a refusal's number and
/// its place and 0.
#[repr(C)]
#[derive(Clone, Copy, Debug, PartialEq, Eq)]
pub(crate) struct TrayAnswer {
    pub(crate) number: usize,
    pub(crate) place: usize,
    pub(crate) shifted: usize,
}

unsafe extern "C" {
    fn cagvost_layer(t: *mut u8, t_len: usize, d: usize, n: usize) -> Answer;
    fn cagvost_test(t: *const u8, t_len: usize) -> Answer;
    fn cagvost_look(t: *const u8, t_len: usize, qudit: usize) -> LookAnswer;
    fn cagvost_direct_run(
        book: *const u8,
        book_len: usize,
        t: *mut u8,
        t_len: usize,
        results: *mut u8,
        results_len: usize,
    ) -> DirectAnswer;
    fn cagvost_go_on(
        book: *const u8,
        book_len: usize,
        t: *mut u8,
        t_len: usize,
        results: *mut u8,
        results_len: usize,
        from: usize,
        count: usize,
    ) -> DirectAnswer;
    fn cagvost_frame_run(
        book: *const u8,
        book_len: usize,
        t: *mut u8,
        t_len: usize,
        results: *mut u8,
        results_len: usize,
        shifts: *mut u8,
        shifts_len: usize,
        frame: *mut u8,
        frame_len: usize,
    ) -> FrameAnswer;
    fn cagvost_write(
        out: *mut u8,
        out_len: usize,
        ops: *const u8,
        ops_len: usize,
        errors: *const u8,
        errors_len: usize,
        choices: *const u8,
        choices_len: usize,
        d: usize,
        n: usize,
    ) -> Answer;
    fn cagvost_tray(
        book: *const u8,
        book_len: usize,
        tray: *const u8,
        tray_len: usize,
        t: *const u8,
        t_len: usize,
        out: *mut u8,
        out_len: usize,
    ) -> TrayAnswer;
    fn cagvost_mirror(book: *const u8, book_len: usize, out: *mut u8, out_len: usize) -> Answer;
}

pub(crate) fn layer(tableau: &mut [u8], d: usize, n: usize) -> Answer {
    // SAFETY: see the head of this module.
    unsafe { cagvost_layer(tableau.as_mut_ptr(), tableau.len(), d, n) }
}

pub(crate) fn test(tableau: &[u8]) -> Answer {
    // SAFETY: see the head of this module; the library does not write this buffer.
    unsafe { cagvost_test(tableau.as_ptr(), tableau.len()) }
}

pub(crate) fn look(tableau: &[u8], qudit: usize) -> LookAnswer {
    // SAFETY: see the head of this module; the library does not write this buffer.
    unsafe { cagvost_look(tableau.as_ptr(), tableau.len(), qudit) }
}

pub(crate) fn direct_run(book: &[u8], tableau: &mut [u8], results: &mut [u8]) -> DirectAnswer {
    // SAFETY: see the head of this module; the library does not write the book.
    unsafe {
        cagvost_direct_run(
            book.as_ptr(),
            book.len(),
            tableau.as_mut_ptr(),
            tableau.len(),
            results.as_mut_ptr(),
            results.len(),
        )
    }
}

pub(crate) fn go_on(
    book: &[u8],
    tableau: &mut [u8],
    results: &mut [u8],
    from: usize,
    count: usize,
) -> DirectAnswer {
    // SAFETY: see the head of this module; the library does not write the book.
    unsafe {
        cagvost_go_on(
            book.as_ptr(),
            book.len(),
            tableau.as_mut_ptr(),
            tableau.len(),
            results.as_mut_ptr(),
            results.len(),
            from,
            count,
        )
    }
}

pub(crate) fn frame_run(
    book: &[u8],
    tableau: &mut [u8],
    results: &mut [u8],
    shifts: &mut [u8],
    frame: &mut [u8],
) -> FrameAnswer {
    // SAFETY: see the head of this module; the library does not write the book.
    unsafe {
        cagvost_frame_run(
            book.as_ptr(),
            book.len(),
            tableau.as_mut_ptr(),
            tableau.len(),
            results.as_mut_ptr(),
            results.len(),
            shifts.as_mut_ptr(),
            shifts.len(),
            frame.as_mut_ptr(),
            frame.len(),
        )
    }
}

pub(crate) fn write(
    out: &mut [u8],
    operations: &[u8],
    errors: &[u8],
    choices: &[u8],
    d: usize,
    n: usize,
) -> Answer {
    // SAFETY: see the head of this module; the library does not write the bodies.
    unsafe {
        cagvost_write(
            out.as_mut_ptr(),
            out.len(),
            operations.as_ptr(),
            operations.len(),
            errors.as_ptr(),
            errors.len(),
            choices.as_ptr(),
            choices.len(),
            d,
            n,
        )
    }
}

pub(crate) fn tray(book: &[u8], tray: &[u8], tableau: &[u8], out: &mut [u8]) -> TrayAnswer {
    // SAFETY: see the head of this module; the library writes the last buffer alone.
    unsafe {
        cagvost_tray(
            book.as_ptr(),
            book.len(),
            tray.as_ptr(),
            tray.len(),
            tableau.as_ptr(),
            tableau.len(),
            out.as_mut_ptr(),
            out.len(),
        )
    }
}

pub(crate) fn mirror(book: &[u8], out: &mut [u8]) -> Answer {
    // SAFETY: see the head of this module; the library does not write the book.
    unsafe { cagvost_mirror(book.as_ptr(), book.len(), out.as_mut_ptr(), out.len()) }
}

/// The numbers that the safe functions drop: a success's second, a refusal's third.
#[cfg(test)]
mod tests {
    use super::*;
    use crate::book::{Book, Operation};

    const DONE: Answer = Answer {
        number: 0,
        place: 0,
    };

    #[test]
    fn layer_and_test_succeed_with_0_and_0() {
        let mut tableau = [0; crate::tableau_len(64)];
        assert_eq!(layer(&mut tableau, 31, 64), DONE);
        assert_eq!(test(&tableau), DONE);
    }

    fn numbers(answer: DirectAnswer) -> (usize, usize, usize) {
        (answer.number, answer.place, answer.next)
    }

    #[test]
    fn a_run_succeeds_with_0_and_its_measurements() {
        let mut tableau = [0; crate::tableau_len(1)];
        layer(&mut tableau, 3, 1);
        let mut book = Book::new(3, 1);
        let mut run = |book: &Book, room: &mut [u8]| {
            numbers(direct_run(&book.to_bytes(), &mut tableau, room))
        };
        assert_eq!(run(&book, &mut []), (0, 0, 1));
        book.operation(Operation::Fourier { q: 0, times: 1 });
        assert_eq!(run(&book, &mut []), (0, 0, 2));
        book.measure(0, 1).measure(0, 2).measure(0, 0);
        assert_eq!(run(&book, &mut [0; 6]), (0, 3, 5));
        assert_eq!(run(&book, &mut [0; 5]), (8, 0, 0));
        // Neither of these is a measurement, so that there is room for all results.
        book.reset(0, 2).correct(0, 1);
        assert_eq!(run(&book, &mut [0; 6]), (0, 3, 7));
        book.choice(0);
        assert_eq!(run(&book, &mut [0; 6]), (7, 4, 0));
    }

    #[test]
    fn going_on_ends_with_the_next_number_and_a_refusal_with_0() {
        let mut tableau = [0; crate::tableau_len(1)];
        layer(&mut tableau, 3, 1);
        let book = Book::new(3, 1).measure(0, 1).reset(0, 2).to_bytes();
        let mut run = |book: &[u8], room: &mut [u8], from, count| {
            numbers(go_on(book, &mut tableau, room, from, count))
        };
        assert_eq!(run(&book, &mut [7; 2], 0, 0), (0, 1, 0));
        assert_eq!(run(&book, &mut [7; 2], 0, 1), (0, 1, 1));
        assert_eq!(run(&book, &mut [7; 2], 1, 1), (0, 1, 2));
        assert_eq!(run(&book, &mut [7; 2], 1, 2), (0, 1, 3));
        assert_eq!(run(&book, &mut [7; 2], 3, 1), (0, 1, 3));
        assert_eq!(run(&book, &mut [7; 2], 4, 1), (13, 0, 0));
        assert_eq!(run(&book, &mut [7; 1], 1, 1), (8, 0, 0));
        assert_eq!(run(&book[1..], &mut [7; 2], 1, 1), (1, 0, 0));
    }

    #[test]
    fn a_look_tells_two_numbers_and_a_refusal_has_0_and_0() {
        let numbers = |a: LookAnswer| (a.number, a.free, a.outcome);
        let mut tableau = [0; crate::tableau_len(1)];
        layer(&mut tableau, 3, 1);
        assert_eq!(numbers(look(&tableau, 0)), (0, 0, 0));
        assert_eq!(numbers(look(&tableau, 1)), (13, 0, 0));
        assert_eq!(numbers(look(&tableau[1..], 0)), (2, 0, 0));
        let mut book = Book::new(3, 1);
        direct_run(&book.error(0, 2, 0).to_bytes(), &mut tableau, &mut []);
        assert_eq!(numbers(look(&tableau, 0)), (0, 0, 2));
        book.operation(Operation::Fourier { q: 0, times: 1 });
        direct_run(&book.to_bytes(), &mut tableau, &mut []);
        assert_eq!(numbers(look(&tableau, 0)), (0, 1, 0));
    }

    #[test]
    fn a_frame_run_ends_with_its_verdict_and_a_refusal_with_0() {
        let numbers = |a: FrameAnswer| (a.number, a.place, a.verdict);
        let mut book = Book::new(3, 1);
        book.measure(0, 1);
        let run = |book: &Book, results: &mut [u8]| {
            let mut tableau = [0; crate::tableau_len(1)];
            layer(&mut tableau, 3, 1);
            let (mut shifts, mut frame) = ([7; 2], [7; 2]);
            let book = book.to_bytes();
            numbers(frame_run(
                &book,
                &mut tableau,
                results,
                &mut shifts,
                &mut frame,
            ))
        };
        assert_eq!(run(&book, &mut [0; 2]), (0, 1, 0));
        book.error(0, 2, 0);
        assert_eq!(run(&book, &mut [0; 2]), (0, 1, 1));
        assert_eq!(run(&book, &mut []), (8, 0, 0));
        book.choice(0);
        assert_eq!(run(&book, &mut [0; 2]), (7, 1, 0));
    }

    #[test]
    fn a_tray_run_ends_with_both_counts_and_a_refusal_with_0() {
        let numbers = |a: TrayAnswer| (a.number, a.place, a.shifted);
        let mut tableau = [0; crate::tableau_len(1)];
        layer(&mut tableau, 3, 1);
        let book = Book::new(3, 1).to_bytes();
        // No error, Z, X, X and X^2: two clean shots and three shifted ones.
        let body = |p, s| [0, 0, 0, p, s];
        let mut shots = crate::Tray::new();
        shots.body(&[]).body(&body(0, 1)).body(&body(1, 0));
        let shots = shots.body(&body(1, 0)).body(&body(2, 0)).to_bytes();
        let run = |book: &[u8], shots: &[u8], tableau: &[u8], out: &mut [u8]| {
            numbers(tray(book, shots, tableau, out))
        };
        assert_eq!(run(&book, &shots, &tableau, &mut [7; 5]), (0, 2, 3));
        assert_eq!(run(&book[1..], &shots, &tableau, &mut [7; 5]), (1, 0, 0));
        assert_eq!(run(&book, &shots[1..], &tableau, &mut [7; 5]), (11, 0, 0));
        let mut bad = shots.clone();
        *bad.last_mut().expect("the last power of Z") = 3;
        assert_eq!(run(&book, &bad, &tableau, &mut [7; 5]), (6, 4, 0));
        assert_eq!(run(&book, &shots, &tableau, &mut [7; 4]), (8, 0, 0));
        tableau[0] = 5;
        assert_eq!(run(&book, &shots, &tableau, &mut [7; 5]), (9, 0, 0));
    }
}
