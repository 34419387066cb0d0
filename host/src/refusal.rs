//! The listed refusals.

use std::error::Error;
use std::fmt;

/// Why a call refused: one variant for each listed number, with the place where it says one. Only two
/// numbers have two: 6, for an error of the book and for one of a tray, and 13, by a look and where a
/// run goes on.
///
/// A refusal leaves every lent buffer as it was. All tests come before the work, and the work itself
/// never refuses.
///
/// ```
/// let refusal = cagvost::test_tableau(&[9, 1]).unwrap_err();
/// assert_eq!(refusal, cagvost::Refusal::Dimension);
/// assert_eq!((refusal.number(), refusal.place()), (2, 0));
/// assert!(refusal.to_string().starts_with("refused 2 at 0: "));
/// ```
#[derive(Clone, Copy, Debug, PartialEq, Eq, Hash)]
#[non_exhaustive]
pub enum Refusal {
    /// 1: the book has fewer than 22 bytes, its first byte is not 81, or its fourth is not 3.
    BookHeader,
    /// 2: the dimension is not one of [`DIMENSIONS`](crate::book::DIMENSIONS). The tableau test reads
    /// it from the tableau's first byte.
    Dimension,
    /// 3: the number of qudits is not from 1 to 64. The tableau test reads it from the tableau's
    /// second byte.
    QuditCount,
    /// 4: a wrong entry of the book's table of contents. The writer is handed no table: by 4 it
    /// refuses a body that is not of whole entries or has too many.
    Contents {
        /// The first wrong entry, from 0 to 2 (operations, errors, choices), or 3 if only the book's
        /// end is wrong. The writer names the first such body, and never 3.
        entry: usize,
    },
    /// 5: an entry is not one of the nine operations, of which
    /// [`Operation::to_bytes`](crate::book::Operation::to_bytes) has the table. The last byte counts
    /// too: a multiplier's factor, or how often another gate is applied, where 0 means once and 1 is
    /// bad. So does the measurement that a correction names: it must come earlier in the book.
    Operation {
        /// The first bad operation.
        index: usize,
    },
    /// 6: an error of the book is placed too high or out of order, or its qudit or a power is too
    /// large.
    ErrorEntry {
        /// The first bad error.
        index: usize,
    },
    /// 6, by a tray run alone: the book is good, and a shot of the tray has an error that a book
    /// with these operations may not have.
    TrayShot {
        /// The first shot with a bad error, counted from 0.
        shot: usize,
    },
    /// 7: choices differ in number from measurements and resets, which have one each, or a choice is
    /// not below the dimension.
    Choice {
        /// The smaller of the two counts where they differ, that of choices and that of measurements
        /// and resets together; else the first bad choice.
        index: usize,
    },
    /// 8: a lent buffer is shorter than it must be. A tableau has to have
    /// [`tableau_len`](crate::tableau_len) bytes: in a run for the book's number of qudits, in the
    /// tableau test for its own.
    ShortBuffer,
    /// 9: the lent tableau is not a valid one, or in a run its first two bytes are not the book's
    /// dimension and number of qudits: it may be valid, and was made for another book.
    InvalidTableau,
    /// 11: the tray has more than 4,096 shots, the errors of one are not whole entries or are more
    /// than 2,048, or it is not as long as its table of contents says.
    Tray,
    /// 12, by the mirror alone: the book is good and has a measurement, a reset or a correction, which
    /// no operation undoes.
    Measurement {
        /// The first of these, by its index among all operations.
        index: usize,
    },
    /// 13, by a look alone: the tableau is good and does not have the qudit looked at.
    NoSuchQudit,
    /// 13, by going on alone: the book and the buffers are good, and the number to go on from is more
    /// than that of a finished run, the number of operations plus one.
    PastTheFinish,
}

impl Refusal {
    /// The listed number: from 1 to 9, or from 11 to 13.
    pub fn number(self) -> usize {
        match self {
            Refusal::BookHeader => 1,
            Refusal::Dimension => 2,
            Refusal::QuditCount => 3,
            Refusal::Contents { .. } => 4,
            Refusal::Operation { .. } => 5,
            Refusal::ErrorEntry { .. } | Refusal::TrayShot { .. } => 6,
            Refusal::Choice { .. } => 7,
            Refusal::ShortBuffer => 8,
            Refusal::InvalidTableau => 9,
            Refusal::Tray => 11,
            Refusal::Measurement { .. } => 12,
            Refusal::NoSuchQudit | Refusal::PastTheFinish => 13,
        }
    }

    /// The place that comes with the number; 0 where the list has none.
    pub fn place(self) -> usize {
        match self {
            Refusal::Contents { entry } => entry,
            Refusal::Operation { index }
            | Refusal::ErrorEntry { index }
            | Refusal::Choice { index }
            | Refusal::Measurement { index } => index,
            Refusal::TrayShot { shot } => shot,
            _ => 0,
        }
    }

    /// What the number means, in words.
    pub fn meaning(self) -> &'static str {
        match self {
            Refusal::BookHeader => {
                "not a shot book: it needs at least 22 bytes, the first of them 81 and the fourth 3"
            }
            Refusal::Dimension => {
                "the dimension (where a tableau is tested, its first byte) is not one of 3, 5, 7, 11, 13, 17, 19, 23, 29 and 31"
            }
            Refusal::QuditCount => {
                "the number of qudits (where a tableau is tested, its second byte) is not from 1 to 64"
            }
            Refusal::Contents { entry: 3 } => {
                "the book does not end where its table of contents says"
            }
            Refusal::Contents { .. } => {
                "this body (0 operations, 1 errors, 2 choices) is not of whole entries or has too many, or its entry of the table of contents has a wrong kind, zero byte or offset"
            }
            Refusal::Operation { .. } => {
                "this entry is not one of the nine operations on the book's qudits, its last byte is no factor or power that the operation may have, or it corrects by a measurement that does not come earlier in the book"
            }
            Refusal::ErrorEntry { .. } => {
                "this error is placed after the end or before the previous error, or its qudit or a power is too large"
            }
            Refusal::TrayShot { .. } => {
                "in this shot of the tray an error is placed after the end or before the previous error, or its qudit or a power is too large"
            }
            Refusal::Choice { .. } => {
                "choices differ in number from measurements and resets, which have one each, from here on, or this choice is not below the dimension"
            }
            Refusal::ShortBuffer => {
                "a buffer is shorter than the call needs (a tableau has two bytes, d and n, before its rows)"
            }
            Refusal::InvalidTableau => {
                "the tableau is not valid (a byte of its rows is not below the dimension, or two rows do not pair as they must), or in a run its first two bytes are not the book's dimension and number of qudits"
            }
            Refusal::Tray => {
                "not a tray: it has more than 4,096 shots, the errors of a shot are not whole entries or are more than 2,048, or it is not as long as its table of contents says"
            }
            Refusal::Measurement { .. } => {
                "this operation is the book's first measurement, reset or correction, and a circuit that has one of these has no mirror"
            }
            Refusal::NoSuchQudit => {
                "the tableau has no qudit of this number to look at: qudits are counted from 0"
            }
            Refusal::PastTheFinish => {
                "there is nothing to go on from: this number is more than that of a finished run, which is the number of operations plus one"
            }
        }
    }

    /// The refusal that the library names. By 6 it names the book's error here; a tray run tells
    /// its shot apart. 13 has no meaning here: the two calls that have it tell it themselves.
    ///
    /// Another number or place than the listed ones is proved not to come, so it can only mean that
    /// this package was linked with a library of another version: no result of it is to be trusted.
    pub(crate) fn listed(number: usize, place: usize) -> Refusal {
        match (number, place) {
            (1, 0) => Refusal::BookHeader,
            (2, 0) => Refusal::Dimension,
            (3, 0) => Refusal::QuditCount,
            (4, entry @ 0..=3) => Refusal::Contents { entry },
            (5, index) => Refusal::Operation { index },
            (6, index) => Refusal::ErrorEntry { index },
            (7, index) => Refusal::Choice { index },
            (8, 0) => Refusal::ShortBuffer,
            (9, 0) => Refusal::InvalidTableau,
            (11, 0) => Refusal::Tray,
            (12, index) => Refusal::Measurement { index },
            _ => panic!("the linked library is of another version: it refused {number} at {place}"),
        }
    }
}

impl fmt::Display for Refusal {
    fn fmt(&self, f: &mut fmt::Formatter<'_>) -> fmt::Result {
        let (number, place) = (self.number(), self.place());
        write!(f, "refused {number} at {place}: {}", self.meaning())
    }
}

impl Error for Refusal {}

#[cfg(test)]
mod tests {
    use super::*;
    use crate::book::DIMENSIONS;

    /// A dimension that joins the list has to join the words.
    #[test]
    fn the_words_for_2_name_each_dimension() {
        let words = Refusal::Dimension.meaning();
        let numbers = words.split(|c: char| !c.is_ascii_digit());
        let named = numbers.filter_map(|number| number.parse::<u8>().ok());
        assert_eq!(Vec::from_iter(named), DIMENSIONS);
    }

    #[test]
    fn each_listed_number_keeps_its_number_and_place() {
        for number in (1..=9).chain([11, 12]) {
            let place = if matches!(number, 4..=7 | 12) { 2 } else { 0 };
            keeps(Refusal::listed(number, place), number, place);
        }
        keeps(Refusal::TrayShot { shot: 4095 }, 6, 4095);
        keeps(Refusal::listed(12, 4095), 12, 4095);
        keeps(Refusal::NoSuchQudit, 13, 0);
        keeps(Refusal::PastTheFinish, 13, 0);
    }

    fn keeps(refusal: Refusal, number: usize, place: usize) {
        assert_eq!((refusal.number(), refusal.place()), (number, place));
        let text = refusal.to_string();
        assert!(text.starts_with(&format!("refused {number} at {place}: ")));
    }

    /// The words for 6 say whether the book or the tray is meant.
    #[test]
    fn the_words_for_6_tell_book_and_tray_apart() {
        let [book, tray] = [
            Refusal::ErrorEntry { index: 1 },
            Refusal::TrayShot { shot: 1 },
        ];
        assert_ne!(book, tray);
        assert!(!book.to_string().contains("tray"));
        assert!(tray.to_string().contains("shot of the tray"));
    }

    /// The words for 13 say whether a qudit or a number is meant.
    #[test]
    fn the_words_for_13_tell_a_look_and_going_on_apart() {
        let [look, going_on] = [Refusal::NoSuchQudit, Refusal::PastTheFinish].map(Refusal::meaning);
        assert!(
            look.contains("no qudit of this number to look at") && !look.contains("operations")
        );
        assert!(going_on.contains("number of operations plus one") && !going_on.contains("qudit"));
    }

    /// A measurement is counted among all operations, and not among the measurements.
    #[test]
    fn the_words_for_12_speak_of_an_operation() {
        let words = Refusal::Measurement { index: 1 }.meaning();
        assert!(words.starts_with("this operation is"));
        assert!(words.contains("no mirror"));
    }

    /// Resets and corrections are named where they count.
    #[test]
    fn the_words_name_resets_and_corrections() {
        let says = |refusal: Refusal, words: &str| refusal.meaning().contains(words);
        let operation = Refusal::Operation { index: 1 };
        assert!(says(operation, "nine operations"));
        assert!(says(
            operation,
            "corrects by a measurement that does not come earlier"
        ));
        assert!(says(
            Refusal::Choice { index: 1 },
            "measurements and resets"
        ));
        assert!(says(
            Refusal::Measurement { index: 1 },
            "measurement, reset or correction"
        ));
    }

    /// A good tableau that is fed to another book is refused by 9: the words say so, and where the
    /// numbers stand that 2, 3 and 8 may be about.
    #[test]
    fn the_words_say_where_a_tableau_names_itself() {
        let says = |refusal: Refusal, words: &str| refusal.to_string().contains(words);
        assert!(says(Refusal::Dimension, "its first byte"));
        assert!(says(Refusal::QuditCount, "its second byte"));
        assert!(says(Refusal::ShortBuffer, "two bytes, d and n, before"));
        assert!(says(Refusal::InvalidTableau, "not the book's"));
    }

    #[test]
    #[should_panic(expected = "another version")]
    fn an_unlisted_number_is_no_refusal() {
        Refusal::listed(10, 0);
    }

    #[test]
    #[should_panic(expected = "another version")]
    fn a_place_where_the_list_has_none_is_no_refusal() {
        Refusal::listed(8, 1);
    }

    #[test]
    #[should_panic(expected = "another version")]
    fn a_tray_has_no_place() {
        Refusal::listed(11, 1);
    }

    /// It means one thing by a look and another where a run goes on.
    #[test]
    #[should_panic(expected = "another version: it refused 13 at 0")]
    fn the_number_13_alone_means_nothing() {
        Refusal::listed(13, 0);
    }
}
