//! What a call that is not accepted answers.

use core::fmt;
use core::hash::{Hash, Hasher};

use crate::sys;

/// What a call answers that may be refused.
pub type Result<T, E = Refusal> = core::result::Result<T, E>;

/// Why a call was refused: the number of the refusal, and the place where it was met.
///
/// The place is a function, a row, a string, or how many entries or values came before; it is 0 where the call has no such
/// place. Shown, by `{}` or by `{:?}`, a refusal is a sentence that says which; two are equal if number and place are.
///
/// ```
/// use bisquepond::{Layout, Reason, function};
///
/// // Two functions are asked for, and the bytes hold one header and a half.
/// let refusal = function::read_functions(&[0; 24], Layout::Legacy16, 0, 2).unwrap_err();
/// assert_eq!((refusal.reason(), refusal.place), (Reason::Cut, 1));
/// assert_eq!(
///     refusal.to_string(),
///     "refused 3 at 1: the header or the large header of function 1 runs past the end of the file"
/// );
/// // What `main` shows, if it answers a `bisquepond::Result`.
/// assert_eq!(format!("{refusal:?}"), refusal.to_string());
/// let error: Box<dyn std::error::Error> = refusal.into();
/// assert!(error.downcast_ref::<bisquepond::Refusal>().is_some());
/// ```
#[derive(Clone, Copy)]
pub struct Refusal {
    /// The number that include/hbc.h has for it; from 100 on it is this crate's own.
    pub number: u32,
    /// The function, the row, the string, or how many entries or values came before; else 0.
    pub place: u32,
    of: Place,
}

/// What the place of a call counts.
#[derive(Clone, Copy)]
pub(crate) enum Place {
    Nothing,
    Function,
    /// A row that is to be written.
    Row,
    String,
    /// A string that names its overflow entry.
    HermesString,
    /// Nothing: a row's text is asked for.
    Text,
    /// Nothing: one of the functions whose rows are lent is asked about.
    OneFunction,
    Entries,
    Values,
    Bytes,
}

/// Each reason with its number and the words that say it where the call has no better ones.
macro_rules! reasons {
    ($($(#[$doc:meta])* $name:ident = $number:literal, $words:literal;)*) => {
        /// Why a call was refused, by name: what the numbers of include/hbc.h mean. There, the name of `TooLong` is
        /// `HBC_REFUSED_TOO_LONG`, and so on.
        ///
        /// ```
        /// use bisquepond::{Reason, io::ByteReader};
        ///
        /// let refusal = ByteReader::new(b"ab").read_cstring().unwrap_err();
        /// match refusal.reason() {
        ///     Reason::NoZero => assert_eq!(refusal.number, 9),
        ///     other => panic!("{other:?}"),
        /// }
        /// assert_eq!(Reason::of(9), Reason::NoZero);
        /// assert_eq!(Reason::NoZero.to_string(), "a zero-ended string has no zero");
        /// ```
        #[derive(Clone, Copy, PartialEq, Eq, Hash, Debug)]
        #[non_exhaustive]
        pub enum Reason {
            $($(#[$doc])* $name,)*
            /// A number that this version has no name for.
            Unnamed,
        }

        impl Reason {
            /// Every reason that has a name.
            ///
            /// ```
            /// use bisquepond::Reason;
            ///
            /// assert!(Reason::ALL.iter().all(|reason| Reason::of(reason.number()) == *reason));
            /// ```
            pub const ALL: &[Reason] = &[$(Reason::$name),*];

            /// What that number means.
            ///
            /// ```
            /// use bisquepond::Reason;
            ///
            /// assert_eq!((Reason::of(4), Reason::of(99)), (Reason::TooFewRows, Reason::Unnamed));
            /// ```
            pub const fn of(number: u32) -> Reason {
                match number {
                    $($number => Reason::$name,)*
                    _ => Reason::Unnamed,
                }
            }

            /// Its number; 0 of [`Unnamed`](Reason::Unnamed).
            ///
            /// ```
            /// assert_eq!(bisquepond::Reason::Cut.number(), 3);
            /// ```
            pub const fn number(self) -> u32 {
                match self {
                    $(Reason::$name => $number,)*
                    Reason::Unnamed => 0,
                }
            }
        }

        impl fmt::Display for Reason {
            fn fmt(&self, f: &mut fmt::Formatter<'_>) -> fmt::Result {
                f.write_str(match self {
                    $(Reason::$name => $words,)*
                    Reason::Unnamed => "a refusal that this version has no words for",
                })
            }
        }
    };
}

reasons! {
    /// More than 2^30 bytes are lent.
    TooLong = 1, "more than 2^30 bytes were lent";
    /// The cursor or a start stands past the end, or a seek or align goes past it.
    PastEnd = 2, "a start, seek or align goes past the end of the bytes";
    /// A read needs bytes past the end.
    Cut = 3, "a read needs bytes past the end";
    /// A lent table has too few rows, or a lent buffer too few bytes.
    TooFewRows = 4, "fewer rows were lent than the answer has";
    /// The tenth byte of a LEB128 number has bit 7 set.
    Leb128TooLong = 5, "the tenth byte of a LEB128 number has bit 7 set";
    /// An alignment of 0.
    ZeroAlignment = 6, "an alignment of 0";
    /// A series begins at or past the end, and is not empty.
    SeriesPastEnd = 7, "the series begins at or past the end of its buffer";
    /// A string needs an overflow pair, and none is left; in Hermes mode, none has the number that the string asks for.
    NoOverflowPair = 8, "a string needs an overflow entry that is not there";
    /// A zero-ended string has no zero.
    NoZero = 9, "a zero-ended string has no zero";
    /// A span is reversed, or goes past the end.
    BadSpan = 10, "the span is reversed or goes past the end of the file";
    /// Fewer rows are lent to be read than the count says, or than the number of the row that is asked for.
    TooFewToRead = 11, "fewer rows were lent to be read than the count says";
    /// A layout that there is not.
    NoSuchLayout = 12, "there is no such layout: it is legacy16 (0) or modern12 (1)";
    /// A row to be written says what no header of its layout can: by its layout, its number, its zeros, or a number above
    /// 255 where both kinds of header have a byte.
    BadRow = 13, "a row to be written has a wrong layout or number, more than 255 in a field of one byte, or in legacy no zeros behind its fields";
    /// A modern row goes to a large header, and its `info_offset` is not the place behind that, rounded up to a multiple of
    /// 4: [`renew_info_offsets`](crate::function::renew_info_offsets) sets it.
    BadInfoOffset = 14, "a modern row that needs a large header has not the rounded end of it as info_offset";
    /// The place for large headers is before the table's end.
    LargeBeforeEnd = 15, "the place for large headers is before the end of the table";
    /// A total falls below 0 by what a row that is read again has in it, or is above 2^63 - 1: the totals lent are not those
    /// of the rows lent. [`Totals::of`](crate::function::Totals::of) adds them up anew.
    BadTotals = 16, "the totals that were lent are not those of the rows: one falls below 0, or is above 2^63 - 1";
    /// The file has another length than the one that the table was read from. This crate's own.
    AnotherLength = 100, "the file has another length than the one that the table was read from";
}

impl Refusal {
    pub(crate) const fn of(reason: Reason, place: u32, of: Place) -> Refusal {
        let number = reason.number();
        Refusal { number, place, of }
    }

    /// The low half of an accepted answer; else the refusal.
    pub(crate) const fn check(code: u64, of: Place) -> Result<u32> {
        match sys::number(code) {
            0 => Ok(sys::place(code)),
            number => Err(Refusal {
                number,
                place: sys::place(code),
                of,
            }),
        }
    }

    /// The same of a call that makes several reads: its place counts what that of one of them does.
    pub(crate) const fn counting(self, of: Place) -> Refusal {
        Refusal { of, ..self }
    }

    /// Its name.
    ///
    /// ```
    /// use bisquepond::{Reason, io::ByteReader};
    ///
    /// let refusal = ByteReader::new(&[]).read_u8().unwrap_err();
    /// assert_eq!(refusal.reason(), Reason::Cut);
    /// ```
    pub const fn reason(&self) -> Reason {
        Reason::of(self.number)
    }
}

impl PartialEq for Refusal {
    fn eq(&self, other: &Refusal) -> bool {
        (self.number, self.place) == (other.number, other.place)
    }
}

impl Eq for Refusal {}

impl Hash for Refusal {
    fn hash<H: Hasher>(&self, state: &mut H) {
        (self.number, self.place).hash(state);
    }
}

impl fmt::Display for Refusal {
    fn fmt(&self, f: &mut fmt::Formatter<'_>) -> fmt::Result {
        let Refusal { number, place, of } = *self;
        write!(f, "refused {number} at {place}: ")?;
        match (self.reason(), of) {
            (Reason::PastEnd, Place::Function) if place == 0 => write!(
                f,
                "the table's start, or the place of function 0's large header, is past the end of the file"
            ),
            (Reason::PastEnd, Place::Function) => write!(
                f,
                "the place of function {place}'s large header is past the end of the file"
            ),
            (Reason::Cut, Place::Function) => write!(
                f,
                "the header or the large header of function {place} runs past the end of the file"
            ),
            (Reason::BadTotals, Place::Function) => write!(
                f,
                "the totals that were lent are not those of the rows: with function {place} one falls below 0, or is above 2^63 - 1"
            ),
            (Reason::PastEnd, Place::Row) => {
                write!(f, "the table's start is past the end of the buffer")
            }
            (Reason::TooFewRows, Place::Row) => write!(
                f,
                "the buffer ends before the headers and large headers to be written do"
            ),
            (Reason::BadRow, Place::Row) => write!(
                f,
                "row {place} has another layout than the table, another id than {place}, more than 255 in a field of one byte, or in legacy no zeros behind its fields"
            ),
            (Reason::BadInfoOffset, Place::Row) => write!(
                f,
                "row {place} needs a large header, and its info_offset is not the end of that, rounded up to a multiple of 4"
            ),
            (Reason::Cut, Place::Entries) => write!(f, "the bytes end after {place} whole entries"),
            (Reason::Cut, Place::Values) => write!(f, "the bytes end after {place} whole values"),
            (Reason::NoOverflowPair, Place::String) => {
                write!(f, "string {place} needs an overflow entry and none is left")
            }
            (Reason::NoOverflowPair, Place::HermesString) => write!(
                f,
                "string {place} names an overflow entry whose number is past those lent"
            ),
            (Reason::TooLong, Place::Text) => {
                write!(f, "the storage has more than 2^30 bytes")
            }
            (Reason::TooFewToRead, Place::Text | Place::OneFunction) => {
                write!(f, "there is no row of the number that was asked for")
            }
            (Reason::TooFewRows, Place::Text) => {
                write!(f, "the text has more bytes than the buffer lent for it")
            }
            (Reason::AnotherLength, Place::Bytes) => write!(
                f,
                "the table was read from a file of {place} bytes, and this one has another length: read it again"
            ),
            (reason, _) => write!(f, "{reason}"),
        }
    }
}

/// The sentence itself: it is what `main` shows of an error.
impl fmt::Debug for Refusal {
    fn fmt(&self, f: &mut fmt::Formatter<'_>) -> fmt::Result {
        fmt::Display::fmt(self, f)
    }
}

impl core::error::Error for Refusal {}

#[cfg(test)]
mod tests {
    extern crate std;
    use super::*;
    use std::collections::HashSet;
    use std::string::{String, ToString};
    use std::vec::Vec;

    #[test]
    fn every_number_has_a_sentence_of_its_own() {
        let said = |number: u64| {
            Refusal::check(number << 32, Place::Nothing)
                .unwrap_err()
                .to_string()
        };
        let sentence = |number| said(number).split_once(": ").unwrap().1.to_string();
        let mut all: Vec<String> = (1..=17).map(sentence).collect();
        assert_eq!(all[11], Reason::NoSuchLayout.to_string());
        assert_eq!(all[15], Reason::BadTotals.to_string());
        assert_eq!(all[16], "a refusal that this version has no words for");
        all.sort();
        all.dedup();
        assert_eq!(all.len(), 17);
    }

    /// Which function was met when a total went wrong.
    #[test]
    fn the_function_of_wrong_totals_is_named() {
        let said = |of| Refusal::of(Reason::BadTotals, 7, of).to_string();
        let (named, plain) = (said(Place::Function), said(Place::Nothing));
        assert!(named.starts_with("refused 16 at 7: ") && named.contains("function 7 "));
        assert!(!plain.contains("function"));
    }

    /// A writer's refusals speak of its rows and its buffer, a reader's of functions and a file.
    #[test]
    fn a_row_that_is_written_is_named() {
        let said = |reason, of| Refusal::of(reason, 7, of).to_string();
        for reason in [Reason::BadRow, Reason::BadInfoOffset] {
            assert!(said(reason, Place::Row).contains(": row 7 "), "{reason:?}");
        }
        for reason in [Reason::PastEnd, Reason::TooFewRows] {
            let (row, other) = (said(reason, Place::Row), said(reason, Place::Function));
            let told = (row.contains("buffer"), other.contains("buffer"));
            assert_eq!(told, (true, false), "{reason:?}");
        }
    }

    /// In order none is left; in Hermes mode the number is past those lent.
    #[test]
    fn a_missing_pair_is_told_by_mode() {
        let said = |of| Refusal::of(Reason::NoOverflowPair, 7, of).to_string();
        let [in_order, hermes] = [Place::String, Place::HermesString].map(said);
        assert!(in_order.contains(": string 7 ") && hermes.contains(": string 7 "));
        assert!(in_order.contains("none is left") && hermes.contains("past those lent"));
    }

    /// A text has no place, and its refusals speak of storage, row and buffer.
    #[test]
    fn a_refused_text_is_told() {
        let said = |reason, of| Refusal::of(reason, 0, of).to_string();
        for (reason, word) in [
            (Reason::TooLong, "storage"),
            (Reason::TooFewToRead, "no row"),
            (Reason::TooFewRows, "buffer"),
        ] {
            let (text, other) = (said(reason, Place::Text), said(reason, Place::Nothing));
            let told = (text.contains(word), other.contains(word));
            assert_eq!(told, (true, false), "{reason:?}");
        }
    }

    /// One row is asked for, and no count says anything.
    #[test]
    fn a_function_that_is_not_there_is_told() {
        let said = |of| Refusal::of(Reason::TooFewToRead, 0, of).to_string();
        let (one, all) = (said(Place::OneFunction), said(Place::Nothing));
        assert!(one.contains("no row") && !one.contains("count"));
        assert!(all.contains("count") && !all.contains("no row"));
    }

    #[test]
    fn accepted_is_the_low_half() {
        assert_eq!(Refusal::check(7, Place::Function), Ok(7));
        assert_eq!(
            Refusal::check(u64::from(u32::MAX), Place::Values),
            Ok(u32::MAX)
        );
    }

    /// What the place counts makes no difference: it is the call's, and not the refusal's.
    #[test]
    fn equal_by_number_and_place() {
        let one = Refusal::of(Reason::Cut, 1, Place::Function);
        let same = Refusal::of(Reason::Cut, 1, Place::Entries);
        assert_eq!(one, same);
        assert_ne!(one, Refusal::of(Reason::Cut, 2, Place::Function));
        assert_ne!(one, Refusal::of(Reason::PastEnd, 1, Place::Function));
        assert_eq!(HashSet::from([one, same]).len(), 1);
    }
}
