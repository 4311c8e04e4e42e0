//! Rows in memory of their own, and the calls that answer a row's words.

use alloc::vec;
use alloc::vec::Vec;
use core::fmt;
use core::marker::PhantomData;
use core::ops::Deref;
use core::slice;

use crate::boundary::{Row, rows_of, rows_of_mut};

/// Rows in memory of their own. It is a slice of rows, which can be read and not written: `table[0]`, `table.iter()`,
/// `for row in &table`, `table.len()`.
///
/// ```
/// use bisquepond::{Layout, function};
///
/// let file = [0, 1, 0, 0x44, 0x0A, 0xC0, 0, 0x29, 6, 7, 0x48, 4];
/// let table = function::read_functions(&file, Layout::Modern12, 0, 1)?;
/// assert_eq!(table.iter().map(|row| row.size()).sum::<u32>(), 10);
/// # Ok::<(), bisquepond::Refusal>(())
/// ```
///
/// Rows that were read stay what was read:
///
/// ```compile_fail,E0594
/// # use bisquepond::table::{StringRow, Strings};
/// # let strings = Strings { kinds: &[], small: &[0], overflow: &[], storage: b"a" };
/// let mut rows = strings.decode(1).unwrap();
/// rows[0] = StringRow::default();
/// ```
#[derive(Clone, PartialEq, Eq)]
pub struct Table<R> {
    words: Vec<u32>,
    rows: PhantomData<R>,
}

impl<R: Row> Table<R> {
    /// So many rows of zeros. The memory is not touched before a row is written.
    pub(crate) fn zeros(rows: usize) -> Self {
        Table {
            words: vec![0; rows * R::WORDS],
            rows: PhantomData,
        }
    }

    /// The rows, to be lent to a call that fills them.
    pub(crate) fn lent(&mut self) -> &mut [R] {
        rows_of_mut(&mut self.words)
    }

    /// Keeps the first `rows` rows, and memory for no more.
    pub(crate) fn keep(&mut self, rows: usize) {
        self.words.truncate(rows * R::WORDS);
        self.words.shrink_to_fit();
    }

    /// All rows as the words that they are in C.
    ///
    /// ```
    /// use bisquepond::{Layout, function};
    ///
    /// let file = [0, 1, 0, 4, 0x0A, 0x80, 1, 0, 0, 0, 0, 0x0A, 1, 2, 3, 4];
    /// let table = function::read_functions(&file, Layout::Legacy16, 0, 1)?;
    /// assert_eq!(table.words()[..16], [0, 0, 256, 2, 10, 3, 0, 5, 4, 1, 2, 3, 0, 0, 0, 0]);
    /// assert_eq!(table.words()[16..], [function::INLINE]);
    /// # Ok::<(), bisquepond::Refusal>(())
    /// ```
    pub fn words(&self) -> &[u32] {
        &self.words
    }
}

impl<R: Row> Deref for Table<R> {
    type Target = [R];

    fn deref(&self) -> &[R] {
        rows_of(&self.words)
    }
}

impl<'t, R: Row> IntoIterator for &'t Table<R> {
    type Item = &'t R;
    type IntoIter = slice::Iter<'t, R>;

    fn into_iter(self) -> slice::Iter<'t, R> {
        self.iter()
    }
}

impl<R: Row + fmt::Debug> fmt::Debug for Table<R> {
    fn fmt(&self, f: &mut fmt::Formatter<'_>) -> fmt::Result {
        f.debug_list().entries(self).finish()
    }
}

/// A row's words by name, each with an example: the lines that make `row`, and what the word then is.
macro_rules! words {
    ($row:ident, $made:literal: $($(#[$doc:meta])* $name:ident = $at:literal, $value:literal;)*) => {
        impl $row {
            $(
                $(#[$doc])*
                ///
                /// ```
                #[doc = $made]
                #[doc = concat!("assert_eq!(row.", stringify!($name), "(), ", $value, ");")]
                /// # Ok::<(), bisquepond::Refusal>(())
                /// ```
                pub const fn $name(&self) -> u32 {
                    self.0[$at]
                }
            )*
        }
    };
}
