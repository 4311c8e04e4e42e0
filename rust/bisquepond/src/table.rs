//! Tables of words and of pairs, strings, and their texts.

use alloc::string::String;
use alloc::vec;
use alloc::vec::Vec;
use core::fmt;
use core::slice;

use crate::boundary;
use crate::io::ByteReader;
use crate::sys::LIMIT;
use crate::{Reason, Result, Table};

pub use crate::boundary::StringRow;

/// As many entries as are asked for, but at most one more than the bytes left can hold: that one is refused, as it
/// would be with all of them.
fn entries(reader: &ByteReader<'_>, count: u32, size: usize) -> u32 {
    let most = reader.remaining() / size + 1;
    count.min(most.try_into().unwrap_or(u32::MAX))
}

impl ByteReader<'_> {
    /// Reads `count` words into the first that are lent; other words stay. Kind runs are read so too.
    ///
    /// # Errors
    ///
    /// `TooLong`; `PastEnd` if it stands past the end; `TooFewRows` if fewer than `count` words are lent; `Cut` if the
    /// bytes end before the words do, with the count of whole entries before that as place.
    ///
    /// ```
    /// use bisquepond::io::ByteReader;
    ///
    /// let mut reader = ByteReader::new(&[1, 0, 0, 0, 2, 0, 0, 0, 3]);
    /// let mut words = [7; 3];
    /// reader.read_u32_table_into(2, &mut words)?;
    /// assert_eq!((words, reader.position()), ([1, 2, 7], 8));
    /// let cut = ByteReader::new(&[1, 0, 0, 0, 2]).read_u32_table_into(2, &mut words).unwrap_err();
    /// assert_eq!((cut.number, cut.place), (3, 1));
    /// # Ok::<(), bisquepond::Refusal>(())
    /// ```
    pub fn read_u32_table_into(&mut self, count: u32, words: &mut [u32]) -> Result<()> {
        boundary::read_u32_table(self.bytes, &mut self.at, count, words)
    }

    /// The same into memory of its own, never more than the bytes left need.
    ///
    /// # Errors
    ///
    /// Those of [`read_u32_table_into`](Self::read_u32_table_into), but never `TooFewRows`.
    ///
    /// ```
    /// use bisquepond::io::ByteReader;
    ///
    /// let mut reader = ByteReader::new(&[1, 0, 0, 0, 2, 0, 0, 0]);
    /// assert_eq!(reader.read_u32_table(2)?, [1, 2]);
    /// let cut = ByteReader::new(&[1, 0, 0, 0, 2]).read_u32_table(u32::MAX).unwrap_err();
    /// assert_eq!((cut.number, cut.place), (3, 1));
    /// # Ok::<(), bisquepond::Refusal>(())
    /// ```
    pub fn read_u32_table(&mut self, count: u32) -> Result<Vec<u32>> {
        let count = entries(self, count, 4);
        let mut words = vec![0; count as usize];
        self.read_u32_table_into(count, &mut words)?;
        Ok(words)
    }

    /// Reads `count` pairs of words into the first that are lent: overflow strings, table entries, shapes, CJS pairs.
    ///
    /// # Errors
    ///
    /// Those of [`read_u32_table_into`](Self::read_u32_table_into), `TooFewRows` if fewer than `count` pairs are lent.
    ///
    /// ```
    /// use bisquepond::io::ByteReader;
    ///
    /// let mut pairs = [[7; 2]; 2];
    /// ByteReader::new(&[1, 0, 0, 0, 2, 0, 0, 0]).read_pair_table_into(1, &mut pairs)?;
    /// assert_eq!(pairs, [[1, 2], [7, 7]]);
    /// # Ok::<(), bisquepond::Refusal>(())
    /// ```
    pub fn read_pair_table_into(&mut self, count: u32, pairs: &mut [[u32; 2]]) -> Result<()> {
        let words = pairs.as_flattened_mut();
        boundary::read_pair_table(self.bytes, &mut self.at, count, words)
    }

    /// The same into memory of its own, never more than the bytes left need.
    ///
    /// # Errors
    ///
    /// Those of [`read_pair_table_into`](Self::read_pair_table_into), but never `TooFewRows`.
    ///
    /// ```
    /// use bisquepond::io::ByteReader;
    ///
    /// let mut reader = ByteReader::new(&[1, 0, 0, 0, 2, 0, 0, 0, 3, 0, 0, 0]);
    /// assert_eq!(reader.read_pair_table(1)?, [[1, 2]]);
    /// let cut = reader.read_pair_table(1).unwrap_err();
    /// assert_eq!((cut.number, cut.place, reader.position()), (3, 0, 8));
    /// # Ok::<(), bisquepond::Refusal>(())
    /// ```
    pub fn read_pair_table(&mut self, count: u32) -> Result<Vec<[u32; 2]>> {
        let count = entries(self, count, 8);
        let mut pairs = vec![[0; 2]; count as usize];
        self.read_pair_table_into(count, &mut pairs)?;
        Ok(pairs)
    }
}

/// What strings are decoded from. Each part is as the table reads of [`ByteReader`] give it.
///
/// There are two modes. [`decode`](Self::decode) takes overflow pairs in order, as hermes-decomp does;
/// [`decode_hermes`](Self::decode_hermes) reads as Hermes itself does, and is right also for a file whose linker reused
/// pairs or left empty kind runs.
///
/// ```
/// use bisquepond::table::Strings;
///
/// let strings = Strings {
///     kinds: &[1 << 31 | 2],
///     small: &[0 << 1 | 2 << 24, 2 << 1 | 3 << 24],
///     overflow: &[],
///     storage: b"hiyou",
/// };
/// let rows = strings.decode(2)?;
/// assert_eq!(rows[1].bytes(strings.storage), b"you");
/// assert!(rows[1].is_identifier() && !rows[1].is_utf16());
/// # Ok::<(), bisquepond::Refusal>(())
/// ```
#[derive(Clone, Copy, Debug)]
pub struct Strings<'a> {
    /// The kind runs: bit 31 is identifier, the low 31 bits the length.
    pub kinds: &'a [u32],
    /// The small entries: bit 0 UTF-16, bits 1 to 23 offset, bits 24 to 31 length. Length 255 takes a pair: the next one,
    /// or in Hermes mode the one whose number is in the offset's bits.
    pub small: &'a [u32],
    /// The overflow pairs, offset and length.
    pub overflow: &'a [[u32; 2]],
    /// The bytes of all strings.
    pub storage: &'a [u8],
}

impl Strings<'_> {
    /// Decodes the first strings, as many as the lesser of `count` and the small entries, into the first rows that are
    /// lent, and answers these. Other rows stay.
    ///
    /// # Errors
    ///
    /// `TooLong` if the storage is longer than 2^30 bytes; `TooFewRows` if too few rows are lent; `NoOverflowPair` if a
    /// string needs an overflow pair and none is left, with the string as place.
    ///
    /// ```
    /// use bisquepond::table::{StringRow, Strings};
    ///
    /// // A storage of 4 bytes: start 3 with length 0 is valid, start 4 with length 0 is not.
    /// let strings = Strings { kinds: &[2], small: &[3 << 1, 4 << 1], overflow: &[], storage: b"abcd" };
    /// let mut rows = [StringRow::default(); 4];
    /// let decoded = strings.decode_into(9, &mut rows)?;
    /// assert_eq!(decoded.len(), 2);
    /// assert!(decoded[0].is_valid() && !decoded[1].is_valid());
    /// assert_eq!(strings.decode_into(2, &mut rows[..1]).unwrap_err().number, 4);
    /// # Ok::<(), bisquepond::Refusal>(())
    /// ```
    pub fn decode_into<'t>(
        &self,
        count: u32,
        rows: &'t mut [StringRow],
    ) -> Result<&'t [StringRow]> {
        let words = [self.kinds, self.small, self.overflow.as_flattened()];
        let decoded = boundary::decode_strings(count, words, self.storage, rows)?;
        Ok(&rows[..decoded as usize])
    }

    /// The same into a table of its own.
    ///
    /// # Errors
    ///
    /// Those of [`decode_into`](Self::decode_into), but never `TooFewRows`.
    ///
    /// ```
    /// use bisquepond::table::Strings;
    ///
    /// // Runs of one string, no identifier, one string: an empty run that is reached still names one.
    /// let strings = Strings {
    ///     kinds: &[1, 1 << 31, 1],
    ///     small: &[1 << 24; 3],
    ///     overflow: &[],
    ///     storage: b"abcd",
    /// };
    /// let rows = strings.decode(3)?;
    /// let identifiers: Vec<bool> = rows.iter().map(|row| row.is_identifier()).collect();
    /// assert_eq!(identifiers, [false, true, false]);
    ///
    /// // Length 255 needs an overflow pair.
    /// let long = Strings { small: &[1 << 24, 255 << 24], ..strings };
    /// let refusal = long.decode(2).unwrap_err();
    /// assert_eq!((refusal.number, refusal.place), (8, 1));
    /// # Ok::<(), bisquepond::Refusal>(())
    /// ```
    pub fn decode(&self, count: u32) -> Result<Table<StringRow>> {
        let mut rows = Table::zeros(self.small.len().min(count as usize));
        self.decode_into(count, rows.lent())?;
        Ok(rows)
    }

    /// As [`decode_into`](Self::decode_into), in Hermes mode: see [`decode_hermes`](Self::decode_hermes).
    ///
    /// # Errors
    ///
    /// `TooLong` and `TooFewRows` as there; `NoOverflowPair` if the number in an entry of length 255 is not below the
    /// number of pairs, with the first such string as place.
    ///
    /// ```
    /// use bisquepond::table::{StringRow, Strings};
    ///
    /// // Pair 1, then pair 2, which is not there: no row is written.
    /// let small = &[1 << 1 | 255 << 24, 2 << 1 | 255 << 24];
    /// let strings = Strings { kinds: &[2], small, overflow: &[[0, 1], [1, 3]], storage: b"abcd" };
    /// let mut rows = [StringRow::default(); 2];
    /// let refusal = strings.decode_hermes_into(2, &mut rows).unwrap_err();
    /// assert_eq!((refusal.number, refusal.place, rows), (8, 1, [StringRow::default(); 2]));
    /// let decoded = strings.decode_hermes_into(1, &mut rows)?;
    /// assert_eq!(decoded[0].bytes(strings.storage), b"bcd");
    /// # Ok::<(), bisquepond::Refusal>(())
    /// ```
    pub fn decode_hermes_into<'t>(
        &self,
        count: u32,
        rows: &'t mut [StringRow],
    ) -> Result<&'t [StringRow]> {
        let words = [self.kinds, self.small, self.overflow.as_flattened()];
        let decoded = boundary::decode_strings_hermes(count, words, self.storage, rows)?;
        Ok(&rows[..decoded as usize])
    }

    /// Decodes in Hermes mode, into a table of its own: a string of length 255 takes the pair whose number is in its
    /// offset field, so that pairs may be shared and in any order; and the kind run of string i is the first whose
    /// lengths, added up, exceed i, so that an empty run names no string. Past the last run a string is no identifier.
    ///
    /// Where each such field has the number of the next pair, and no run is empty, the rows are those of
    /// [`decode`](Self::decode).
    ///
    /// # Errors
    ///
    /// Those of [`decode_hermes_into`](Self::decode_hermes_into), but never `TooFewRows`.
    ///
    /// ```
    /// use bisquepond::table::Strings;
    ///
    /// // Two names that share pair 1, a string of pair 0, and an empty run before the string's.
    /// let long = |pair: u32| pair << 1 | 255 << 24;
    /// let strings = Strings {
    ///     kinds: &[1 << 31 | 2, 1 << 31, 1],
    ///     small: &[long(1), long(1), long(0)],
    ///     overflow: &[[0, 2], [2, 3]],
    ///     storage: b"hiyou",
    /// };
    /// let rows = strings.decode_hermes(3)?;
    /// let texts: Vec<&[u8]> = rows.iter().map(|row| row.bytes(strings.storage)).collect();
    /// assert_eq!(texts, [&b"you"[..], b"you", b"hi"]);
    /// assert!(rows[1].is_identifier() && !rows[2].is_identifier());
    ///
    /// // In order, the first string takes pair 0, the second pair 1, and the third finds none.
    /// assert_eq!(strings.decode(2)?[0].bytes(strings.storage), b"hi");
    /// let refusal = strings.decode(3).unwrap_err();
    /// assert_eq!((refusal.number, refusal.place), (8, 2));
    /// # Ok::<(), bisquepond::Refusal>(())
    /// ```
    pub fn decode_hermes(&self, count: u32) -> Result<Table<StringRow>> {
        let mut rows = Table::zeros(self.small.len().min(count as usize));
        self.decode_hermes_into(count, rows.lent())?;
        Ok(rows)
    }
}

/// The bytes of string `index` of the rows: that part of the storage itself, empty where there is no such row, where it
/// is marked invalid, and where it leaves the storage.
///
/// ```
/// use bisquepond::{Row, table::{self, StringRow}};
///
/// let rows = StringRow::rows(&[1, 2, 0, 0, 3, 9, 0, 0]);
/// assert_eq!(table::string_bytes(b"abcd", rows, 0), b"bc");
/// assert_eq!(table::string_bytes(b"abcd", rows, 1), b"");
/// assert_eq!(table::string_bytes(b"abcd", rows, 2), b"");
/// ```
pub fn string_bytes<'a>(storage: &'a [u8], rows: &[StringRow], index: usize) -> &'a [u8] {
    boundary::string_bytes(storage, rows, index)
}

/// Writes the text of string `index` of the rows into the first bytes that are lent, as UTF-8, and answers it. Other bytes
/// stay.
///
/// A row that is marked UTF-16 has the scalar values of its units, with U+FFFD for each surrogate that has no partner
/// ([`char::decode_utf16`] reads units so); any other is UTF-8 with U+FFFD for each maximal ill-formed part (as
/// [`String::from_utf8_lossy`] makes it), so that well-formed UTF-8 is its own text. The text is empty where the row is
/// marked invalid, where it leaves the storage, and where it is UTF-16 of an odd number of bytes. A text has at most three
/// bytes for each byte of UTF-8, and three for each unit of UTF-16.
///
/// # Errors
///
/// `TooLong` if the storage is longer than 2^30 bytes; `TooFewToRead` if there is no such row; `TooFewRows` if the text has
/// more bytes than are lent.
///
/// ```
/// use bisquepond::{Reason, Row, table::{self, StringRow}};
///
/// // UTF-8 of which one byte is ill-formed; the last four bytes as UTF-16, a lone surrogate and a letter.
/// let storage = b"h\xFFi\x3D\xD8a\0";
/// let rows = StringRow::rows(&[0, 3, 0, 0, 3, 4, 0, 1]);
/// let mut out = [7; 8];
/// assert_eq!(table::string_text_into(storage, rows, 0, &mut out)?, "h\u{FFFD}i");
/// assert_eq!(out, [b'h', 0xEF, 0xBF, 0xBD, b'i', 7, 7, 7]);
/// assert_eq!(table::string_text_into(storage, rows, 1, &mut out)?, "\u{FFFD}a");
///
/// let mut out = [7; 4];
/// let refusal = table::string_text_into(storage, rows, 0, &mut out).unwrap_err();
/// assert_eq!((refusal.reason(), out), (Reason::TooFewRows, [7; 4]));
/// let refusal = table::string_text_into(storage, rows, 2, &mut out).unwrap_err();
/// assert_eq!(refusal.reason(), Reason::TooFewToRead);
/// # Ok::<(), bisquepond::Refusal>(())
/// ```
pub fn string_text_into<'t>(
    storage: &[u8],
    rows: &[StringRow],
    index: usize,
    out: &'t mut [u8],
) -> Result<&'t str> {
    boundary::string_text(storage, rows, index, out)
}

/// The same in memory of its own, of as many bytes as the text has. While it is made, a string with an ill-formed part
/// has three times its own length, the most that a text can need.
///
/// # Errors
///
/// Those of [`string_text_into`], but never `TooFewRows`.
///
/// ```
/// use bisquepond::{Reason, Row, table::{self, StringRow}};
///
/// let rows = StringRow::rows(&[0, 3, 0, 0, 0, 3, 0, 1]);
/// assert_eq!(table::string_text(b"h\xFFi", rows, 0)?, "h\u{FFFD}i");
/// // UTF-16 of three bytes.
/// assert_eq!(table::string_text(b"h\xFFi", rows, 1)?, "");
/// let refusal = table::string_text(b"h\xFFi", rows, 2).unwrap_err();
/// assert_eq!(refusal.reason(), Reason::TooFewToRead);
/// # Ok::<(), bisquepond::Refusal>(())
/// ```
pub fn string_text(storage: &[u8], rows: &[StringRow], index: usize) -> Result<String> {
    // A storage that is refused is given no memory.
    let bytes = match storage.len() > LIMIT {
        true => 0,
        false => string_bytes(storage, rows, index).len(),
    };
    let wide = rows.get(index).is_some_and(StringRow::is_utf16);
    let made = |room| boundary::string_text_of(storage, rows, index, vec![0; room]);
    // As much as well-formed UTF-8 needs, and UTF-16 at the most; then as much as any UTF-8 does.
    let first = if wide { bytes / 2 * 3 } else { bytes };
    match made(first) {
        Err(refusal) if refusal.reason() == Reason::TooFewRows => made(3 * bytes),
        made => made,
    }
}

words! {
    StringRow,
    "# let strings = bisquepond::table::Strings { kinds: &[], small: &[1 | 1 << 1 | 1 << 24], overflow: &[], storage: b\"abcd\" };\nlet row = strings.decode(1)?[0];":
    /// Where its bytes begin in the storage; 0 if it is invalid.
    start = 0, "1";
    /// How many bytes it has; 0 if it is invalid.
    byte_len = 1, "2";
}

impl StringRow {
    /// Whether its bytes lie in the storage.
    ///
    /// ```
    /// # use bisquepond::{Row, table::StringRow};
    /// assert!(StringRow::rows(&[3, 0, 0, 0])[0].is_valid());
    /// assert!(!StringRow::rows(&[0, 0, 1, 0])[0].is_valid());
    /// ```
    pub const fn is_valid(&self) -> bool {
        self.0[2] == 0
    }

    /// Whether its bytes are UTF-16.
    ///
    /// ```
    /// # use bisquepond::{Row, table::StringRow};
    /// assert!(StringRow::rows(&[0, 2, 0, 1])[0].is_utf16());
    /// ```
    pub const fn is_utf16(&self) -> bool {
        self.0[3] & 1 != 0
    }

    /// Whether it is an identifier.
    ///
    /// ```
    /// # use bisquepond::{Row, table::StringRow};
    /// assert!(StringRow::rows(&[0, 2, 0, 2])[0].is_identifier());
    /// ```
    pub const fn is_identifier(&self) -> bool {
        self.0[3] & 2 != 0
    }

    /// Its bytes, as [`string_bytes`] answers them.
    ///
    /// ```
    /// # use bisquepond::{Row, table::StringRow};
    /// assert_eq!(StringRow::rows(&[1, 2, 0, 0])[0].bytes(b"abcd"), b"bc");
    /// ```
    pub fn bytes<'a>(&self, storage: &'a [u8]) -> &'a [u8] {
        string_bytes(storage, slice::from_ref(self), 0)
    }

    /// Its text, as [`string_text`] answers it.
    ///
    /// # Errors
    ///
    /// `TooLong` if the storage is longer than 2^30 bytes.
    ///
    /// ```
    /// # use bisquepond::{Row, table::StringRow};
    /// assert_eq!(StringRow::rows(&[1, 4, 0, 1])[0].text(b"!h\0i\0")?, "hi");
    /// # Ok::<(), bisquepond::Refusal>(())
    /// ```
    pub fn text(&self, storage: &[u8]) -> Result<String> {
        string_text(storage, slice::from_ref(self), 0)
    }

    /// The same in the first bytes that are lent, as [`string_text_into`] writes it: one buffer for many strings.
    ///
    /// # Errors
    ///
    /// `TooLong` if the storage is longer than 2^30 bytes; `TooFewRows` if the text has more bytes than are lent.
    ///
    /// ```
    /// use bisquepond::table::Strings;
    ///
    /// let strings = Strings { kinds: &[], small: &[2 << 24, 2 << 1 | 3 << 24], overflow: &[], storage: b"hiyou" };
    /// let mut out = [0; 3];
    /// for (row, text) in strings.decode(2)?.iter().zip(["hi", "you"]) {
    ///     assert_eq!(row.text_into(strings.storage, &mut out)?, text);
    /// }
    /// # Ok::<(), bisquepond::Refusal>(())
    /// ```
    pub fn text_into<'t>(&self, storage: &[u8], out: &'t mut [u8]) -> Result<&'t str> {
        string_text_into(storage, slice::from_ref(self), 0, out)
    }
}

impl fmt::Debug for StringRow {
    fn fmt(&self, f: &mut fmt::Formatter<'_>) -> fmt::Result {
        f.debug_struct("StringRow")
            .field("start", &self.start())
            .field("byte_len", &self.byte_len())
            .field("valid", &self.is_valid())
            .field("utf16", &self.is_utf16())
            .field("identifier", &self.is_identifier())
            .finish()
    }
}
