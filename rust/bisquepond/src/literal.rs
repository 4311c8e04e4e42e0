//! Literals: one, a series of them, and the keys or values of an object.

use alloc::vec;
use alloc::vec::Vec;
use core::fmt;

use crate::Result;
use crate::boundary;
use crate::io::ByteReader;

/// A literal value. It is shown as `null`, `true`, `false`, a number that has a point or an exponent (`5.0`, `NaN`, `inf`),
/// an integer that has neither, or `string 7`.
///
/// ```
/// use bisquepond::literal::{self, Literal};
///
/// let series = literal::read_series(&[0x72, 5, 0, 0, 0, 0xFF, 0xFF, 0xFF, 0xFF, 0x11], 0, 3)?;
/// assert_eq!(series.values, [Literal::Integer(5), Literal::Integer(-1), Literal::Bool(true)]);
/// let shown: Vec<String> = series.values.iter().map(Literal::to_string).collect();
/// assert_eq!(shown, ["5", "-1", "true"]);
/// assert_eq!(Literal::Number(5.0).to_string(), "5.0");
/// assert_eq!(format!("{} {}", Literal::Null, Literal::String(7)), "null string 7");
/// # Ok::<(), bisquepond::Refusal>(())
/// ```
#[derive(Clone, Copy, PartialEq, Debug)]
pub enum Literal {
    /// No value.
    Null,
    /// A truth.
    Bool(bool),
    /// A double.
    Number(f64),
    /// The number of a string.
    String(u32),
    /// An integer.
    Integer(i32),
}

impl fmt::Display for Literal {
    fn fmt(&self, f: &mut fmt::Formatter<'_>) -> fmt::Result {
        match self {
            Literal::Null => write!(f, "null"),
            Literal::Bool(truth) => write!(f, "{truth}"),
            Literal::Number(number) => write!(f, "{number:?}"),
            Literal::String(number) => write!(f, "string {number}"),
            Literal::Integer(integer) => write!(f, "{integer}"),
        }
    }
}

impl Literal {
    /// `kind` is one that the archive wrote; the payload of a float is its bits.
    fn of(kind: u32, payload: u64) -> Literal {
        match kind {
            0 => Literal::Null,
            1 | 2 => Literal::Bool(kind == 1),
            3 => Literal::Number(f64::from_bits(payload)),
            4 => Literal::String(payload as u32),
            5 => Literal::Integer(payload as u32 as i32),
            _ => unreachable!("a literal of kind {kind}"),
        }
    }
}

impl ByteReader<'_> {
    /// One value. `tag` is its tag byte, of which bits 4 to 6 count. A float that is a NaN is some NaN.
    ///
    /// # Errors
    ///
    /// `TooLong`; `PastEnd` if it stands past the end; `Cut` if fewer bytes are left than the value has.
    ///
    /// ```
    /// use bisquepond::{io::ByteReader, literal::Literal};
    ///
    /// let mut reader = ByteReader::new(&[7, 0, 0xFE, 0xFF, 0xFF, 0xFF]);
    /// assert_eq!(reader.read_literal(0x50)?, Literal::String(7));
    /// assert_eq!(reader.read_literal(0x70)?, Literal::Integer(-2));
    /// assert_eq!(reader.read_literal(0x20)?, Literal::Bool(false));
    /// assert_eq!(reader.read_literal(0x30).unwrap_err().number, 3);
    /// # Ok::<(), bisquepond::Refusal>(())
    /// ```
    pub fn read_literal(&mut self, tag: u8) -> Result<Literal> {
        let (kind, number, word) = boundary::read_literal(self.bytes, &mut self.at, tag)?;
        Ok(match kind {
            3 => Literal::Number(number),
            _ => Literal::of(kind, word.into()),
        })
    }
}

/// A series in memory of its own.
#[derive(Clone, PartialEq, Debug)]
pub struct Series<'a> {
    /// The values, as many as were asked for.
    pub values: Vec<Literal>,
    /// The bytes that they took: a part of the buffer that was lent.
    pub used: &'a [u8],
}

/// A series in tables that were lent.
#[derive(Clone, Copy, Debug)]
pub struct LentSeries<'a, 't> {
    /// The values, as many as were asked for.
    pub values: Values<'t>,
    /// The bytes that they took: a part of the buffer that was lent.
    pub used: &'a [u8],
}

/// Values as they lie in two tables: it goes through them.
///
/// ```
/// use bisquepond::literal::{self, Literal};
///
/// let (mut kinds, mut payloads) = ([0; 4], [0; 4]);
/// let series = literal::read_series_into(&[0x11, 0x61, 7], 0, 2, &mut kinds, &mut payloads)?;
/// assert_eq!(series.values.len(), 2);
/// assert!(series.values.eq([Literal::Bool(true), Literal::String(7)]));
/// # Ok::<(), bisquepond::Refusal>(())
/// ```
#[derive(Clone, Copy, Debug)]
pub struct Values<'t> {
    kinds: &'t [u32],
    payloads: &'t [u64],
}

impl Values<'_> {
    /// The value of that number.
    ///
    /// ```
    /// # use bisquepond::literal::{self, Literal};
    /// # let (mut kinds, mut payloads) = ([0; 4], [0; 4]);
    /// let series = literal::read_series_into(&[0x11, 0x61, 7], 0, 2, &mut kinds, &mut payloads)?;
    /// assert_eq!(series.values.get(1), Some(Literal::String(7)));
    /// assert_eq!(series.values.get(2), None);
    /// # Ok::<(), bisquepond::Refusal>(())
    /// ```
    pub fn get(&self, index: usize) -> Option<Literal> {
        Some(Literal::of(
            *self.kinds.get(index)?,
            *self.payloads.get(index)?,
        ))
    }
}

impl Iterator for Values<'_> {
    type Item = Literal;

    fn next(&mut self) -> Option<Literal> {
        let (kind, kinds) = self.kinds.split_first()?;
        let (payload, payloads) = self.payloads.split_first()?;
        (self.kinds, self.payloads) = (kinds, payloads);
        Some(Literal::of(*kind, *payload))
    }

    fn size_hint(&self) -> (usize, Option<usize>) {
        (self.kinds.len(), Some(self.kinds.len()))
    }
}

impl ExactSizeIterator for Values<'_> {}

/// The part of `buffer` that a series used; empty where nothing was asked for, wherever that was.
fn part(buffer: &[u8], offset: u32, used: u32) -> &[u8] {
    match used {
        0 => &buffer[..0],
        _ => &buffer[offset as usize..][..used as usize],
    }
}

fn lent<'a, 't>(
    buffer: &'a [u8],
    offset: u32,
    count: u32,
    kinds: &'t mut [u32],
    payloads: &'t mut [u64],
    read: impl FnOnce(&mut [u32], &mut [u64]) -> Result<u32>,
) -> Result<LentSeries<'a, 't>> {
    let used = read(kinds, payloads)?;
    let (kinds, payloads) = (&kinds[..count as usize], &payloads[..count as usize]);
    Ok(LentSeries {
        values: Values { kinds, payloads },
        used: part(buffer, offset, used),
    })
}

/// A count says nothing about the bytes, so tables of that size are not made at once: a beginning of the series is
/// read, then one twice as long. A series that is cut is refused so at every count that reaches the cut.
fn grown<'a>(
    buffer: &'a [u8],
    offset: u32,
    count: u32,
    mut read: impl FnMut(u32, &mut [u32], &mut [u64]) -> Result<u32>,
) -> Result<Series<'a>> {
    const FIRST: u32 = 4096;
    let mut asked = count.min(FIRST);
    loop {
        let (mut kinds, mut payloads) = (vec![0; asked as usize], vec![0; asked as usize]);
        let used = read(asked, &mut kinds, &mut payloads)?;
        if asked == count {
            let (kinds, payloads) = (&kinds[..], &payloads[..]);
            return Ok(Series {
                values: Values { kinds, payloads }.collect(),
                used: part(buffer, offset, used),
            });
        }
        asked = count.min(asked.saturating_mul(2));
    }
}

/// Reads `count` values of the series that begins at `offset`, into two tables that are lent: value i has its kind in
/// `kinds[i]`, and in `payloads[i]` a float's bits, a string's number, an integer as 32-bit two's complement, or 0.
/// Other words stay.
///
/// # Errors
///
/// `TooLong`; `SeriesPastEnd` if `offset` is at or past the end and `count` is not 0; `TooFewRows` if a table has fewer
/// than `count` words; `Cut` if the bytes end before the values do, with the number of whole values before that as place.
///
/// ```
/// use bisquepond::literal;
///
/// let (mut kinds, mut payloads) = ([9; 4], [9; 4]);
/// let bytes = [0x72, 5, 0, 0, 0, 0xFF, 0xFF, 0xFF, 0xFF, 0x11];
/// let series = literal::read_series_into(&bytes, 0, 3, &mut kinds, &mut payloads)?;
/// assert_eq!(series.used, bytes);
/// assert_eq!(kinds, [5, 5, 1, 9]);
/// assert_eq!(payloads, [5, 0xFFFF_FFFF, 0, 9]);
/// let refusal = literal::read_series_into(&bytes, 10, 1, &mut kinds, &mut payloads).unwrap_err();
/// assert_eq!(refusal.number, 7);
/// # Ok::<(), bisquepond::Refusal>(())
/// ```
pub fn read_series_into<'a, 't>(
    buffer: &'a [u8],
    offset: u32,
    count: u32,
    kinds: &'t mut [u32],
    payloads: &'t mut [u64],
) -> Result<LentSeries<'a, 't>> {
    lent(buffer, offset, count, kinds, payloads, |kinds, payloads| {
        boundary::read_series(buffer, offset, count, kinds, payloads)
    })
}

/// The same into memory of its own. No more is allocated than twice what the bytes hold, whatever the count.
///
/// # Errors
///
/// Those of [`read_series_into`], but never `TooFewRows`.
///
/// ```
/// use bisquepond::literal::{self, Literal};
///
/// // 258 nulls in two bytes.
/// let series = literal::read_series(&[0x81, 0x02], 0, 258)?;
/// assert_eq!((series.values, series.used.len()), (vec![Literal::Null; 258], 2));
/// let cut = literal::read_series(&[0x81, 0x02], 0, u32::MAX).unwrap_err();
/// assert_eq!((cut.number, cut.place), (3, 258));
/// # Ok::<(), bisquepond::Refusal>(())
/// ```
pub fn read_series(buffer: &[u8], offset: u32, count: u32) -> Result<Series<'_>> {
    grown(buffer, offset, count, |count, kinds, payloads| {
        boundary::read_series(buffer, offset, count, kinds, payloads)
    })
}

/// The two buffers of objects.
#[derive(Clone, Copy, Debug)]
pub struct Objects<'k, 'v> {
    /// The keys of all objects.
    pub keys: &'k [u8],
    /// The values of all objects.
    pub values: &'v [u8],
}

/// For each side its two calls: `$side` is the buffer, `$of_keys` whether it is the keys.
macro_rules! sides {
    ($($of:lifetime $side:ident, $side_into:ident, $word:literal, $of_keys:literal;)*) => {
        impl<'k, 'v> Objects<'k, 'v> {
            $(
                #[doc = concat!("Reads `count` ", $word, " from `offset` on, as [`read_series_into`] does; the other buffer is not looked at.")]
                ///
                /// # Errors
                ///
                /// Those of [`read_series_into`].
                ///
                /// ```
                /// use bisquepond::literal::{Literal, Objects};
                ///
                #[doc = concat!("let objects = Objects { ", $word, ": &[0, 0x61, 7], ..Objects { keys: &[], values: &[] } };")]
                /// let (mut kinds, mut payloads) = ([0; 1], [0; 1]);
                #[doc = concat!("let series = objects.", stringify!($side_into), "(1, 1, &mut kinds, &mut payloads)?;")]
                /// assert_eq!((series.values.get(0), series.used), (Some(Literal::String(7)), &[0x61, 7][..]));
                /// # Ok::<(), bisquepond::Refusal>(())
                /// ```
                pub fn $side_into<'t>(
                    &self,
                    offset: u32,
                    count: u32,
                    kinds: &'t mut [u32],
                    payloads: &'t mut [u64],
                ) -> Result<LentSeries<$of, 't>> {
                    let both = [self.keys, self.values];
                    lent(self.$side, offset, count, kinds, payloads, |kinds, payloads| {
                        boundary::read_object(both, $of_keys, offset, count, kinds, payloads)
                    })
                }

                #[doc = concat!("Reads `count` ", $word, " from `offset` on, as [`read_series`] does; the other buffer is not looked at.")]
                ///
                /// # Errors
                ///
                /// Those of [`read_series`].
                ///
                /// ```
                /// use bisquepond::literal::{Literal, Objects};
                ///
                #[doc = concat!("let objects = Objects { ", $word, ": &[0, 0x61, 7], ..Objects { keys: &[], values: &[] } };")]
                #[doc = concat!("let series = objects.", stringify!($side), "(1, 1)?;")]
                /// assert_eq!((series.values, series.used), (vec![Literal::String(7)], &[0x61, 7][..]));
                #[doc = concat!("assert_eq!(objects.", stringify!($side), "(9, 0)?.used, []);")]
                /// # Ok::<(), bisquepond::Refusal>(())
                /// ```
                pub fn $side(&self, offset: u32, count: u32) -> Result<Series<$of>> {
                    let both = [self.keys, self.values];
                    grown(self.$side, offset, count, |count, kinds, payloads| {
                        boundary::read_object(both, $of_keys, offset, count, kinds, payloads)
                    })
                }
            )*
        }
    };
}

sides! {
    'k keys, keys_into, "keys", true;
    'v values, values_into, "values", false;
}
