//! A position in the bytes, and what is read there. Numbers are little-endian.
//!
//! A refused read leaves the position where it was, but for LEB128 and strings: see each.
//!
//! A LEB128 number of ten bytes can have more than the 64 bits that are read of it. The calls that end in `_marked` say
//! whether it has; the others read the same, and do not say.

use crate::Result;
use crate::boundary;

/// What was read, and whether it is exact: whether all bits of its LEB128 number were kept.
///
/// ```
/// use bisquepond::io::ByteReader;
///
/// // 2^64 in ten bytes: its low 64 bits are 0, and that is what is read.
/// let number = [0x80, 0x80, 0x80, 0x80, 0x80, 0x80, 0x80, 0x80, 0x80, 0x02];
/// let read = ByteReader::new(&number).read_uleb128_marked()?;
/// assert_eq!((read.value, read.exact), (0, false));
/// # Ok::<(), bisquepond::Refusal>(())
/// ```
#[derive(Clone, Copy, PartialEq, Eq, Hash, Debug)]
pub struct Marked<T> {
    /// The low 64 bits of the number; or the bytes of a string, as many as the low 64 bits of its length say.
    pub value: T,
    /// Whether no bit of the number was lost, so that those 64 are the number itself: not so if its tenth byte is above
    /// 1, unsigned, or neither 00 nor 7F, signed (a 7F only says again that the number is negative).
    pub exact: bool,
}

impl<T> Marked<T> {
    /// The value, if it is exact.
    ///
    /// ```
    /// use bisquepond::io::ByteReader;
    ///
    /// let mut number = [0x80; 10];
    /// number[9] = 0x01;
    /// assert_eq!(ByteReader::new(&number).read_uleb128_marked()?.if_exact(), Some(1 << 63));
    /// number[9] = 0x03;
    /// assert_eq!(ByteReader::new(&number).read_uleb128_marked()?.if_exact(), None);
    /// # Ok::<(), bisquepond::Refusal>(())
    /// ```
    pub fn if_exact(self) -> Option<T> {
        self.exact.then_some(self.value)
    }
}

/// Bytes with a position. Its calls have the names that hermes-decomp's reader has.
///
/// ```
/// use bisquepond::io::ByteReader;
///
/// let mut reader = ByteReader::new(&[1, 0, 0, 0, 2, b'h', b'i', 0xFF]);
/// assert_eq!(reader.read_u32()?, 1);
/// assert_eq!(reader.read_length_prefixed_string()?, b"hi");
/// assert_eq!((reader.position(), reader.remaining()), (7, 1));
/// # Ok::<(), bisquepond::Refusal>(())
/// ```
#[derive(Clone, Copy, PartialEq, Eq, Debug)]
pub struct ByteReader<'a> {
    pub(crate) bytes: &'a [u8],
    pub(crate) at: usize,
}

impl<'a> ByteReader<'a> {
    /// A reader at byte 0.
    ///
    /// ```
    /// let reader = bisquepond::io::ByteReader::new(&[5, 6]);
    /// assert_eq!((reader.position(), reader.remaining()), (0, 2));
    /// ```
    pub const fn new(bytes: &'a [u8]) -> Self {
        ByteReader { bytes, at: 0 }
    }

    /// A reader at any position, past the end too: reads there are refused, `PastEnd`.
    ///
    /// ```
    /// use bisquepond::io::ByteReader;
    ///
    /// assert_eq!(ByteReader::at(&[5, 6], 1).read_u8()?, 6);
    /// assert_eq!(ByteReader::at(&[5, 6], 3).read_u8().unwrap_err().number, 2);
    /// # Ok::<(), bisquepond::Refusal>(())
    /// ```
    pub const fn at(bytes: &'a [u8], position: usize) -> Self {
        ByteReader {
            bytes,
            at: position,
        }
    }

    /// Where it stands.
    ///
    /// ```
    /// assert_eq!(bisquepond::io::ByteReader::at(&[5, 6], 1).position(), 1);
    /// ```
    pub const fn position(&self) -> usize {
        self.at
    }

    /// How many bytes stand from the position to the end; 0 past the end.
    ///
    /// ```
    /// use bisquepond::io::ByteReader;
    ///
    /// assert_eq!(ByteReader::at(&[5, 6, 7], 1).remaining(), 2);
    /// assert_eq!(ByteReader::at(&[5, 6, 7], 9).remaining(), 0);
    /// ```
    pub fn remaining(&self) -> usize {
        boundary::remaining(self.bytes, self.at)
    }

    /// Moves to `position`, from wherever it stands.
    ///
    /// # Errors
    ///
    /// `TooLong`; `PastEnd` if `position` is past the end.
    ///
    /// ```
    /// let mut reader = bisquepond::io::ByteReader::new(&[5, 6]);
    /// reader.seek(2)?;
    /// assert_eq!((reader.seek(3).unwrap_err().number, reader.position()), (2, 2));
    /// # Ok::<(), bisquepond::Refusal>(())
    /// ```
    pub fn seek(&mut self, position: usize) -> Result<()> {
        boundary::seek(self.bytes, &mut self.at, position)
    }

    /// Moves to the next multiple of `alignment`, not at all if it stands on one.
    ///
    /// # Errors
    ///
    /// `TooLong`; `ZeroAlignment`; `PastEnd` if it stands or goes past the end.
    ///
    /// ```
    /// let mut reader = bisquepond::io::ByteReader::at(&[0; 6], 1);
    /// reader.align(4)?;
    /// assert_eq!(reader.position(), 4);
    /// assert_eq!(reader.align(0).unwrap_err().number, 6);
    /// assert_eq!((reader.align(8).unwrap_err().number, reader.position()), (2, 4));
    /// # Ok::<(), bisquepond::Refusal>(())
    /// ```
    pub fn align(&mut self, alignment: usize) -> Result<()> {
        boundary::align(self.bytes, &mut self.at, alignment)
    }

    /// The next `len` bytes.
    ///
    /// # Errors
    ///
    /// `TooLong`; `PastEnd` if it stands past the end; `Cut` if fewer bytes are left.
    ///
    /// ```
    /// let mut reader = bisquepond::io::ByteReader::new(&[5, 6, 7]);
    /// assert_eq!(reader.read_bytes(2)?, [5, 6]);
    /// assert_eq!((reader.read_bytes(2).unwrap_err().number, reader.position()), (3, 2));
    /// # Ok::<(), bisquepond::Refusal>(())
    /// ```
    pub fn read_bytes(&mut self, len: usize) -> Result<&'a [u8]> {
        boundary::read_bytes(self.bytes, &mut self.at, len)
    }

    /// The bytes up to the next zero, without it.
    ///
    /// # Errors
    ///
    /// `TooLong`; `PastEnd` if it stands past the end; `NoZero` if there is none: it then stands at the end.
    ///
    /// ```
    /// let mut reader = bisquepond::io::ByteReader::new(b"hi\0ho");
    /// assert_eq!(reader.read_cstring()?, b"hi");
    /// assert_eq!((reader.read_cstring().unwrap_err().number, reader.position()), (9, 5));
    /// # Ok::<(), bisquepond::Refusal>(())
    /// ```
    pub fn read_cstring(&mut self) -> Result<&'a [u8]> {
        boundary::read_cstring(self.bytes, &mut self.at)
    }

    /// A length as an unsigned LEB128 number, and that many bytes.
    ///
    /// # Errors
    ///
    /// Those of [`read_uleb128`](Self::read_uleb128); `Cut` if fewer bytes are left than the length says: it then stands
    /// after the length.
    ///
    /// ```
    /// let mut reader = bisquepond::io::ByteReader::new(&[2, b'h', b'i', 9, b'h']);
    /// assert_eq!(reader.read_length_prefixed_string()?, b"hi");
    /// assert_eq!(reader.read_length_prefixed_string().unwrap_err().number, 3);
    /// assert_eq!(reader.position(), 4);
    /// # Ok::<(), bisquepond::Refusal>(())
    /// ```
    pub fn read_length_prefixed_string(&mut self) -> Result<&'a [u8]> {
        self.read_length_prefixed_string_marked()
            .map(|read| read.value)
    }

    /// The same, and whether the length is exact: if not, the bytes are as many as its low 64 bits say.
    ///
    /// # Errors
    ///
    /// Those of [`read_length_prefixed_string`](Self::read_length_prefixed_string).
    ///
    /// ```
    /// use bisquepond::io::ByteReader;
    ///
    /// let read = ByteReader::new(b"\x02hi").read_length_prefixed_string_marked()?;
    /// assert_eq!((read.value, read.exact), (&b"hi"[..], true));
    /// // A length of 2^64 + 2, of which 2 is left.
    /// let long = b"\x82\x80\x80\x80\x80\x80\x80\x80\x80\x02hi";
    /// let read = ByteReader::new(long).read_length_prefixed_string_marked()?;
    /// assert_eq!((read.value, read.exact), (&b"hi"[..], false));
    /// # Ok::<(), bisquepond::Refusal>(())
    /// ```
    pub fn read_length_prefixed_string_marked(&mut self) -> Result<Marked<&'a [u8]>> {
        boundary::read_length_prefixed_string(self.bytes, &mut self.at)
    }

    /// An unsigned LEB128 number of at most ten bytes: its low 64 bits.
    ///
    /// # Errors
    ///
    /// `TooLong`; `PastEnd` if it stands past the end; `Cut` if the bytes end before the number does, `Leb128TooLong` if
    /// its tenth byte has bit 7 set: it then stands after the last byte looked at.
    ///
    /// ```
    /// let mut reader = bisquepond::io::ByteReader::new(&[0xB9, 0x64, 0x80]);
    /// assert_eq!(reader.read_uleb128()?, 12857);
    /// assert_eq!((reader.read_uleb128().unwrap_err().number, reader.position()), (3, 3));
    /// # Ok::<(), bisquepond::Refusal>(())
    /// ```
    pub fn read_uleb128(&mut self) -> Result<u64> {
        self.read_uleb128_marked().map(|read| read.value)
    }

    /// The same, and whether the number is exact: not so if its tenth byte is above 1.
    ///
    /// # Errors
    ///
    /// Those of [`read_uleb128`](Self::read_uleb128).
    ///
    /// ```
    /// use bisquepond::io::ByteReader;
    ///
    /// let mut number = [0x80; 10];
    /// for (last, value, exact) in [(0, 0, true), (1, 1 << 63, true), (2, 0, false)] {
    ///     number[9] = last;
    ///     let read = ByteReader::new(&number).read_uleb128_marked()?;
    ///     assert_eq!((read.value, read.exact), (value, exact));
    /// }
    /// # Ok::<(), bisquepond::Refusal>(())
    /// ```
    pub fn read_uleb128_marked(&mut self) -> Result<Marked<u64>> {
        boundary::read_uleb128(self.bytes, &mut self.at)
    }

    /// A signed LEB128 number of at most ten bytes: its low 64 bits, in two's complement.
    ///
    /// # Errors
    ///
    /// Those of [`read_uleb128`](Self::read_uleb128).
    ///
    /// ```
    /// let mut reader = bisquepond::io::ByteReader::new(&[0x80, 0x7F, 0x80]);
    /// assert_eq!(reader.read_sleb128()?, -128);
    /// assert_eq!((reader.read_sleb128().unwrap_err().number, reader.position()), (3, 3));
    /// # Ok::<(), bisquepond::Refusal>(())
    /// ```
    pub fn read_sleb128(&mut self) -> Result<i64> {
        self.read_sleb128_marked().map(|read| read.value)
    }

    /// The same, and whether the number is exact: not so if its tenth byte is neither 00 nor 7F.
    ///
    /// # Errors
    ///
    /// Those of [`read_uleb128`](Self::read_uleb128).
    ///
    /// ```
    /// use bisquepond::io::ByteReader;
    ///
    /// let mut number = [0x80; 10];
    /// for (last, value, exact) in [(0, 0, true), (0x7F, i64::MIN, true), (1, i64::MIN, false)] {
    ///     number[9] = last;
    ///     let read = ByteReader::new(&number).read_sleb128_marked()?;
    ///     assert_eq!((read.value, read.exact), (value, exact));
    /// }
    /// # Ok::<(), bisquepond::Refusal>(())
    /// ```
    pub fn read_sleb128_marked(&mut self) -> Result<Marked<i64>> {
        boundary::read_sleb128(self.bytes, &mut self.at)
    }
}

macro_rules! numbers {
    ($($(#[$doc:meta])* $name:ident -> $kind:ident, [$($byte:literal),*], $value:literal;)*) => {
        impl ByteReader<'_> {
            $(
                $(#[$doc])*
                ///
                /// # Errors
                ///
                /// `TooLong`; `PastEnd` if it stands past the end; `Cut` if fewer bytes are left than the number has.
                ///
                /// ```
                #[doc = concat!("let mut reader = bisquepond::io::ByteReader::new(&[", $(stringify!($byte), ", ",)* "]);")]
                #[doc = concat!("assert_eq!(reader.", stringify!($name), "()?, ", $value, ");")]
                #[doc = concat!("assert_eq!(reader.", stringify!($name), "().unwrap_err().number, 3);")]
                /// # Ok::<(), bisquepond::Refusal>(())
                /// ```
                pub fn $name(&mut self) -> Result<$kind> {
                    boundary::$name(self.bytes, &mut self.at)
                }
            )*
        }
    };
}

numbers! {
    /// A byte.
    read_u8 -> u8, [0xFE], "254";
    /// A signed byte.
    read_i8 -> i8, [0xFE], "-2";
    /// A number of two bytes.
    read_u16 -> u16, [0x34, 0x12], "0x1234";
    /// A number of four bytes.
    read_u32 -> u32, [0x78, 0x56, 0x34, 0x12], "0x1234_5678";
    /// A number of eight bytes.
    read_u64 -> u64, [1, 0, 0, 0, 0, 0, 0, 0x80], "0x8000_0000_0000_0001";
    /// A signed number of four bytes.
    read_i32 -> i32, [0xFE, 0xFF, 0xFF, 0xFF], "-2";
    /// A double of eight bytes; a NaN is some NaN.
    read_f64 -> f64, [0, 0, 0, 0, 0, 0, 0xF8, 0x3F], "1.5";
}
