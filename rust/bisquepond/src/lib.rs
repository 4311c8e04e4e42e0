//! Reads the tables of Hermes bytecode (React Native's `.hbc`): functions, strings, literals, handlers, sections and
//! debug data; and says whether they are tidy. Every answer is that of libhbc_c.a, whose functions are proved to meet
//! their contracts on every input; this crate lends it slices and gives its numbers types. It has no dependencies.
//!
//! ```
//! use bisquepond::{Layout, Reason, function};
//!
//! // One function, in a table of legacy headers that begins at byte 0.
//! let file = [0, 1, 0, 4, 0x0A, 0x80, 1, 0, 0, 0, 0, 0x0A, 1, 2, 3, 4];
//! let table = function::read_functions(&file, Layout::Legacy16, 0, 1)?;
//! assert_eq!((table[0].offset(), table[0].size(), table[0].name()), (256, 10, 3));
//!
//! // A header that is cut is refused, with its function's number as the place.
//! let cut = function::read_functions(&file[..15], Layout::Legacy16, 0, 1).unwrap_err();
//! assert_eq!((cut.reason(), cut.place), (Reason::Cut, 0));
//! # Ok::<(), bisquepond::Refusal>(())
//! ```
//!
//! | module | what it reads |
//! |---|---|
//! | [`io`] | numbers, LEB128 and strings at a position in the bytes |
//! | [`function`] | function headers of both layouts, the refresh of a table and its totals after an edit, and edited rows written as headers |
//! | [`table`] | tables of words and pairs, strings, and their texts |
//! | [`literal`] | literals, series of them, and the keys and values of objects |
//! | [`parsing`] | exception handlers, why a function has none, and trailing sections |
//! | [`debug`] | the debug section |
//! | [`clean`] | whether headers, kinds, strings and literals are tidy, or the first rule that they break |
//! | [`sys`] | the C calls themselves |
//!
//! Each call that fills rows or bytes has two forms: one ending in `_into` fills what is lent and allocates nothing, the
//! other allocates what the answer needs. How much that is is decided by the bytes, never by a count alone; a table that is
//! written into a vector makes it as long as the places say that it is given.
//!
//! A call that is refused leaves every lent row, every lent total, and every byte of a lent buffer, as it was. Under
//! *Errors* each call names what it is refused for, in the order in which it is looked for: the names are those of
//! [`Reason`].
//!
//! It is `no_std` with `alloc`. What is linked besides the archive is `memcpy` and `memset`, which every Rust program has.
//! Calls share no data: any number of threads may make them at once, each with rows of its own.
//!
//! Whoever comes from hermes-decomp finds its names in docs/FROM_HERMES_DECOMP.md.

#![no_std]
#![deny(missing_docs)]
#![deny(unsafe_code)]
#![deny(unsafe_op_in_unsafe_fn)]

extern crate alloc;

#[macro_use]
mod rows;
mod boundary;
pub mod clean;
pub mod debug;
pub mod function;
pub mod io;
pub mod literal;
pub mod parsing;
mod refusal;
pub mod sys;
pub mod table;

pub use boundary::Row;
pub use function::Layout;
pub use refusal::{Reason, Refusal, Result};
pub use rows::Table;

/// The `width` bits of `word` from bit `first`, the least bit being bit 0. Bits past the word are 0.
///
/// ```
/// // The first eight bytes of a legacy header: offset (0, 25), param_count (25, 7), size (32, 15), name (47, 17).
/// let word = u64::from_le_bytes([0, 1, 0, 4, 0x0A, 0x80, 1, 0]);
/// let field = |first, width| bisquepond::bits(word, first, width);
/// assert_eq!([field(0, 25), field(25, 7), field(32, 15), field(47, 17)], [256, 2, 10, 3]);
/// assert_eq!(bisquepond::bits(u64::MAX, 60, 64), 15);
/// ```
pub fn bits(word: u64, first: u32, width: u32) -> u64 {
    boundary::bits(word, first, width)
}
