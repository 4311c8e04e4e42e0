//! All that is unsafe: the calls of libhbc_c.a with slices lent, and rows seen as the words that they are.
//!
//! What include/hbc.h asks of a caller holds here by the types: a slice's pointer is never NULL, is aligned and stands
//! for as many items as are said; a number is lent by an exclusive reference, as is every slice that is written, so
//! that nothing lent overlaps. The archive is proved to read and write within what was lent; and that a text which it
//! writes is well-formed UTF-8.

#![allow(unsafe_code)]

use alloc::string::String;
use alloc::vec::Vec;
use core::str;

use crate::clean::Bundle;
use crate::function::Totals;
use crate::io::Marked;
use crate::refusal::{Place, Refusal, Result};
use crate::sys;

/// A row of a table: so many words, and nothing else.
///
/// # Safety
///
/// The type is `repr(transparent)` over `[u32; WORDS]`, and `WORDS` is not 0.
pub unsafe trait Row: Copy + Default + 'static {
    /// The words of a row.
    const WORDS: usize;

    /// The whole rows that lie in the words; words that make no whole row are left out.
    ///
    /// ```
    /// use bisquepond::{Row, table::StringRow};
    ///
    /// let rows = StringRow::rows(&[3, 0, 0, 2, 0, 0, 1, 0, 9]);
    /// assert_eq!(rows.len(), 2);
    /// assert!(rows[0].is_valid() && rows[0].is_identifier() && !rows[1].is_valid());
    /// ```
    fn rows(words: &[u32]) -> &[Self] {
        rows_of(words)
    }

    /// The same of words that may be written, to be lent to a call that fills rows.
    ///
    /// ```
    /// use bisquepond::{Layout, Row, function, function::FunctionRow};
    ///
    /// let file = [0, 1, 0, 4, 0x0A, 0x80, 1, 0, 0, 0, 0, 0x0A, 1, 2, 3, 4];
    /// let mut words = [7; 20];
    /// let rows = FunctionRow::rows_mut(&mut words);
    /// function::read_functions_into(&file, Layout::Legacy16, 0, 1, rows)?;
    /// assert_eq!(words[..16], [0, 0, 256, 2, 10, 3, 0, 5, 4, 1, 2, 3, 0, 0, 0, 0]);
    /// assert_eq!(words[16..], [function::INLINE, 7, 7, 7]);
    /// # Ok::<(), bisquepond::Refusal>(())
    /// ```
    fn rows_mut(words: &mut [u32]) -> &mut [Self] {
        rows_of_mut(words)
    }
}

pub(crate) fn rows_of<R: Row>(words: &[u32]) -> &[R] {
    let rows = words.len() / R::WORDS;
    // SAFETY: a row is WORDS words, with their alignment, and any words are a row; so many lie in the slice.
    unsafe { core::slice::from_raw_parts(words.as_ptr().cast(), rows) }
}

pub(crate) fn rows_of_mut<R: Row>(words: &mut [u32]) -> &mut [R] {
    let rows = words.len() / R::WORDS;
    // SAFETY: as above; the words are borrowed exclusively for as long as the rows are.
    unsafe { core::slice::from_raw_parts_mut(words.as_mut_ptr().cast(), rows) }
}

fn words_of<R: Row>(rows: &[R]) -> &[u32] {
    // SAFETY: the slice is so many words, each row being WORDS of them and nothing else.
    unsafe { core::slice::from_raw_parts(rows.as_ptr().cast(), rows.len() * R::WORDS) }
}

fn words_of_mut<R: Row>(rows: &mut [R]) -> &mut [u32] {
    // SAFETY: as above; any words are a row, so that whatever is written leaves rows.
    unsafe { core::slice::from_raw_parts_mut(rows.as_mut_ptr().cast(), rows.len() * R::WORDS) }
}

macro_rules! rows {
    ($($(#[$doc:meta])* $row:ident $words:literal)*) => {
        $(
            $(#[$doc])*
            #[repr(transparent)]
            #[derive(Clone, Copy, PartialEq, Eq, Hash)]
            pub struct $row(pub(crate) [u32; $words]);

            // SAFETY: declared so in the lines above.
            unsafe impl Row for $row {
                const WORDS: usize = $words;
            }
        )*
    };
}

rows! {
    /// One function's header, read from its place in the table or from its large header; and which of them it was
    /// ([`large_place`](FunctionRow::large_place)).
    ///
    /// Two rows are equal if all of this is. Whoever writes a row and reads it back may find its large header elsewhere:
    /// then its [`record`](FunctionRow::record) is the same.
    FunctionRow 17
    /// One string: where its bytes lie in the storage, and its marks.
    #[derive(Default)]
    StringRow 4
    /// One exception handler.
    #[derive(Default)]
    HandlerRow 4
    /// One string of the debug section: where its bytes lie in the file.
    #[derive(Default)]
    TextRow 2
    /// One scope of the debug section.
    #[derive(Default)]
    ScopeRow 5
    /// One name of a scope.
    #[derive(Default)]
    NameRow 1
    /// One callee of the debug section.
    #[derive(Default)]
    CalleeRow 2
    /// One series of literals: of which buffer, from where, and how many values. Zeros are no values, and pass anywhere.
    #[derive(Default)]
    SeriesRow 3
}

// SAFETY of every call below: see the head of this file.

pub(crate) fn bits(word: u64, first: u32, width: u32) -> u64 {
    unsafe { sys::hbc_bits(word, first, width) }
}

pub(crate) fn remaining(s: &[u8], at: usize) -> usize {
    unsafe { sys::hbc_remaining(s.as_ptr(), s.len(), at) }
}

pub(crate) fn seek(s: &[u8], at: &mut usize, to: usize) -> Result<()> {
    let code = unsafe { sys::hbc_seek(s.as_ptr(), s.len(), at, to) };
    Refusal::check(code, Place::Nothing).map(drop)
}

pub(crate) fn align(s: &[u8], at: &mut usize, alignment: usize) -> Result<()> {
    let code = unsafe { sys::hbc_align(s.as_ptr(), s.len(), at, alignment) };
    Refusal::check(code, Place::Nothing).map(drop)
}

macro_rules! numbers {
    ($($name:ident = $call:ident -> $kind:ty;)*) => {
        $(
            pub(crate) fn $name(s: &[u8], at: &mut usize) -> Result<$kind> {
                let mut value = Default::default();
                let code = unsafe { sys::$call(s.as_ptr(), s.len(), at, &mut value) };
                Refusal::check(code, Place::Nothing).map(|_| value)
            }
        )*
    };
}

numbers! {
    read_u8 = hbc_read_u8 -> u8;
    read_i8 = hbc_read_i8 -> i8;
    read_u16 = hbc_read_u16 -> u16;
    read_u32 = hbc_read_u32 -> u32;
    read_u64 = hbc_read_u64 -> u64;
    read_i32 = hbc_read_i32 -> i32;
    read_f64 = hbc_read_f64 -> f64;
}

macro_rules! marked {
    ($($name:ident = $call:ident -> $kind:ty;)*) => {
        $(
            pub(crate) fn $name(s: &[u8], at: &mut usize) -> Result<Marked<$kind>> {
                let (mut value, mut exact) = (0, 0);
                let code = unsafe { sys::$call(s.as_ptr(), s.len(), at, &mut value, &mut exact) };
                Refusal::check(code, Place::Nothing).map(|_| Marked { value, exact: exact != 0 })
            }
        )*
    };
}

marked! {
    read_uleb128 = hbc_read_uleb128 -> u64;
    read_sleb128 = hbc_read_sleb128 -> i64;
}

macro_rules! parts {
    ($($name:ident = $call:ident($($len:ident)?);)*) => {
        $(
            pub(crate) fn $name<'a>(s: &'a [u8], at: &mut usize, $($len: usize)?) -> Result<&'a [u8]> {
                let (mut start, mut size) = (0, 0);
                let code = unsafe { sys::$call(s.as_ptr(), s.len(), at, $($len,)? &mut start, &mut size) };
                Refusal::check(code, Place::Nothing).map(|_| &s[start..][..size])
            }
        )*
    };
}

parts! {
    read_bytes = hbc_read_bytes(len);
    read_cstring = hbc_read_cstring();
}

pub(crate) fn read_length_prefixed_string<'a>(
    s: &'a [u8],
    at: &mut usize,
) -> Result<Marked<&'a [u8]>> {
    let (lent, len) = (s.as_ptr(), s.len());
    let (mut start, mut size, mut exact) = (0, 0, 0);
    let code = unsafe {
        sys::hbc_read_length_prefixed_string(lent, len, at, &mut start, &mut size, &mut exact)
    };
    Refusal::check(code, Place::Nothing).map(|_| Marked {
        value: &s[start..][..size],
        exact: exact != 0,
    })
}

macro_rules! tables {
    ($($name:ident = $call:ident;)*) => {
        $(
            pub(crate) fn $name(s: &[u8], at: &mut usize, count: u32, words: &mut [u32]) -> Result<()> {
                let (lent, len) = (words.as_mut_ptr(), words.len());
                let code = unsafe { sys::$call(s.as_ptr(), s.len(), at, count, lent, len) };
                Refusal::check(code, Place::Entries).map(drop)
            }
        )*
    };
}

tables! {
    read_u32_table = hbc_read_u32_table;
    read_pair_table = hbc_read_pair_table;
}

macro_rules! strings {
    ($($name:ident = $call:ident, $place:ident;)*) => {
        $(
            pub(crate) fn $name(
                count: u32,
                [kinds, small, overflow]: [&[u32]; 3],
                storage: &[u8],
                rows: &mut [StringRow],
            ) -> Result<u32> {
                let rows = words_of_mut(rows);
                let code = unsafe {
                    sys::$call(
                        count,
                        kinds.as_ptr(),
                        kinds.len(),
                        small.as_ptr(),
                        small.len(),
                        overflow.as_ptr(),
                        overflow.len(),
                        storage.as_ptr(),
                        storage.len(),
                        rows.as_mut_ptr(),
                        rows.len(),
                    )
                };
                Refusal::check(code, Place::$place)
            }
        )*
    };
}

strings! {
    decode_strings = hbc_decode_strings, String;
    decode_strings_hermes = hbc_decode_strings_hermes, HermesString;
}

pub(crate) fn string_bytes<'a>(storage: &'a [u8], rows: &[StringRow], index: usize) -> &'a [u8] {
    let (words, mut start, mut len) = (words_of(rows), 0, 0);
    unsafe {
        sys::hbc_string_bytes(
            storage.as_ptr(),
            storage.len(),
            words.as_ptr(),
            words.len(),
            index,
            &mut start,
            &mut len,
        )
    };
    &storage[start..][..len]
}

/// The text stands at the front of what is lent: so many bytes.
fn text_len(storage: &[u8], rows: &[StringRow], index: usize, out: &mut [u8]) -> Result<usize> {
    let (s, len, words) = (storage.as_ptr(), storage.len(), words_of(rows));
    let (read, read_len) = (words.as_ptr(), words.len());
    let (lent, room) = (out.as_mut_ptr(), out.len());
    let code = unsafe { sys::hbc_string_text(s, len, read, read_len, index, lent, room) };
    Refusal::check(code, Place::Text).map(|bytes| bytes as usize)
}

pub(crate) fn string_text<'t>(
    storage: &[u8],
    rows: &[StringRow],
    index: usize,
    out: &'t mut [u8],
) -> Result<&'t str> {
    let len = text_len(storage, rows, index, out)?;
    let text = &out[..len];
    debug_assert!(str::from_utf8(text).is_ok());
    // SAFETY: the text that the archive wrote is proved to be well-formed UTF-8.
    Ok(unsafe { str::from_utf8_unchecked(text) })
}

/// The text, in as many of these bytes as it has.
pub(crate) fn string_text_of(
    storage: &[u8],
    rows: &[StringRow],
    index: usize,
    mut out: Vec<u8>,
) -> Result<String> {
    let len = text_len(storage, rows, index, &mut out)?;
    out.truncate(len);
    out.shrink_to_fit();
    debug_assert!(str::from_utf8(&out).is_ok());
    // SAFETY: as above.
    Ok(unsafe { String::from_utf8_unchecked(out) })
}

/// The kind, the float and the word; what the kind does not speak of is 0.
pub(crate) fn read_literal(s: &[u8], at: &mut usize, tag: u8) -> Result<(u32, f64, u32)> {
    let (mut kind, mut number, mut word) = (0, 0.0, 0);
    let code = unsafe {
        sys::hbc_read_literal(
            s.as_ptr(),
            s.len(),
            at,
            tag,
            &mut kind,
            &mut number,
            &mut word,
        )
    };
    Refusal::check(code, Place::Nothing).map(|_| (kind, number, word))
}

pub(crate) fn read_series(
    s: &[u8],
    offset: u32,
    count: u32,
    kinds: &mut [u32],
    payloads: &mut [u64],
) -> Result<u32> {
    let (kinds_len, payloads_len) = (kinds.len(), payloads.len());
    let (kinds, payloads) = (kinds.as_mut_ptr(), payloads.as_mut_ptr());
    let code = unsafe {
        sys::hbc_read_series(
            s.as_ptr(),
            s.len(),
            offset,
            count,
            kinds,
            kinds_len,
            payloads,
            payloads_len,
        )
    };
    Refusal::check(code, Place::Values)
}

pub(crate) fn read_object(
    [keys, values]: [&[u8]; 2],
    of_keys: bool,
    offset: u32,
    count: u32,
    kinds: &mut [u32],
    payloads: &mut [u64],
) -> Result<u32> {
    let (kinds_len, payloads_len) = (kinds.len(), payloads.len());
    let (kinds, payloads) = (kinds.as_mut_ptr(), payloads.as_mut_ptr());
    let code = unsafe {
        sys::hbc_read_object(
            keys.as_ptr(),
            keys.len(),
            values.as_ptr(),
            values.len(),
            of_keys.into(),
            offset,
            count,
            kinds,
            kinds_len,
            payloads,
            payloads_len,
        )
    };
    Refusal::check(code, Place::Values)
}

pub(crate) fn read_functions(
    file: &[u8],
    layout: u32,
    start: usize,
    count: u32,
    rows: &mut [FunctionRow],
) -> Result<(u32, Totals)> {
    let (s, len, rows) = (file.as_ptr(), file.len(), words_of_mut(rows));
    let (lent, words, mut totals) = (rows.as_mut_ptr(), rows.len(), Totals::default());
    let Totals { large, sizes } = &mut totals;
    let code =
        unsafe { sys::hbc_read_functions(s, len, layout, start, count, lent, words, large, sizes) };
    Refusal::check(code, Place::Function).map(|read| (read, totals))
}

pub(crate) fn refresh_functions(
    file: &[u8],
    layout: u32,
    start: usize,
    count: u32,
    (low, high): (usize, usize),
    rows: &mut [FunctionRow],
    totals: &mut Totals,
) -> Result<u32> {
    let (s, len, rows) = (file.as_ptr(), file.len(), words_of_mut(rows));
    let (lent, words) = (rows.as_mut_ptr(), rows.len());
    let Totals { large, sizes } = totals;
    let code = unsafe {
        sys::hbc_refresh_functions(
            s, len, layout, start, count, low, high, lent, words, large, sizes,
        )
    };
    Refusal::check(code, Place::Function)
}

pub(crate) fn read_function(
    file: &[u8],
    layout: u32,
    start: usize,
    id: u32,
) -> Result<FunctionRow> {
    let mut row = FunctionRow::default();
    let (s, len, lent) = (file.as_ptr(), file.len(), &mut row.0);
    let (lent, words) = (lent.as_mut_ptr(), lent.len());
    let code = unsafe { sys::hbc_read_function(s, len, layout, start, id, lent, words) };
    Refusal::check(code, Place::Function).map(|_| row)
}

/// The header's place, and the large header's or `usize::MAX`.
pub(crate) fn function_ground(
    file: &[u8],
    layout: u32,
    start: usize,
    id: u32,
) -> Result<(usize, usize), Refusal> {
    let (s, len, mut header, mut large) = (file.as_ptr(), file.len(), 0, 0);
    let code =
        unsafe { sys::hbc_function_ground(s, len, layout, start, id, &mut header, &mut large) };
    Refusal::check(code, Place::Function).map(|_| (header, large))
}

pub(crate) fn function_meets(
    file: &[u8],
    layout: u32,
    start: usize,
    id: u32,
    (low, high): (usize, usize),
) -> Result<bool> {
    let (s, len) = (file.as_ptr(), file.len());
    let code = unsafe { sys::hbc_function_meets(s, len, layout, start, id, low, high) };
    Refusal::check(code, Place::Function).map(|met| met != 0)
}

/// Where what was written ends.
pub(crate) fn write_functions(
    rows: &[FunctionRow],
    layout: u32,
    start: usize,
    count: u32,
    large: usize,
    buffer: &mut [u8],
) -> Result<u32> {
    let (rows, len) = (words_of(rows), buffer.len());
    let (read, words, lent) = (rows.as_ptr(), rows.len(), buffer.as_mut_ptr());
    let code =
        unsafe { sys::hbc_write_functions(read, words, layout, start, count, large, lent, len) };
    Refusal::check(code, Place::Row)
}

/// How many rows were written.
pub(crate) fn read_handlers(
    file: &[u8],
    functions: &[FunctionRow],
    count: u32,
    rows: &mut [HandlerRow],
) -> Result<usize> {
    let (s, len, mut total) = (file.as_ptr(), file.len(), 0);
    let (functions, rows) = (words_of(functions), words_of_mut(rows));
    let (read, read_len) = (functions.as_ptr(), functions.len());
    let (lent, words) = (rows.as_mut_ptr(), rows.len());
    let code =
        unsafe { sys::hbc_read_handlers(s, len, read, read_len, count, lent, words, &mut total) };
    Refusal::check(code, Place::Nothing).map(|_| total)
}

/// The answer's number, 0 where handlers are shown; and how many are, 0 where there is a reason.
pub(crate) fn why_no_handlers(
    file: &[u8],
    functions: &[FunctionRow],
    id: u32,
) -> Result<(u32, u32)> {
    let (s, len, functions) = (file.as_ptr(), file.len(), words_of(functions));
    let (read, words, mut handlers) = (functions.as_ptr(), functions.len(), 0);
    let code = unsafe { sys::hbc_why_no_handlers(s, len, read, words, id, &mut handlers) };
    Refusal::check(code, Place::OneFunction).map(|why| (why, handlers))
}

/// The five sections, four words each.
pub(crate) fn trailing_sections(
    file: &[u8],
    start: usize,
    [regexps, storage, cjs]: [u32; 3],
    sources: Option<u32>,
) -> Result<[[u32; 4]; 5]> {
    let mut rows = [[0; 4]; 5];
    let (s, len, lent) = (file.as_ptr(), file.len(), rows.as_flattened_mut());
    let (lent, words) = (lent.as_mut_ptr(), lent.len());
    let (given, sources) = (sources.is_some(), sources.unwrap_or(0));
    let code = unsafe {
        sys::hbc_trailing_sections(
            s, len, start, regexps, storage, cjs, given, sources, lent, words,
        )
    };
    Refusal::check(code, Place::Nothing).map(|_| rows)
}

/// How many rows were written in each table, and whether all numbers were exact.
pub(crate) fn read_debug(
    file: &[u8],
    offset: u32,
    strings: &mut [TextRow],
    scopes: &mut [ScopeRow],
    names: &mut [NameRow],
    callees: &mut [CalleeRow],
) -> Result<([usize; 4], bool)> {
    let (strings, scopes) = (words_of_mut(strings), words_of_mut(scopes));
    let (names, callees) = (words_of_mut(names), words_of_mut(callees));
    let (mut counts, mut exact) = ([0; 4], 0);
    let [string_count, scope_count, name_count, callee_count] = &mut counts;
    let code = unsafe {
        sys::hbc_read_debug(
            file.as_ptr(),
            file.len(),
            offset,
            strings.as_mut_ptr(),
            strings.len(),
            scopes.as_mut_ptr(),
            scopes.len(),
            names.as_mut_ptr(),
            names.len(),
            callees.as_mut_ptr(),
            callees.len(),
            string_count,
            scope_count,
            name_count,
            callee_count,
            &mut exact,
        )
    };
    Refusal::check(code, Place::Nothing).map(|_| (counts, exact != 0))
}

/// The number of the broken rule and its place; both are 0 where the bundle is clean.
pub(crate) fn check_bundle(bundle: &Bundle<'_>) -> Result<(u32, u32)> {
    let (file, strings, objects) = (bundle.file, bundle.strings, bundle.objects);
    let (overflow, series) = (strings.overflow.as_flattened(), words_of(bundle.series));
    let mut place = 0;
    let code = unsafe {
        sys::hbc_check_bundle(
            file.as_ptr(),
            file.len(),
            bundle.layout.into(),
            bundle.start,
            bundle.count,
            strings.kinds.as_ptr(),
            strings.kinds.len(),
            bundle.string_count,
            strings.small.as_ptr(),
            strings.small.len(),
            overflow.as_ptr(),
            overflow.len(),
            strings.storage.as_ptr(),
            strings.storage.len(),
            objects.keys.as_ptr(),
            objects.keys.len(),
            objects.values.as_ptr(),
            objects.values.len(),
            series.as_ptr(),
            series.len(),
            &mut place,
        )
    };
    Refusal::check(code, Place::Nothing).map(|rule| (rule, place))
}
