//! The C calls of libhbc_c.a, as they are. include/hbc.h says what each takes and answers, and what its caller owes it;
//! the other modules are safe calls over these.

#![allow(missing_docs, unsafe_code)]

/// The refusal number of an answer, 0 if accepted: `HBC_NUMBER`.
///
/// ```
/// assert_eq!(bisquepond::sys::number(3 << 32 | 7), 3);
/// ```
pub const fn number(code: u64) -> u32 {
    (code >> 32) as u32
}

/// The place of an answer: `HBC_PLACE`.
///
/// ```
/// assert_eq!(bisquepond::sys::place(3 << 32 | 7), 7);
/// ```
pub const fn place(code: u64) -> u32 {
    code as u32
}

/// The most bytes that are read, and that a buffer of headers may have: a longer slice is refused 1. `HBC_LIMIT`.
///
/// ```
/// assert_eq!(bisquepond::sys::LIMIT, 1 << 30);
/// ```
pub const LIMIT: usize = 1 << 30;

#[rustfmt::skip]
unsafe extern "C" {
    pub fn hbc_bits(word: u64, first: u32, width: u32) -> u64;

    pub fn hbc_remaining(s: *const u8, s_len: usize, at: usize) -> usize;
    pub fn hbc_seek(s: *const u8, s_len: usize, at: *mut usize, to: usize) -> u64;
    pub fn hbc_align(s: *const u8, s_len: usize, at: *mut usize, alignment: usize) -> u64;

    pub fn hbc_read_u8(s: *const u8, s_len: usize, at: *mut usize, value: *mut u8) -> u64;
    pub fn hbc_read_i8(s: *const u8, s_len: usize, at: *mut usize, value: *mut i8) -> u64;
    pub fn hbc_read_u16(s: *const u8, s_len: usize, at: *mut usize, value: *mut u16) -> u64;
    pub fn hbc_read_u32(s: *const u8, s_len: usize, at: *mut usize, value: *mut u32) -> u64;
    pub fn hbc_read_u64(s: *const u8, s_len: usize, at: *mut usize, value: *mut u64) -> u64;
    pub fn hbc_read_i32(s: *const u8, s_len: usize, at: *mut usize, value: *mut i32) -> u64;
    pub fn hbc_read_f64(s: *const u8, s_len: usize, at: *mut usize, value: *mut f64) -> u64;
    pub fn hbc_read_uleb128(s: *const u8, s_len: usize, at: *mut usize, value: *mut u64, exact: *mut u32) -> u64;
    pub fn hbc_read_sleb128(s: *const u8, s_len: usize, at: *mut usize, value: *mut i64, exact: *mut u32) -> u64;

    pub fn hbc_read_bytes(s: *const u8, s_len: usize, at: *mut usize, len: usize, start: *mut usize, size: *mut usize) -> u64;
    pub fn hbc_read_cstring(s: *const u8, s_len: usize, at: *mut usize, start: *mut usize, size: *mut usize) -> u64;
    pub fn hbc_read_length_prefixed_string(s: *const u8, s_len: usize, at: *mut usize, start: *mut usize, size: *mut usize, exact: *mut u32) -> u64;

    pub fn hbc_read_u32_table(s: *const u8, s_len: usize, at: *mut usize, count: u32, table: *mut u32, table_len: usize) -> u64;
    pub fn hbc_read_pair_table(s: *const u8, s_len: usize, at: *mut usize, count: u32, table: *mut u32, table_len: usize) -> u64;
    pub fn hbc_decode_strings(count: u32, kinds: *const u32, kinds_len: usize, small: *const u32, small_len: usize, overflow: *const u32, overflow_len: usize, storage: *const u8, storage_len: usize, rows: *mut u32, rows_len: usize) -> u64;
    pub fn hbc_decode_strings_hermes(count: u32, kinds: *const u32, kinds_len: usize, small: *const u32, small_len: usize, overflow: *const u32, overflow_len: usize, storage: *const u8, storage_len: usize, rows: *mut u32, rows_len: usize) -> u64;
    pub fn hbc_string_bytes(storage: *const u8, storage_len: usize, rows: *const u32, rows_len: usize, index: usize, start: *mut usize, len: *mut usize);
    pub fn hbc_string_text(storage: *const u8, storage_len: usize, rows: *const u32, rows_len: usize, index: usize, out: *mut u8, out_len: usize) -> u64;

    pub fn hbc_read_literal(s: *const u8, s_len: usize, at: *mut usize, tag: u8, kind: *mut u32, number: *mut f64, word: *mut u32) -> u64;
    pub fn hbc_read_series(s: *const u8, s_len: usize, offset: u32, count: u32, kinds: *mut u32, kinds_len: usize, payloads: *mut u64, payloads_len: usize) -> u64;
    pub fn hbc_read_object(keys: *const u8, keys_len: usize, values: *const u8, values_len: usize, of_keys: u32, offset: u32, count: u32, kinds: *mut u32, kinds_len: usize, payloads: *mut u64, payloads_len: usize) -> u64;

    pub fn hbc_read_functions(file: *const u8, file_len: usize, layout: u32, start: usize, count: u32, table: *mut u32, table_len: usize, large: *mut u64, sizes: *mut u64) -> u64;
    pub fn hbc_refresh_functions(file: *const u8, file_len: usize, layout: u32, start: usize, count: u32, low: usize, high: usize, table: *mut u32, table_len: usize, large: *mut u64, sizes: *mut u64) -> u64;
    pub fn hbc_read_function(file: *const u8, file_len: usize, layout: u32, start: usize, id: u32, table: *mut u32, table_len: usize) -> u64;
    pub fn hbc_function_ground(file: *const u8, file_len: usize, layout: u32, start: usize, id: u32, header: *mut usize, large: *mut usize) -> u64;
    pub fn hbc_function_meets(file: *const u8, file_len: usize, layout: u32, start: usize, id: u32, low: usize, high: usize) -> u64;
    pub fn hbc_write_functions(rows: *const u32, rows_len: usize, layout: u32, start: usize, count: u32, large: usize, buffer: *mut u8, buffer_len: usize) -> u64;

    pub fn hbc_read_handlers(file: *const u8, file_len: usize, functions: *const u32, functions_len: usize, count: u32, rows: *mut u32, rows_len: usize, total: *mut usize) -> u64;
    pub fn hbc_why_no_handlers(file: *const u8, file_len: usize, functions: *const u32, functions_len: usize, id: u32, handlers: *mut u32) -> u64;
    pub fn hbc_trailing_sections(file: *const u8, file_len: usize, start: usize, regexps: u32, storage: u32, cjs: u32, with_sources: bool, sources: u32, rows: *mut u32, rows_len: usize) -> u64;

    pub fn hbc_read_debug(file: *const u8, file_len: usize, offset: u32, strings: *mut u32, strings_len: usize, scopes: *mut u32, scopes_len: usize, names: *mut u32, names_len: usize, callees: *mut u32, callees_len: usize, string_count: *mut usize, scope_count: *mut usize, name_count: *mut usize, callee_count: *mut usize, exact: *mut u32) -> u64;

    pub fn hbc_check_bundle(file: *const u8, file_len: usize, layout: u32, start: usize, count: u32, kinds: *const u32, kinds_len: usize, strings: u32, small: *const u32, small_len: usize, overflow: *const u32, overflow_len: usize, storage: *const u8, storage_len: usize, keys: *const u8, keys_len: usize, values: *const u8, values_len: usize, series: *const u32, series_len: usize, place: *mut u32) -> u64;
}
