/* The C calls of Bisquepond, a proved reader of Hermes bytecode tables. C99 or C++. Link with libhbc_c.a, the archive
 * for your machine: rust/archive makes it, rust/ship a folder with it and this file.
 *
 * Common to all calls
 *
 * - Bytes that are lent are a pointer and a count: `s`, `s_len`. The pointer must stand for that many bytes, and must
 *   not be NULL, not even where the count is 0. A table is lent in the same way, `table` and `table_len`; the count is
 *   one of words, not of rows or bytes. Where they are const they are only read: all bytes are but the `buffer` of
 *   hbc_write_functions and the `out` of hbc_string_text, which are buffers.
 * - A number that is lent (`size_t *at`, `uint32_t *value`, ..), and a table or a buffer that is not const, must not be
 *   NULL, and must not overlap the bytes or anything else that is lent.
 * - Tables and numbers are aligned as their type is: 4 bytes for uint32_t, 8 for uint64_t, size_t and double. Bytes may
 *   lie anywhere.
 * - `at` is the cursor: the position in the bytes, from 0. It is read, and holds the cursor afterwards. It may hold
 *   any number.
 * - The answer is one number: where the call is accepted 0, or a number below 2^32 if it says so below; else the
 *   refusal's number times 2^32, plus its place. HBC_NUMBER and HBC_PLACE take it apart. The place is 0 unless it is
 *   named below.
 * - A value is written only where the call is accepted; a refused call leaves the lent values (`*start`, `*size`,
 *   `*exact`, `*large`, `*sizes` and `*place` among them), every word of the lent tables and every byte of a buffer as they were,
 *   and the cursor too, unless it says otherwise below.
 * - Every call ends, on every input, and never reads or writes outside what is lent.
 * - Nothing is allocated, and no call has data of its own: calls on different tables and numbers may run in parallel,
 *   on the same bytes too. What the archive needs besides is memcpy and memset.
 */
#ifndef HBC_H
#define HBC_H

#include <stdbool.h>
#include <stddef.h>
#include <stdint.h>

/* What this header and its archive are: the two must be of one version, and no linker sees where they are not. Since
 * 0.2.0 hbc_read_uleb128, hbc_read_sleb128, hbc_read_length_prefixed_string and hbc_read_debug have one parameter more,
 * the last, `exact`; since 0.3.0 there is hbc_string_text, since 0.4.0 hbc_why_no_handlers; since 0.5.0 a function's row
 * has 17 words where it had 16, so that a program that lends or reads such rows must be compiled again; since 0.6.0
 * hbc_read_functions and hbc_refresh_functions have two parameters more, the last, `large` and `sizes`; since 0.7.0 there
 * is hbc_check_bundle. */
#define HBC_VERSION "0.7.0"
#define HBC_VERSION_MAJOR 0
#define HBC_VERSION_MINOR 7
#define HBC_VERSION_PATCH 0

/* The refusal's number in an answer, 0 if it was accepted; and its place. */
#define HBC_NUMBER(code) ((uint32_t)((uint64_t)(code) >> 32))
#define HBC_PLACE(code) ((uint32_t)(uint64_t)(code))

/* Refusals, in the order in which they are looked for; below, a call names them by number. */
#define HBC_REFUSED_NO_SUCH_LAYOUT 12   /* a layout that there is not */
#define HBC_REFUSED_TOO_LONG 1          /* more than HBC_LIMIT bytes are lent */
#define HBC_REFUSED_ZERO_ALIGNMENT 6    /* alignment 0 */
#define HBC_REFUSED_PAST_END 2          /* the cursor or a start stands past the end; or a seek or align goes past it */
#define HBC_REFUSED_SERIES_PAST_END 7   /* a series begins at or past the end, and is not empty */
#define HBC_REFUSED_BAD_SPAN 10         /* a span is reversed, or goes past the end */
#define HBC_REFUSED_TOO_FEW_TO_READ 11  /* fewer rows are lent to be read than the count or the row's number needs */
#define HBC_REFUSED_BAD_ROW 13          /* a row to be written says what no header of its layout can */
#define HBC_REFUSED_BAD_INFO_OFFSET 14  /* a modern row's info_offset is not its large header's end, rounded up to 4 */
#define HBC_REFUSED_LARGE_BEFORE_END 15 /* the place for large headers is before the table's end */
#define HBC_REFUSED_TOO_FEW_ROWS 4      /* a lent table has too few rows, or the buffer too few bytes */
#define HBC_REFUSED_CUT 3               /* a read needs bytes past the end */
#define HBC_REFUSED_LEB128_TOO_LONG 5   /* the tenth byte of a LEB128 number has bit 7 set */
#define HBC_REFUSED_NO_OVERFLOW_PAIR 8  /* no overflow entry is left; in Hermes mode, none has the field's number */
#define HBC_REFUSED_NO_ZERO 9           /* a zero-ended string has no zero */
#define HBC_REFUSED_BAD_TOTALS 16       /* a total falls below 0 by what is taken out, or is above 2^63 - 1 */

/* The most bytes that are read, and that the buffer of hbc_write_functions may have. */
#define HBC_LIMIT 1073741824

/* The word that stands for no parent and for no such string. */
#define HBC_NONE 4294967295u

#ifdef __cplusplus
extern "C" {
#endif

/* ---- Bits ---- */

/* The `width` bits of `word` from bit `first`, the least bit being bit 0. Bits past the word are 0, so any `first` and
 * `width` will do. This is the field itself, not an answer with a refusal. */
uint64_t hbc_bits(uint64_t word, uint32_t first, uint32_t width);

/* ---- The cursor ---- */

/* How many bytes stand from `at` to the end; 0 where it stands past the end. This is the count itself, not an answer
 * with a refusal, and any count of bytes may be lent. */
size_t hbc_remaining(const uint8_t *s, size_t s_len, size_t at);

/* Moves the cursor to `to`, from wherever it stands, also from past the end.
 * Refused 1; 2 if `to` is past the end (the end itself is not). */
uint64_t hbc_seek(const uint8_t *s, size_t s_len, size_t *at, size_t to);

/* Moves the cursor to the next multiple of `alignment`, not at all if it stands on one.
 * Refused 1; 6 if `alignment` is 0; 2 if the cursor or that multiple is past the end. */
uint64_t hbc_align(const uint8_t *s, size_t s_len, size_t *at, size_t alignment);

/* ---- Numbers of fixed width ----
 *
 * Each reads the bytes at the cursor, the least first, and moves the cursor behind them. Signed numbers are in two's
 * complement; a double is that of its eight bytes (IEEE 754, binary64), where a NaN comes out as a NaN of any bits.
 * Refused 1; 2 if the cursor is past the end; 3 if fewer bytes are left than the number has. */
uint64_t hbc_read_u8(const uint8_t *s, size_t s_len, size_t *at, uint8_t *value);
uint64_t hbc_read_i8(const uint8_t *s, size_t s_len, size_t *at, int8_t *value);
uint64_t hbc_read_u16(const uint8_t *s, size_t s_len, size_t *at, uint16_t *value);
uint64_t hbc_read_u32(const uint8_t *s, size_t s_len, size_t *at, uint32_t *value);
uint64_t hbc_read_u64(const uint8_t *s, size_t s_len, size_t *at, uint64_t *value);
uint64_t hbc_read_i32(const uint8_t *s, size_t s_len, size_t *at, int32_t *value);
uint64_t hbc_read_f64(const uint8_t *s, size_t s_len, size_t *at, double *value);

/* ---- LEB128 numbers (DWARF 5, section 7.6) ----
 *
 * At most ten bytes are looked at. The value is the low 64 bits of the number: bits that the tenth byte has beyond them
 * are lost, and a signed number of ten bytes takes no sign from its tenth byte but the one bit it keeps.
 * `*exact` says whether that happened: 1 if the value is the number, 0 if bits of it were lost. It is 0 exactly if there
 * is a tenth byte and it is above 1, unsigned, or neither 00 nor 7F, signed. Like the value it is written only where the
 * call is accepted.
 * Refused 1; 2 if the cursor is past the end; 3 if the bytes end before the number does; 5 if the tenth byte has bit 7
 * set. Refused 3 or 5 the cursor stands after the last byte looked at. */
uint64_t hbc_read_uleb128(const uint8_t *s, size_t s_len, size_t *at, uint64_t *value, uint32_t *exact);
uint64_t hbc_read_sleb128(const uint8_t *s, size_t s_len, size_t *at, int64_t *value, uint32_t *exact);

/* ---- Parts of the bytes ----
 *
 * Each answers a part of the bytes lent: `*start` is where it begins, `*size` how many bytes it has. Nothing is
 * copied, and its text is not looked at. */

/* The `len` bytes at the cursor, which moves behind them.
 * Refused 1; 2 if the cursor is past the end; 3 if fewer than `len` bytes are left. */
uint64_t hbc_read_bytes(const uint8_t *s, size_t s_len, size_t *at, size_t len, size_t *start, size_t *size);

/* The bytes from the cursor to the next zero byte, without it; the cursor moves behind the zero.
 * Refused 1; 2 if the cursor is past the end; 9 if there is no zero: the cursor then stands at the end. */
uint64_t hbc_read_cstring(const uint8_t *s, size_t s_len, size_t *at, size_t *start, size_t *size);

/* A length as hbc_read_uleb128 reads it, then that many bytes, which are the part; the cursor moves behind them.
 * `*exact` is that of the length: 0 if the part has as many bytes as the low 64 bits of a longer number say.
 * Refused as hbc_read_uleb128, with the cursor as it leaves it; or 3 if fewer bytes are left than the length says: the
 * cursor then stands after the length, and `*exact` stays. */
uint64_t hbc_read_length_prefixed_string(const uint8_t *s, size_t s_len, size_t *at, size_t *start, size_t *size,
                                         uint32_t *exact);

/* ---- Function tables ----
 *
 * A layout is a number: 0 legacy (headers of 16 bytes), 1 modern (12). A row is HBC_FUNCTION_WORDS words, named below;
 * words 12 to 15 of a legacy row are 0. Word 0 is the layout, word 1 the function's number. The last word says where the
 * function's large header is, or that it has none.
 *
 * `start` is the byte of the file at which the table of headers begins. A header with bit 5 of its flags set is read
 * from its large header, at the place packed into it.
 *
 * Two totals are kept beside a table, over its first `count` rows: `*large`, how many of them were read from large
 * headers, which are those whose last word is not HBC_INLINE, and `*sizes`, the sum of their sizes (HBC_FUNCTION_SIZE).
 * hbc_read_functions sets them, whatever they were, and hbc_refresh_functions brings them up to date: totals that are
 * true of the first `count` rows lent are so after it. Lend it the two numbers that the last accepted call with this
 * table and this count left. Of rows that came about otherwise, or of another count, add them up first; a row of zeros,
 * as in a table that was cleared, counts as large, since its last word is not HBC_INLINE.
 *
 * Refused 12 before all else if `layout` is neither 0 nor 1. */
#define HBC_LAYOUT_LEGACY16 0
#define HBC_LAYOUT_MODERN12 1

#define HBC_FUNCTION_WORDS 17
#define HBC_FUNCTION_LAYOUT 0
#define HBC_FUNCTION_ID 1
#define HBC_FUNCTION_OFFSET 2
#define HBC_FUNCTION_PARAM_COUNT 3
#define HBC_FUNCTION_SIZE 4
#define HBC_FUNCTION_NAME 5
#define HBC_FUNCTION_INFO_OFFSET 6
#define HBC_FUNCTION_FRAME_SIZE 7
#define HBC_FUNCTION_FLAGS 8
/* of a legacy row */
#define HBC_FUNCTION_ENVIRONMENT_SIZE 9
#define HBC_FUNCTION_READ_INDEX 10
#define HBC_FUNCTION_WRITE_INDEX 11
/* of a modern row */
#define HBC_FUNCTION_LOOP_DEPTH 9
#define HBC_FUNCTION_NUMBER_REG 10
#define HBC_FUNCTION_NON_PTR_REG 11
#define HBC_FUNCTION_READ_CACHE 12
#define HBC_FUNCTION_WRITE_CACHE 13
#define HBC_FUNCTION_NEW_OBJECT 14
#define HBC_FUNCTION_PRIVATE_NAME 15
/* of any row: the place in the file of the large header that it was read from, or HBC_INLINE if it was read from its own
 * header: this word, and not the overflow bit of the flags, tells which. A place that was read from is below HBC_LIMIT,
 * so that the two cannot be confused. HBC_INLINE is a number of 32 bits, and not HBC_NO_PLACE of hbc_function_ground. */
#define HBC_FUNCTION_LARGE_PLACE 16
#define HBC_INLINE 4294967295u

/* Bits of the flags word; the overflow bit is the one of the header that the row was read from. */
#define HBC_FLAG_STRICT 0x01
#define HBC_FLAG_HAS_EXCEPTION_HANDLER 0x08
#define HBC_FLAG_PROHIBIT_CONSTRUCT 0x10
#define HBC_FLAG_OVERFLOWED 0x20

/* Reads functions 0 to count - 1 into rows 0 to count - 1 of `table`. Accepted, the answer is `count`, and `*large` and
 * `*sizes` are the totals of these rows; words past the rows stay. What the totals are before is not looked at.
 * Refused 12; 1; 2 if `start` is past the end; 4 if the table has fewer than `count` rows; then, with the first
 * function that cannot be read as place, 2 if its packed place is past the end, 3 if its header or its large header
 * runs past the end. */
uint64_t hbc_read_functions(const uint8_t *file, size_t file_len, uint32_t layout, size_t start, uint32_t count,
                            uint32_t *table, size_t table_len, uint64_t *large, uint64_t *sizes);

/* Brings a table up to date after the bytes from `low` up to `high` of the file changed, and nothing else: reads again
 * those of the `count` functions that meet this span, from the file as it is now, into their rows. A function meets it
 * if its header, or its large header if it is flagged, shares a byte with it; an empty span meets nothing.
 * Accepted, the answer is how many were read again, and hbc_function_meets says which; every other word stays. Of each
 * of these, in rising order, both totals lose what the row has in them as it was lent, and then gain what it has as it
 * is now: 1 or 0, and its size. Where none is read again the totals stay, and are not looked at.
 * Refused, no row is written, the totals stay, and the edit is not taken in: a later call with another span would leave
 * its rows out of date. Undo the edit before the next call, or let the span of that call hold this one too. If the
 * length of the file changed, read the table anew.
 * Two edits may both be in the file, each refreshed over its own span, whatever the two spans are: in either order each
 * call answers the same, and the table and the totals are the same in the end, if the totals were those of the rows. A
 * function that meets both spans is counted by both. Rows that were read before both edits are a fresh read's in the end
 * if both calls are accepted. Of a call that is refused nothing stays, and the other does what it would do alone; but
 * what it reads it reads with both edits in the file. So if another call was accepted since, an edit that is undone or
 * put right is refreshed over its own span again; the other's need not be.
 * Refused 12; 1; 2 if `start` is past the end; 10 if `low` is above `high`, or `high` past the end; 4 as above; 3 with
 * the first function whose header is not wholly in the file as place, whether it meets the span or not; then 2 or 3 as
 * above for the first function that meets the span and cannot be read; and after all these reads 16, with the first
 * function read again as place at which a total falls below 0 by what it loses, or is above 2^63 - 1 after what it
 * gains, be it a total that this row does not change. 16 says that the totals lent are not those of the rows lent: it
 * does not occur where they are. Add them up, or read the table anew. */
uint64_t hbc_refresh_functions(const uint8_t *file, size_t file_len, uint32_t layout, size_t start, uint32_t count,
                               size_t low, size_t high, uint32_t *table, size_t table_len, uint64_t *large,
                               uint64_t *sizes);

/* Reads function `id` alone, into row 0 of `table`. Accepted, the answer is 1; words past that row stay.
 * Refused 12; 1; 2 at place 0 if `start` is past the end; 4 if no row is lent; 2 or 3 with `id` as place. */
uint64_t hbc_read_function(const uint8_t *file, size_t file_len, uint32_t layout, size_t start, uint32_t id,
                           uint32_t *table, size_t table_len);

/* Where function `id` is read from. Accepted, the answer is 0, `*header` is the place of its header and `*large` that of
 * its large header, which may be past the end, or HBC_NO_PLACE if it has none; refused, both stay.
 * Refused 12; 1; 2 at place 0 if `start` is past the end; 3 with `id` as place if its header is not wholly in the
 * file. */
#define HBC_NO_PLACE SIZE_MAX
uint64_t hbc_function_ground(const uint8_t *file, size_t file_len, uint32_t layout, size_t start, uint32_t id,
                             size_t *header, size_t *large);

/* Whether function `id` meets the bytes from `low` up to `high`: 1 if so, 0 if not.
 * Refused 12; 1; 2 at place 0 if `start` is past the end; 10 if `low` is above `high`, or `high` past the end; 3 with
 * `id` as place if its header is not wholly in the file. */
uint64_t hbc_function_meets(const uint8_t *file, size_t file_len, uint32_t layout, size_t start, uint32_t id,
                            size_t low, size_t high);

/* Writes rows 0 to count - 1 of `rows` as a table of headers into `buffer`, from byte `start` on: hbc_read_functions
 * with the same layout, start and count reads these rows back from it, with the last word of each saying where its large
 * header is now, or HBC_INLINE. What that word is in `rows` is not looked at: any number will do. It is not written either:
 * rows that were read elsewhere still say where that was. Read them from the buffer before you go by their places.
 *
 * A row goes inline, into its header alone, exactly if bit 5 of its flags is clear, a modern one's info_offset is 0,
 * and no field has more bits than the header has for it: in a legacy one offset 25, param_count 7, size 15, name 17,
 * info_offset 25, frame_size 7, environment_size, read_index, write_index and flags 8; in a modern one offset 25,
 * param_count 5, loop_depth 2, size 14, name 8, number_reg and non_ptr_reg 5, frame_size and read_cache 8, write_cache
 * 6, new_object and private_name 1, flags 8. Every other row goes to a large header, of 31 bytes or 37, and its own
 * header has that place, bit 5 of the flags, and zeros. Large headers follow one another in the order of their rows,
 * each at the next multiple of 4: the first at `large` rounded up, the next one 32 or 40 bytes on.
 * A modern large header does not store its info_offset: it is the place behind the header, rounded up to a multiple of
 * 4. The row must have just that, for the first one `large` rounded up plus 40, for the next one 40 more, and so on; so
 * an edit that makes a row too wide for its header gives it an info_offset too. What stands there is not moved, and the
 * next large header begins there: of several only the last can have handlers of its own.
 *
 * Accepted, the answer is where what was written ends: with the table, or with the last large header if there is one.
 * Other bytes stay, those between large headers too; what stands where a large header goes is overwritten, so give a
 * `large` behind all that the file still needs, such as the file's length.
 * Refused, no byte is written.
 * Refused 12; 1 if the buffer is longer than HBC_LIMIT; 2 if `start` is past its end; 11 if fewer than `count` rows are
 * lent; then, each looked for in all rows before the next, 13 with the first row as place whose words 0 and 1 are not
 * the layout and its own number, whose words 12 to 15 are not 0 in legacy, or that has more than 255 in flags,
 * read_index or write_index (legacy), in flags, read_cache, write_cache, new_object or private_name (modern); 14 with
 * the first modern row as place that goes to a large header and has another info_offset; 15 if `large`, as it is given,
 * is before the table's end, also where no row needs it; 4 if the buffer ends before what is to be written does.
 * `large` and `count` may be any numbers. */
uint64_t hbc_write_functions(const uint32_t *rows, size_t rows_len, uint32_t layout, size_t start, uint32_t count,
                             size_t large, uint8_t *buffer, size_t buffer_len);

/* ---- String tables ---- */

/* Words of a pair. */
#define HBC_PAIR_WORDS 2

/* Reads `count` words from the cursor on, the least byte first, into `table`. Kind runs are read so too.
 * Accepted, the cursor moves behind them; words of the table past the first `count` stay.
 * Refused 1; 2 if the cursor is past the end; 4 if the table has fewer than `count` words; 3 if the bytes end before
 * the words do, with the count of whole entries before that as place. */
uint64_t hbc_read_u32_table(const uint8_t *s, size_t s_len, size_t *at, uint32_t count, uint32_t *table,
                            size_t table_len);

/* The same for `count` pairs of words: overflow strings, table entries, shapes, CJS pairs. The table needs two words
 * for each. */
uint64_t hbc_read_pair_table(const uint8_t *s, size_t s_len, size_t *at, uint32_t count, uint32_t *table,
                             size_t table_len);

/* A row of decoded strings: start in the storage, byte length, 0 valid or 1 invalid (start and length are then 0),
 * and the marks, their sum if both. */
#define HBC_STRING_WORDS 4
#define HBC_STRING_START 0
#define HBC_STRING_LENGTH 1
#define HBC_STRING_INVALID 2
#define HBC_STRING_MARKS 3
#define HBC_MARK_UTF16 1
#define HBC_MARK_IDENTIFIER 2

/* One row for each of the first n strings, n being the lesser of `count` and `small_len`. Overflow pairs are taken in
 * order, as the published Rust takes them: the offset field of an entry that needs one is not looked at; and an empty
 * kind run, but for the first, names the string at which it comes up. For files that reuse pairs or have empty runs
 * there is Hermes mode, below.
 * `kinds`: the words of the kind runs. `small`: the small entries, a word each. `overflow`: pairs, two words each; a
 * last word without its partner is none.
 * Accepted, the answer is n, a number below 2^32; words past the rows stay.
 * Refused 1 if the storage is longer than 2^30 bytes; 4 if fewer than n whole rows are lent; 8 if a string needs an
 * overflow pair and none is left, with the string's number as place. */
uint64_t hbc_decode_strings(uint32_t count, const uint32_t *kinds, size_t kinds_len, const uint32_t *small,
                            size_t small_len, const uint32_t *overflow, size_t overflow_len, const uint8_t *storage,
                            size_t storage_len, uint32_t *rows, size_t rows_len);

/* The same in Hermes mode, which reads as Hermes does. An entry of length 255 takes the pair whose number, counted from
 * 0, is in its offset field (bits 1 to 23): pairs may be shared, and be in any order. The kind run of string i is the
 * first whose lengths, added up from the first run on, exceed i: an empty run names no string, and past the last run a
 * string is no identifier. All else is as above. Where the entries of length 255 have the numbers of the pairs in order
 * and no run is empty, both calls answer and write the same.
 * Refused 1 and 4 as above; 8 if the number in an entry of length 255 is not below the number of whole pairs lent, with
 * the first such string's number as place. */
uint64_t hbc_decode_strings_hermes(uint32_t count, const uint32_t *kinds, size_t kinds_len, const uint32_t *small,
                                   size_t small_len, const uint32_t *overflow, size_t overflow_len,
                                   const uint8_t *storage, size_t storage_len, uint32_t *rows, size_t rows_len);

/* The bytes of one string, by row `index` of such rows: `*len` of them from `storage + *start` on, always within the
 * storage. Both are 0 where there is no such row, where its third word is not 0, and where it leaves the storage.
 * Never refused, at any length. */
void hbc_string_bytes(const uint8_t *storage, size_t storage_len, const uint32_t *rows, size_t rows_len, size_t index,
                      size_t *start, size_t *len);

/* The text of one string as UTF-8, by row `index` of such rows, into the first bytes of `out`. It is always well formed
 * (the Unicode Standard, table 3-7), and has no zero behind it.
 * Bit 0 of the marks, HBC_MARK_UTF16, says what the string's bytes are; other marks are not looked at. UTF-16, the least
 * byte of a unit first: the scalar values of its units, with U+FFFD (EF BF BD) for each surrogate that has no partner.
 * Else UTF-8: itself where it is well formed, with U+FFFD for each maximal ill-formed part.
 * The row may hold any numbers. The text is empty where its third word is not 0, where it leaves the storage, and where
 * it is UTF-16 of an odd number of bytes.
 * Accepted, the answer is how many bytes the text has, a number below 2^32; bytes of `out` behind them stay. It has at
 * most three for each byte of UTF-8, as many if that is well formed, and three for each unit of UTF-16: with so much room
 * the call is never refused 4.
 * Refused 1 if the storage is longer than HBC_LIMIT; 11 if there is no row `index`; 4 if the text has more than `out_len`
 * bytes: nothing is then written. Rows and `out` may be of any length. */
uint64_t hbc_string_text(const uint8_t *storage, size_t storage_len, const uint32_t *rows, size_t rows_len, size_t index,
                         uint8_t *out, size_t out_len);

/* ---- Literals ----
 *
 * A value has a kind. */
#define HBC_LITERAL_NULL 0
#define HBC_LITERAL_TRUE 1
#define HBC_LITERAL_FALSE 2
#define HBC_LITERAL_NUMBER 3  /* a double */
#define HBC_LITERAL_STRING 4  /* the number of a string */
#define HBC_LITERAL_INTEGER 5 /* 32 bits, signed */

/* One value at the cursor, which moves behind it. `tag` is its tag byte, of which bits 4 to 6 count. `*number` is
 * written for kind 3 alone (a NaN comes out as a NaN of any bits), `*word` for kind 4 (the string's number) and kind 5
 * (in two's complement).
 * Refused 1; 2 if the cursor is past the end; 3 if fewer bytes are left than the value has. */
uint64_t hbc_read_literal(const uint8_t *s, size_t s_len, size_t *at, uint8_t tag, uint32_t *kind, double *number,
                          uint32_t *word);

/* `count` values of the series that begins at `offset`: value i has its kind in `kinds[i]`, and in `payloads[i]` a
 * float's bits, a string's number, an integer as 32-bit two's complement, or else 0.
 * Accepted, the answer is how many bytes the series used, a number below 2^32; for `count` 0 none, at any `offset`.
 * Words past the first `count` of either table stay.
 * Refused 1; 7 if `offset` is at or past the end and `count` is not 0; 4 if a table has fewer than `count` words; 3 if
 * the bytes end before the values do, with the number of whole values before that as place. */
uint64_t hbc_read_series(const uint8_t *s, size_t s_len, uint32_t offset, uint32_t count, uint32_t *kinds,
                         size_t kinds_len, uint64_t *payloads, size_t payloads_len);

/* The same of an object's keys (`of_keys` not 0) or of its values (`of_keys` 0); the other buffer is not looked at, and
 * may be of any length. The bytes used are those from `offset` on of the named one; for `count` 0 its empty
 * beginning. */
uint64_t hbc_read_object(const uint8_t *keys, size_t keys_len, const uint8_t *values, size_t values_len,
                         uint32_t of_keys, uint32_t offset, uint32_t count, uint32_t *kinds, size_t kinds_len,
                         uint64_t *payloads, size_t payloads_len);

/* ---- Handlers and trailing sections ---- */

/* A row of hbc_read_handlers. */
#define HBC_HANDLER_WORDS 4
#define HBC_HANDLER_FUNCTION 0
#define HBC_HANDLER_START 1
#define HBC_HANDLER_END 2
#define HBC_HANDLER_TARGET 3

/* The exception handlers of functions 0 to count - 1. `functions` holds rows as hbc_read_functions writes them, row i
 * for function i; only info_offset and flags are read, and may be any numbers. `rows` gets a row for each handler,
 * functions rising.
 *
 * A function has none if bit 3 of its flags is clear, if info_offset is 0 or at or past the end, if its place rounded
 * up to 4 leaves no 4 bytes, if the count there is 0 or above 1000, or if one of its handlers is cut;
 * hbc_why_no_handlers says which.
 * Accepted, the answer is 0, and `*total` the number of rows; words past them stay.
 * Refused 1; 11 if fewer than `count` function rows are lent; 4 if there are more handlers than rows of four words. */
uint64_t hbc_read_handlers(const uint8_t *file, size_t file_len, const uint32_t *functions, size_t functions_len,
                           uint32_t count, uint32_t *rows, size_t rows_len, size_t *total);

/* Answers of hbc_why_no_handlers: handlers are shown, or why there are none, the reasons in the order in which they are
 * looked for. A reason is an answer, not a refusal: HBC_NUMBER of it is 0. */
#define HBC_WHY_SHOWN 0
#define HBC_WHY_FLAG_CLEAR 1 /* bit 3 of its flags, HBC_FLAG_HAS_EXCEPTION_HANDLER, is clear */
#define HBC_WHY_INFO_ZERO 2  /* its info_offset is 0, as of every modern function without a large header */
#define HBC_WHY_INFO_PAST 3  /* its info_offset is at or past the end of the file */
#define HBC_WHY_NO_ROOM 4    /* fewer than 4 bytes are left at info_offset rounded up to 4: no room for the count */
#define HBC_WHY_COUNT_ZERO 5 /* the count there is 0 */
#define HBC_WHY_COUNT_HIGH 6 /* it is above 1000 */
#define HBC_WHY_CUT 7        /* so many handlers, 12 bytes each from behind the count on, are not all in the file */

/* Whether function `id` has handlers, and else why it has none. `functions` holds rows as hbc_read_functions writes them;
 * row `id` is the function's, whatever its id word says. Only its info_offset and flags are read, and may be any numbers.
 *
 * Accepted, the answer is HBC_WHY_SHOWN, or else the first of the reasons above that holds. HBC_WHY_SHOWN is answered
 * exactly where hbc_read_handlers lists rows for the function, and `*handlers` is then how many, from 1 to 1000; for a
 * reason `*handlers` stays as it was. It takes a bounded number of steps, whatever the file and the table are.
 * Refused 1; 11 if there is no row `id`: `*handlers` stays then too. */
uint64_t hbc_why_no_handlers(const uint8_t *file, size_t file_len, const uint32_t *functions, size_t functions_len,
                             uint32_t id, uint32_t *handlers);

/* The rows of hbc_trailing_sections. */
#define HBC_REGEXP_TABLE 0
#define HBC_REGEXP_STORAGE 1
#define HBC_CJS_PAIRS 2
#define HBC_FUNCTION_SOURCES 3
#define HBC_BYTECODE 4
#define HBC_SECTIONS 5

/* A row: start, size with padding, entries (0 for storage and bytecode), and 1 if absent, else 0. */
#define HBC_SECTION_WORDS 4
#define HBC_SECTION_START 0
#define HBC_SECTION_SIZE 1
#define HBC_SECTION_ENTRIES 2
#define HBC_SECTION_ABSENT 3

/* Finds the sections from byte `start` on: regexp table (8 bytes an entry), regexp storage, CJS pairs (8), function
 * sources (8) if `with_sources`, each padded to 4 in the file; then bytecode to the end. `rows` gets HBC_SECTIONS rows.
 *
 * Function sources that are not asked for are absent, with 0 in the other words; `sources` is then not looked at. The
 * entries are read by hbc_read_pair_table, at a section's start and with its entries as the count.
 * Accepted, the answer is HBC_SECTIONS; words past the rows stay.
 * Refused 1; 2 if `start` is past the end; 4 if fewer than HBC_SECTIONS rows are lent; then, section by section, 3 if
 * its bytes and 2 if its padding goes past the end. */
uint64_t hbc_trailing_sections(const uint8_t *file, size_t file_len, size_t start, uint32_t regexps, uint32_t storage,
                               uint32_t cjs, bool with_sources, uint32_t sources, uint32_t *rows, size_t rows_len);

/* ---- The debug section ---- */

/* A row of `strings`: start in the file, after the length prefix, and byte length. */
#define HBC_TEXT_WORDS 2
#define HBC_TEXT_START 0
#define HBC_TEXT_LENGTH 1
/* Of `scopes`: offset in the scope part, parent (HBC_NONE if none), flags, and which part of `names` is its own. */
#define HBC_SCOPE_WORDS 5
#define HBC_SCOPE_OFFSET 0
#define HBC_SCOPE_PARENT 1
#define HBC_SCOPE_FLAGS 2
#define HBC_SCOPE_FIRST_NAME 3
#define HBC_SCOPE_NAME_COUNT 4
/* Of `names`: a string's number, HBC_NONE if there is no such string. */
#define HBC_NAME_WORDS 1
#define HBC_NAME_STRING 0
/* Of `callees`, whose addresses rise: address, string's number. */
#define HBC_CALLEE_WORDS 2
#define HBC_CALLEE_ADDRESS 0
#define HBC_CALLEE_STRING 1

/* The debug section at byte `offset` of the file, as rows in four tables.
 *
 * At `offset` 0, 2^32 - 1, or at or past the end there is no debug information: accepted, with no rows, and exact.
 * Accepted, the answer is 0, and the four counts are those of the rows; words past them stay. Refused, the counts and
 * `*exact` stay too.
 * `*exact` is 1 if every LEB128 number that was read is exact, as hbc_read_uleb128 (of strings) and hbc_read_sleb128 (of
 * scopes and callees) say it; else 0, and some row may show the low bits of a longer number, or be missing for them. The
 * length of a string that is cut is among the numbers read, and so are those of a scope that is given up, a count that
 * is too large or negative, and a name that no string has. A number that could not be read is none, and behind the
 * address of a callee that could not be read no name is looked for. Where no number was read it is 1.
 * Refused 1; 3 if the header of 28 bytes is cut; 4 if one of the tables has too few rows, looked at last.
 * Takes at most 8 KiB of stack where the callees' addresses rise or there are none, else at most 272 KiB, however many
 * there are. Rising callees take three passes. n others take three for each 65,536 of them, and a few more, each over
 * all of them, so that the time grows with n * n / 65,536: sorting in that space takes no less. */
uint64_t hbc_read_debug(const uint8_t *file, size_t file_len, uint32_t offset, uint32_t *strings, size_t strings_len,
                        uint32_t *scopes, size_t scopes_len, uint32_t *names, size_t names_len, uint32_t *callees,
                        size_t callees_len, size_t *string_count, size_t *scope_count, size_t *name_count,
                        size_t *callee_count, uint32_t *exact);

/* ---- The clean-bundle profile ---- */

/* Answers of hbc_check_bundle: clean, or the first broken rule, in the order in which they are looked at. A broken rule is
 * an answer, not a refusal: HBC_NUMBER of it is 0. */
#define HBC_CLEAN 0
#define HBC_RULE_LARGE_HEADERS 1   /* large headers start at or after the table's end and share no bytes */
#define HBC_RULE_KIND_RUNS 2       /* kind lengths add up to the string count, and no run is empty */
#define HBC_RULE_STRINGS 3         /* each string is valid in Hermes mode */
#define HBC_RULE_EMPTY_TAGS 4      /* no series passes a length-0 tag */
#define HBC_RULE_LITERAL_STRINGS 5 /* each literal string number is below the string count */

/* A row of `series`: 0 for the values, any other number for the keys, as of_keys of hbc_read_object; then where the
 * series begins, and how many values are asked for. */
#define HBC_SERIES_WORDS 3
#define HBC_SERIES_OF_KEYS 0
#define HBC_SERIES_OFFSET 1
#define HBC_SERIES_COUNT 2

/* Whether a file is tidy enough for release. What the readers accept and this does not is a broken rule; what they refuse
 * is refused, and then no rule is looked at.
 * `file`, `layout`, `start`, `count`: the table of headers, as hbc_read_functions takes it. `kinds`, `small`, `overflow`,
 * `storage`: as hbc_decode_strings_hermes takes them; `strings` is its count, and the string count of the rules, also where
 * fewer small entries are lent, which breaks no rule: lend them all. `keys`, `values`: the buffers, as hbc_read_object
 * takes them. `series`: rows of HBC_SERIES_WORDS words; words that make no whole row are not looked at. Nothing is lent
 * to be written but `place`.
 *
 * Accepted, the answer is HBC_CLEAN exactly if all five rules hold; else the first that does not, and `*place` is the
 * lowest place where it does not:
 * 1  the lowest function whose large header, of 31 bytes in legacy and 37 in modern, starts before the table's end (start
 *    plus count headers) or shares a byte with that of any other function. Headers that touch share none.
 * 2  the first run that is empty; or, if only the sum is wrong, the number of runs. A run's length is its low 31 bits.
 * 3  the lowest string, of those that hbc_decode_strings_hermes decodes, whose row has 1 in its third word.
 * 4  the lowest series with a length-0 tag before the last value asked for. One right behind that value is not passed, and
 *    a series of no values passes none.
 * 5  the lowest series that has, among the values asked for, a string number that is not below `strings`.
 * A place from 4294967295 on is told as 4294967295. `*place` stays as it was where all is clean.
 *
 * Refused 12 if there is no such layout; then as hbc_read_functions with room for all rows: 1; 2 if `start` is past the
 * end; 2 or 3 with the first function that can't be read as place; as hbc_decode_strings_hermes with room for all rows: 1
 * if the storage is longer than HBC_LIMIT; 8 with the first string as place whose pair is not there; and as
 * hbc_read_object with room for all values, series by series: 1 if its buffer is longer than HBC_LIMIT; 7; 3 with the number
 * of whole values before that as place, not the number of the series. `*place` stays then too.
 * Takes at most 8 KiB of stack where large headers rise, the first at or behind the table's end and each at or behind
 * the end of the one before it, else at most 272 KiB. Then the functions are gone through once more for each 65,535 large
 * headers that the file has room for behind the table, or until function 0 is found to break rule 1. Each series is gone
 * through by itself, from its offset to its last value, over all tags of length 0 on the way: n rows that name the same bytes take
 * n times as long as one. */
uint64_t hbc_check_bundle(const uint8_t *file, size_t file_len, uint32_t layout, size_t start, uint32_t count,
                          const uint32_t *kinds, size_t kinds_len, uint32_t strings, const uint32_t *small,
                          size_t small_len, const uint32_t *overflow, size_t overflow_len, const uint8_t *storage,
                          size_t storage_len, const uint8_t *keys, size_t keys_len, const uint8_t *values,
                          size_t values_len, const uint32_t *series, size_t series_len, uint32_t *place);

#ifdef __cplusplus
}
#endif

#endif
