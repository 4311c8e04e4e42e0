/* What include/hbc.h says besides its prototypes, as a caller meets it: names, what a refused call leaves, the two
 * modes of strings, a string's text, why a function has no handlers, which rule a bundle breaks, which LEB128 numbers
 * are exact, what a refused refresh asks for, what becomes of the totals, what stands for no large header and where a
 * row says that there is one, what is written and what is not. C99 and C++. Prints nothing; at the first test that
 * fails its line, and then ends with status 1. */
#include <stdio.h>
#include <string.h>

#include "hbc.h"

#define CHECK(truth)                                                     \
    do {                                                                 \
        if (!(truth))                                                    \
            return fprintf(stderr, "header.c:%d: %s\n", __LINE__, #truth), 1; \
    } while (0)

/* No two refusals have one number, or this is not compiled. */
static const char *name(uint64_t code)
{
    switch (HBC_NUMBER(code)) {
    case 0: return "accepted";
    case HBC_REFUSED_TOO_LONG: return "TOO_LONG";
    case HBC_REFUSED_PAST_END: return "PAST_END";
    case HBC_REFUSED_CUT: return "CUT";
    case HBC_REFUSED_TOO_FEW_ROWS: return "TOO_FEW_ROWS";
    case HBC_REFUSED_LEB128_TOO_LONG: return "LEB128_TOO_LONG";
    case HBC_REFUSED_ZERO_ALIGNMENT: return "ZERO_ALIGNMENT";
    case HBC_REFUSED_SERIES_PAST_END: return "SERIES_PAST_END";
    case HBC_REFUSED_NO_OVERFLOW_PAIR: return "NO_OVERFLOW_PAIR";
    case HBC_REFUSED_NO_ZERO: return "NO_ZERO";
    case HBC_REFUSED_BAD_SPAN: return "BAD_SPAN";
    case HBC_REFUSED_TOO_FEW_TO_READ: return "TOO_FEW_TO_READ";
    case HBC_REFUSED_NO_SUCH_LAYOUT: return "NO_SUCH_LAYOUT";
    case HBC_REFUSED_BAD_ROW: return "BAD_ROW";
    case HBC_REFUSED_BAD_INFO_OFFSET: return "BAD_INFO_OFFSET";
    case HBC_REFUSED_LARGE_BEFORE_END: return "LARGE_BEFORE_END";
    case HBC_REFUSED_BAD_TOTALS: return "BAD_TOTALS";
    default: return "unnamed";
    }
}

static int is(uint64_t code, const char *expected) { return strcmp(name(code), expected) == 0; }

/* Each refusal by a call that has it. TOO_LONG looks at the length alone: the byte behind it is never read. */
static int refusals(void)
{
    static const uint8_t bytes[12] = {0x80, 0x80, 0x80, 0x80, 0x80, 0x80, 0x80, 0x80, 0x80, 0x80, 0x80, 0x80};
    static const uint32_t small[] = {255u << 24}, none[2] = {0, 0};
    uint32_t rows[HBC_FUNCTION_WORDS], kinds[1], exact;
    uint64_t value, payloads[1], large = 5, sizes = 6;
    size_t at = 0, start, size;
    CHECK(is(hbc_seek(bytes, (size_t)HBC_LIMIT + 1, &at, 0), "TOO_LONG"));
    CHECK(is(hbc_seek(bytes, 12, &at, 13), "PAST_END"));
    CHECK(is(hbc_read_bytes(bytes, 12, &at, 13, &start, &size), "CUT"));
    CHECK(is(hbc_read_functions(bytes, 12, HBC_LAYOUT_MODERN12, 0, 1, rows, HBC_FUNCTION_WORDS - 1, &large, &sizes),
             "TOO_FEW_ROWS"));
    CHECK(is(hbc_read_uleb128(bytes, 12, &at, &value, &exact), "LEB128_TOO_LONG") && at == 10);
    CHECK(is(hbc_align(bytes, 12, &at, 0), "ZERO_ALIGNMENT"));
    CHECK(is(hbc_read_series(bytes, 12, 12, 1, kinds, 1, payloads, 1), "SERIES_PAST_END"));
    CHECK(is(hbc_decode_strings(1, none, 0, small, 1, none, 0, bytes, 12, rows, HBC_STRING_WORDS), "NO_OVERFLOW_PAIR"));
    CHECK(is(hbc_read_cstring(bytes, 12, &at, &start, &size), "NO_ZERO") && at == 12);
    CHECK(is(hbc_refresh_functions(bytes, 12, HBC_LAYOUT_MODERN12, 0, 0, 1, 0, rows, 0, &large, &sizes), "BAD_SPAN"));
    CHECK(is(hbc_read_handlers(bytes, 12, none, 0, 1, rows, 0, &size), "TOO_FEW_TO_READ"));
    CHECK(is(hbc_read_functions(bytes, 12, 2, 0, 0, rows, 0, &large, &sizes), "NO_SUCH_LAYOUT"));
    CHECK(large == 5 && sizes == 6);
    return 0;
}

/* A refused call leaves start and size, marks, numbers and tables as they were. */
static int left(void)
{
    static const uint8_t bytes[] = {5, 'a', 'b'};
    size_t at = 0, start = 77, size = 88;
    uint32_t number = 99, exact = 66, rows[HBC_SECTIONS * HBC_SECTION_WORDS];
    CHECK(is(hbc_read_length_prefixed_string(bytes, 3, &at, &start, &size, &exact), "CUT"));
    CHECK(at == 1 && start == 77 && size == 88 && exact == 66);
    CHECK(is(hbc_read_cstring(bytes, 3, &at, &start, &size), "NO_ZERO") && start == 77 && size == 88);
    CHECK(is(hbc_read_bytes(bytes, 3, &at, 1, &start, &size), "CUT") && start == 77 && size == 88);
    at = 0;
    CHECK(is(hbc_read_u32(bytes, 3, &at, &number), "CUT") && number == 99 && at == 0);
    memset(rows, 0xAB, sizeof rows);
    CHECK(is(hbc_trailing_sections(bytes, 3, 0, 1, 0, 0, false, 0, rows, sizeof rows / sizeof *rows), "CUT"));
    CHECK(rows[0] == 0xABABABABu && rows[19] == 0xABABABABu);
    CHECK(hbc_trailing_sections(bytes, 3, 0, 0, 0, 0, false, 0, rows, sizeof rows / sizeof *rows) == HBC_SECTIONS);
    CHECK(rows[HBC_FUNCTION_SOURCES * HBC_SECTION_WORDS + HBC_SECTION_ABSENT] == 1);
    CHECK(rows[HBC_BYTECODE * HBC_SECTION_WORDS + HBC_SECTION_SIZE] == 3);
    return 0;
}

/* Pair 1 taken twice, an empty run of identifiers before a string: in order, and in Hermes mode. A field past the pairs
 * lent, of which the last has half its words, is refused, and no row is written. */
static int modes(void)
{
    static const uint8_t bytes[] = {'h', 'i', 'y', 'o', 'u'};
    static const uint32_t small[] = {1u << 1 | 255u << 24, 1u << 1 | 255u << 24};
    static const uint32_t kinds[] = {1, 1u << 31, 1}, pairs[] = {0, 2, 2, 3};
    const uint32_t in_order[] = {0, 2, 0, 0, 2, 3, 0, HBC_MARK_IDENTIFIER}, hermes[] = {2, 3, 0, 0, 2, 3, 0, 0};
    uint32_t rows[2 * HBC_STRING_WORDS];
    uint64_t code;
    CHECK(hbc_decode_strings(2, kinds, 3, small, 2, pairs, 4, bytes, 5, rows, 8) == 2);
    CHECK(memcmp(rows, in_order, sizeof rows) == 0);
    CHECK(hbc_decode_strings_hermes(2, kinds, 3, small, 2, pairs, 4, bytes, 5, rows, 8) == 2);
    CHECK(memcmp(rows, hermes, sizeof rows) == 0);
    code = hbc_decode_strings_hermes(9, kinds, 3, small, 2, pairs, 3, bytes, 5, rows, 8);
    CHECK(is(code, "NO_OVERFLOW_PAIR") && HBC_PLACE(code) == 0);
    CHECK(is(hbc_decode_strings_hermes(2, kinds, 3, small, 2, pairs, 3, bytes, 5, rows, 7), "TOO_FEW_ROWS"));
    code = hbc_decode_strings_hermes(2, kinds, 3, small, 2, pairs, 3, bytes, (size_t)HBC_LIMIT + 1, rows, 7);
    CHECK(is(code, "TOO_LONG"));
    CHECK(memcmp(rows, hermes, sizeof rows) == 0);
    return 0;
}

/* A string's text: the room that it needs, what stays behind it, what a refused call leaves, and rows of any numbers. */
static int texts(void)
{
    /* h, a byte that is no UTF-8, i; then a pair of UTF-16 */
    static const uint8_t bytes[] = {'h', 0xFF, 'i', 0x3D, 0xD8, 0x00, 0xDE};
    const uint32_t rows[] = {0, 3, 0, HBC_MARK_IDENTIFIER, 3, 4, 0, HBC_MARK_UTF16 + 4, 3, 3, 0, HBC_MARK_UTF16,
                             0, 3, 2, 0, 5, 3, 0, 0, 0xFFFFFFFFu, 2, 0, 0, 0};
    const size_t words = sizeof rows / sizeof *rows;
    uint8_t out[8], before[8];
    memset(before, 0xA5, 8);
    memset(out, 0xA5, 8);
    CHECK(is(hbc_string_text(bytes, 7, rows, words, 0, out, 4), "TOO_FEW_ROWS") && memcmp(out, before, 8) == 0);
    CHECK(hbc_string_text(bytes, 7, rows, words, 0, out, 5) == 5);
    CHECK(memcmp(out, "h\xEF\xBF\xBDi\xA5\xA5\xA5", 8) == 0);
    memset(out, 0xA5, 8);
    CHECK(hbc_string_text(bytes, 7, rows, words, 1, out, 8) == 4 && memcmp(out, "\xF0\x9F\x98\x80\xA5", 5) == 0);
    /* half a unit, marked invalid, past the storage's end, far past it: empty, in no room */
    for (size_t i = 2; i < 6; i++)
        CHECK(hbc_string_text(bytes, 7, rows, words, i, out, 0) == 0);
    CHECK(is(hbc_string_text(bytes, 7, rows, words, 6, out, 0), "TOO_FEW_TO_READ"));
    CHECK(is(hbc_string_text(bytes, 7, rows, words, SIZE_MAX / 2, out, 0), "TOO_FEW_TO_READ"));
    CHECK(is(hbc_string_text(bytes, (size_t)HBC_LIMIT + 1, rows, words, 6, out, 0), "TOO_LONG"));
    return 0;
}

/* No two answers of hbc_why_no_handlers have one number, or this is not compiled. */
static const char *why_name(uint64_t code)
{
    switch (code) {
    case HBC_WHY_SHOWN: return "SHOWN";
    case HBC_WHY_FLAG_CLEAR: return "FLAG_CLEAR";
    case HBC_WHY_INFO_ZERO: return "INFO_ZERO";
    case HBC_WHY_INFO_PAST: return "INFO_PAST";
    case HBC_WHY_NO_ROOM: return "NO_ROOM";
    case HBC_WHY_COUNT_ZERO: return "COUNT_ZERO";
    case HBC_WHY_COUNT_HIGH: return "COUNT_HIGH";
    case HBC_WHY_CUT: return "CUT";
    default: return "unnamed";
    }
}

/* Each answer of a file that has at 4 the count 1 and a handler, at 20 the count 0, at 24 1001, at 28 2 with one handler
 * and a byte. `*handlers` is written where they are shown, and by no other answer; that is where rows are listed. */
static int handlers(void)
{
    static const struct { uint32_t info, flags; const char *why; } cases[] = {
        {4, HBC_FLAG_HAS_EXCEPTION_HANDLER, "SHOWN"}, {1, UINT32_MAX, "SHOWN"},
        {4, ~(uint32_t)HBC_FLAG_HAS_EXCEPTION_HANDLER, "FLAG_CLEAR"}, {0, 0, "FLAG_CLEAR"},
        {0, HBC_FLAG_HAS_EXCEPTION_HANDLER, "INFO_ZERO"}, {45, HBC_FLAG_HAS_EXCEPTION_HANDLER, "INFO_PAST"},
        {UINT32_MAX, HBC_FLAG_HAS_EXCEPTION_HANDLER, "INFO_PAST"}, {44, HBC_FLAG_HAS_EXCEPTION_HANDLER, "NO_ROOM"},
        {41, HBC_FLAG_HAS_EXCEPTION_HANDLER, "NO_ROOM"}, {17, HBC_FLAG_HAS_EXCEPTION_HANDLER, "COUNT_ZERO"},
        {24, HBC_FLAG_HAS_EXCEPTION_HANDLER, "COUNT_HIGH"}, {25, HBC_FLAG_HAS_EXCEPTION_HANDLER, "CUT"},
    };
    enum { COUNT = sizeof cases / sizeof *cases };
    uint8_t file[45];
    uint32_t rows[COUNT * HBC_FUNCTION_WORDS], listed[2 * HBC_HANDLER_WORDS], i, shown = 0, number = 99;
    size_t total;
    memset(file, 0, sizeof file);
    file[4] = 1, file[24] = 1001 & 255, file[25] = 1001 >> 8, file[28] = 2;
    memset(rows, 0xAB, sizeof rows);
    for (i = 0; i < COUNT; i++) {
        rows[i * HBC_FUNCTION_WORDS + HBC_FUNCTION_INFO_OFFSET] = cases[i].info;
        rows[i * HBC_FUNCTION_WORDS + HBC_FUNCTION_FLAGS] = cases[i].flags;
    }
    for (i = 0; i < COUNT; i++) {
        const uint64_t code = hbc_why_no_handlers(file, 45, rows, COUNT * HBC_FUNCTION_WORDS, i, &number);
        CHECK(strcmp(why_name(code), cases[i].why) == 0 && number == (code == HBC_WHY_SHOWN ? 1 : 99));
        shown += code == HBC_WHY_SHOWN;
        number = 99;
    }
    CHECK(hbc_read_handlers(file, 45, rows, COUNT * HBC_FUNCTION_WORDS, COUNT, listed, 8, &total) == 0 && total == shown);
    /* A word short of a row is no row. */
    CHECK(is(hbc_why_no_handlers(file, 45, rows, HBC_FUNCTION_WORDS - 1, 0, &number), "TOO_FEW_TO_READ"));
    CHECK(is(hbc_why_no_handlers(file, 45, rows, HBC_FUNCTION_WORDS, 1, &number), "TOO_FEW_TO_READ"));
    CHECK(is(hbc_why_no_handlers(file, 45, rows, HBC_FUNCTION_WORDS, UINT32_MAX, &number), "TOO_FEW_TO_READ"));
    CHECK(is(hbc_why_no_handlers(file, (size_t)HBC_LIMIT + 1, rows, 0, 0, &number), "TOO_LONG"));
    CHECK(number == 99 && hbc_why_no_handlers(file, 0, rows, HBC_FUNCTION_WORDS, 0, &number) == HBC_WHY_INFO_PAST);
    return 0;
}

/* No two rules have one number, or this is not compiled. */
static const char *rule_name(uint64_t code)
{
    switch (code) {
    case HBC_CLEAN: return "CLEAN";
    case HBC_RULE_LARGE_HEADERS: return "LARGE_HEADERS";
    case HBC_RULE_KIND_RUNS: return "KIND_RUNS";
    case HBC_RULE_STRINGS: return "STRINGS";
    case HBC_RULE_EMPTY_TAGS: return "EMPTY_TAGS";
    case HBC_RULE_LITERAL_STRINGS: return "LITERAL_STRINGS";
    default: return name(code);
    }
}

/* Two legacy functions with their large headers at these places, runs, entries and series of two strings: each answer.
 * `place` is written where a rule is broken, and by no other answer. */
static int bundles(void)
{
    enum { END = 32, LARGE = 31, LEFT = 99 };
    static const uint32_t no_pairs[1] = {0};
    /* At 0 string 1, at 2 a tag of length 0 between two nulls, at 5 string 7. */
    static const uint8_t literals[] = {0x61, 1, 0x01, 0x00, 0x01, 0x61, 7};
    static const uint8_t storage[] = {'a', 'b'};
    static const struct {
        uint8_t places[2];
        uint32_t runs[2], entries[2], series[2 * HBC_SERIES_WORDS];
        const char *answer;
        uint32_t place;
    } cases[] = {
        {{END + LARGE, END}, {1, 1}, {1u << 24, 2u << 24}, {1, 0, 1, 0, 2, 1}, "CLEAN", LEFT},
        {{END + LARGE - 1, END}, {1, 0}, {9u << 1, 0}, {0, 2, 2, 0, 5, 1}, "LARGE_HEADERS", 0},
        {{END + LARGE, END - 1}, {1, 0}, {9u << 1, 0}, {0, 2, 2, 0, 5, 1}, "LARGE_HEADERS", 1},
        {{END, END + LARGE}, {1, 1u << 31}, {9u << 1, 0}, {0, 2, 2, 0, 5, 1}, "KIND_RUNS", 1},
        {{END, END + LARGE}, {1, 2}, {9u << 1, 0}, {0, 2, 2, 0, 5, 1}, "KIND_RUNS", 2},
        {{END, END + LARGE}, {1, 1}, {0, 2u << 1}, {0, 5, 1, 0, 2, 2}, "STRINGS", 1},
        {{END, END + LARGE}, {1, 1}, {0, 0}, {0, 5, 1, 0, 2, 2}, "EMPTY_TAGS", 1},
        {{END, END + LARGE}, {1, 1}, {0, 0}, {0, 5, 1, 0, 2, 1}, "LITERAL_STRINGS", 0},
        {{END, END + LARGE + 1}, {0, 0}, {9u << 1, 0}, {0, 2, 2, 0, 7, 1}, "CUT", LEFT},
        {{END, END + 2 * LARGE + 1}, {0, 0}, {9u << 1, 0}, {0, 2, 2, 0, 7, 1}, "PAST_END", LEFT},
        {{0, 0}, {0, 0}, {9u << 1, 255u << 24}, {0, 2, 2, 0, 7, 1}, "NO_OVERFLOW_PAIR", LEFT},
        {{0, 0}, {0, 0}, {9u << 1, 0}, {0, 2, 2, 0, 7, 1}, "SERIES_PAST_END", LEFT},
        {{0, 0}, {0, 0}, {9u << 1, 0}, {0, 5, 2, 0, 7, 1}, "CUT", LEFT},
    };
    uint8_t file[END + 2 * LARGE];
    uint32_t place = LEFT;
    size_t i;
    for (i = 0; i < sizeof cases / sizeof *cases; i++) {
        uint64_t code;
        memset(file, 0, sizeof file);
        file[0] = cases[i].places[0], file[16] = cases[i].places[1];
        file[15] = file[31] = HBC_FLAG_OVERFLOWED;
        place = LEFT;
        code = hbc_check_bundle(file, sizeof file, HBC_LAYOUT_LEGACY16, 0, 2, cases[i].runs, 2, 2, cases[i].entries, 2,
                                no_pairs, 0, storage, 2, literals, 7, literals, 7, cases[i].series,
                                2 * HBC_SERIES_WORDS, &place);
        CHECK(strcmp(rule_name(code), cases[i].answer) == 0 && place == cases[i].place);
    }
    /* Words that make no row of a series are not looked at; a layout that there is not comes before all else. */
    CHECK(hbc_check_bundle(file, 0, HBC_LAYOUT_MODERN12, 0, 0, no_pairs, 0, 0, no_pairs, 0, no_pairs, 0, storage, 0,
                           literals, 0, literals, 0, cases[0].series, HBC_SERIES_WORDS - 1, &place) == HBC_CLEAN);
    CHECK(is(hbc_check_bundle(file, (size_t)HBC_LIMIT + 1, 2, 1, 1, no_pairs, 1, 0, no_pairs, 0, no_pairs, 0, storage, 0,
                              literals, 0, literals, 0, no_pairs, 0, &place), "NO_SUCH_LAYOUT"));
    CHECK(is(hbc_check_bundle(file, (size_t)HBC_LIMIT + 1, 0, 1, 1, no_pairs, 1, 0, no_pairs, 0, no_pairs, 0, storage, 0,
                              literals, 0, literals, 0, no_pairs, 0, &place), "TOO_LONG"));
    CHECK(place == LEFT);
    return 0;
}

/* A number of nine 80 and a last byte, unsigned, signed, and as the length of a string of no bytes: with which last bytes
 * it is exact; refused, the mark stays. */
static int exact_numbers(void)
{
    uint8_t bytes[11] = {0x80, 0x80, 0x80, 0x80, 0x80, 0x80, 0x80, 0x80, 0x80, 0, 0x80};
    uint32_t last, exact;
    for (last = 0; last < 128; last++) {
        const uint32_t is_signed = last == 0 || last == 0x7F;
        uint64_t value = 77;
        int64_t number = 77;
        size_t at = 0, start = 77, size = 88;
        bytes[9] = (uint8_t)last;
        exact = 66;
        CHECK(hbc_read_uleb128(bytes, 11, &at, &value, &exact) == 0 && at == 10);
        CHECK(exact == (last <= 1) && value == (uint64_t)(last & 1) << 63);
        exact = 66, at = 0;
        CHECK(hbc_read_sleb128(bytes, 11, &at, &number, &exact) == 0 && at == 10);
        CHECK(exact == is_signed && number == (last & 1 ? INT64_MIN : 0));
        exact = 66, at = 0;
        if (last & 1) {
            CHECK(is(hbc_read_length_prefixed_string(bytes, 11, &at, &start, &size, &exact), "CUT"));
            CHECK(at == 10 && start == 77 && size == 88 && exact == 66);
        } else {
            CHECK(hbc_read_length_prefixed_string(bytes, 11, &at, &start, &size, &exact) == 0);
            CHECK(at == 10 && start == 10 && size == 0 && exact == (last == 0));
        }
        exact = 66, at = 10;
        CHECK(is(hbc_read_uleb128(bytes, 11, &at, &value, &exact), "CUT") && exact == 66);
        at = 12;
        CHECK(is(hbc_read_sleb128(bytes, 11, &at, &number, &exact), "PAST_END") && exact == 66);
        bytes[9] |= 0x80, at = 0;
        CHECK(is(hbc_read_sleb128(bytes, 11, &at, &number, &exact), "LEB128_TOO_LONG") && exact == 66);
    }
    return 0;
}

/* A debug section at byte 1: a scope of one name, its parent in ten bytes with that last one; no callees; a string of one
 * byte, and one that is cut, its length in ten bytes with that last one. */
static int exact_debug(uint8_t parent, uint8_t length, uint32_t expected)
{
    static const uint8_t scope[] = {0, 1, 0}, text[] = {1, 'x'};
    uint8_t file[60];
    uint32_t strings[2 * HBC_TEXT_WORDS], scopes[HBC_SCOPE_WORDS], names[HBC_NAME_WORDS], none[1], exact = 66;
    size_t counts[4] = {55, 55, 55, 55};
    memset(file, 0, 29);
    file[1 + 16] = file[1 + 20] = 13; /* where the callees and the strings begin */
    file[1 + 24] = 25;                /* where the data ends */
    memset(file + 29, 0x80, 9);
    file[38] = parent;
    memcpy(file + 39, scope, 3);
    memcpy(file + 42, text, 2);
    memset(file + 44, 0x81, 9);
    file[53] = length;
    CHECK(is(hbc_read_debug(file, 54, 1, strings, 1, scopes, HBC_SCOPE_WORDS, names, 1, none, 0, &counts[0], &counts[1],
                            &counts[2], &counts[3], &exact), "TOO_FEW_ROWS"));
    CHECK(is(hbc_read_debug(file, 28, 1, strings, 4, scopes, HBC_SCOPE_WORDS, names, 1, none, 0, &counts[0], &counts[1],
                            &counts[2], &counts[3], &exact), "CUT"));
    CHECK(exact == 66 && counts[0] == 55 && counts[1] == 55 && counts[2] == 55 && counts[3] == 55);
    CHECK(hbc_read_debug(file, 54, 1, strings, 4, scopes, HBC_SCOPE_WORDS, names, 1, none, 0, &counts[0], &counts[1],
                         &counts[2], &counts[3], &exact) == 0);
    CHECK(exact == expected && counts[0] == 1 && counts[1] == 1 && counts[2] == 1 && counts[3] == 0);
    CHECK(scopes[HBC_SCOPE_PARENT] == (parent & 1 ? HBC_NONE : 0) && names[HBC_NAME_STRING] == 0);
    CHECK(hbc_read_debug(file, 54, 0, strings, 0, scopes, 0, names, 0, none, 0, &counts[0], &counts[1], &counts[2],
                         &counts[3], &exact) == 0);
    CHECK(exact == 1 && counts[0] == 0);
    return 0;
}

static int marks(void)
{
    return exact_numbers() || exact_debug(0, 1, 1) || exact_debug(0x7F, 1, 1) || exact_debug(1, 1, 0) ||
           exact_debug(0, 0x7F, 0);
}

/* Of two functions the size of the first is changed, and the second gets a large header that is cut: refused. The flag is
 * undone by a call whose span does not hold the first edit: the first row is then out of date, until a span holds it. */
static int refresh(void)
{
    uint8_t file[32] = {0};
    uint32_t rows[2 * HBC_FUNCTION_WORDS];
    const size_t words = sizeof rows / sizeof *rows;
    uint64_t large, sizes;
    CHECK(hbc_read_functions(file, 32, HBC_LAYOUT_LEGACY16, 0, 2, rows, words, &large, &sizes) == 2);
    file[4] = 9;
    file[16] = 8; /* a large header at byte 8 would need 31 bytes */
    file[31] = HBC_FLAG_OVERFLOWED;
    CHECK(is(hbc_refresh_functions(file, 32, HBC_LAYOUT_LEGACY16, 0, 2, 4, 32, rows, words, &large, &sizes), "CUT"));
    CHECK(rows[HBC_FUNCTION_SIZE] == 0 && sizes == 0);
    file[31] = 0;
    CHECK(hbc_refresh_functions(file, 32, HBC_LAYOUT_LEGACY16, 0, 2, 31, 32, rows, words, &large, &sizes) == 1);
    CHECK(rows[HBC_FUNCTION_SIZE] == 0 && sizes == 0);
    CHECK(hbc_refresh_functions(file, 32, HBC_LAYOUT_LEGACY16, 0, 2, 4, 32, rows, words, &large, &sizes) == 2);
    CHECK(rows[HBC_FUNCTION_SIZE] == 9 && sizes == 9 && large == 0);
    CHECK(hbc_function_meets(file, 32, HBC_LAYOUT_LEGACY16, 0, 1, 4, 32) == 1);
    CHECK(hbc_function_meets(file, 32, HBC_LAYOUT_LEGACY16, 0, 1, 4, 16) == 0);
    return 0;
}

/* The totals of the rows lent: set by a read, whatever they were, brought up to date by a refresh, left by what is
 * refused and where no row is read again. Such as are not those of the rows are refused at the row that shows it, after
 * all reads. */
static int totals(void)
{
    const uint64_t most = UINT64_MAX / 2;
    uint8_t file[79] = {0};
    uint32_t rows[2 * HBC_FUNCTION_WORDS], before[2 * HBC_FUNCTION_WORDS];
    const size_t words = sizeof rows / sizeof *rows;
    uint64_t large = UINT64_MAX, sizes = 7, code;
    file[4] = 10; /* the sizes of functions 0 and 1 */
    file[20] = 20;
    CHECK(hbc_read_functions(file, 79, HBC_LAYOUT_LEGACY16, 0, 1, rows, words, &large, &sizes) == 1);
    CHECK(large == 0 && sizes == 10);
    CHECK(hbc_read_functions(file, 79, HBC_LAYOUT_LEGACY16, 0, 2, rows, words, &large, &sizes) == 2);
    CHECK(large == 0 && sizes == 30);
    file[16] = 48; /* function 1 gets a large header, and with it another size; its own flags do not count */
    file[31] = HBC_FLAG_OVERFLOWED;
    file[56] = 77;
    CHECK(hbc_refresh_functions(file, 79, HBC_LAYOUT_LEGACY16, 0, 2, 16, 32, rows, words, &large, &sizes) == 1);
    CHECK(large == 1 && sizes == 87 && (rows[HBC_FUNCTION_WORDS + HBC_FUNCTION_FLAGS] & HBC_FLAG_OVERFLOWED) == 0);
    file[31] = 0;
    CHECK(hbc_refresh_functions(file, 79, HBC_LAYOUT_LEGACY16, 0, 2, 31, 32, rows, words, &large, &sizes) == 1);
    CHECK(large == 0 && sizes == 30);

    /* One too few for function 0, for function 1; one too many, also of a total that no row changes. */
    memcpy(before, rows, sizeof rows);
    sizes = 9;
    code = hbc_refresh_functions(file, 79, HBC_LAYOUT_LEGACY16, 0, 2, 0, 79, rows, words, &large, &sizes);
    CHECK(is(code, "BAD_TOTALS") && HBC_PLACE(code) == 0 && sizes == 9);
    sizes = 19;
    code = hbc_refresh_functions(file, 79, HBC_LAYOUT_LEGACY16, 0, 2, 0, 79, rows, words, &large, &sizes);
    CHECK(is(code, "BAD_TOTALS") && HBC_PLACE(code) == 1 && sizes == 19);
    sizes = 20;
    CHECK(hbc_refresh_functions(file, 79, HBC_LAYOUT_LEGACY16, 0, 2, 0, 79, rows, words, &large, &sizes) == 2);
    CHECK(sizes == 20);
    large = most;
    CHECK(hbc_refresh_functions(file, 79, HBC_LAYOUT_LEGACY16, 0, 2, 16, 17, rows, words, &large, &sizes) == 1);
    large = most + 1;
    code = hbc_refresh_functions(file, 79, HBC_LAYOUT_LEGACY16, 0, 2, 16, 17, rows, words, &large, &sizes);
    CHECK(is(code, "BAD_TOTALS") && HBC_PLACE(code) == 1 && large == most + 1 && sizes == 20);
    CHECK(hbc_refresh_functions(file, 79, HBC_LAYOUT_LEGACY16, 0, 2, 32, 79, rows, words, &large, &sizes) == 0);
    CHECK(large == most + 1 && sizes == 20);
    /* A read that is refused comes first. */
    file[31] = HBC_FLAG_OVERFLOWED;
    file[16] = 49;
    CHECK(is(hbc_refresh_functions(file, 79, HBC_LAYOUT_LEGACY16, 0, 2, 0, 79, rows, words, &large, &sizes), "CUT"));
    CHECK(large == most + 1 && sizes == 20 && memcmp(before, rows, sizeof rows) == 0);
    return 0;
}

/* A header that is not flagged has no large one: its place is 2^64 - 1, whatever the offset says. A flagged one has it
 * where its fields say, past the end too. Refused, both places stay. */
static int ground(void)
{
    uint8_t file[32] = {0};
    size_t header = 77, large = 88;
    file[16] = 8;
    CHECK(is(hbc_function_ground(file, 32, HBC_LAYOUT_LEGACY16, 0, 2, &header, &large), "CUT"));
    CHECK(header == 77 && large == 88);
    CHECK(hbc_function_ground(file, 32, HBC_LAYOUT_LEGACY16, 0, 1, &header, &large) == 0 && header == 16);
    CHECK(large == HBC_NO_PLACE && (uint64_t)large == UINT64_MAX);
    file[31] = HBC_FLAG_OVERFLOWED;
    CHECK(hbc_function_ground(file, 32, HBC_LAYOUT_LEGACY16, 0, 1, &header, &large) == 0 && header == 16 && large == 8);
    file[24] = 1; /* info_offset, the place from bit 16 up */
    CHECK(hbc_function_ground(file, 32, HBC_LAYOUT_LEGACY16, 0, 1, &header, &large) == 0 && large == 65544);
    CHECK(hbc_function_ground(file, 32, HBC_LAYOUT_LEGACY16, 0, 0, &header, &large) == 0 && header == 0);
    CHECK(large == HBC_NO_PLACE);
    return 0;
}

/* The last word of a row: the place of the large header that it was read from, or HBC_INLINE. By a read of all functions,
 * by a read of one, and by a refresh when the flag is set, when the place changes and when the flag is cleared. */
static int large_place(void)
{
    uint32_t layout, rows[2 * HBC_FUNCTION_WORDS], one[HBC_FUNCTION_WORDS];
    const size_t words = sizeof rows / sizeof *rows;
    uint64_t large, sizes;
    for (layout = HBC_LAYOUT_LEGACY16; layout <= HBC_LAYOUT_MODERN12; layout++) {
        const size_t own = layout == HBC_LAYOUT_LEGACY16 ? 16 : 12, place = own, flags = 2 * own - 1;
        const uint32_t *row = rows + HBC_FUNCTION_WORDS;
        uint8_t file[80] = {0};
        file[place] = 40; /* of function 1 the offset: no place yet */
        CHECK(hbc_read_functions(file, 80, layout, 0, 2, rows, words, &large, &sizes) == 2);
        CHECK(rows[HBC_FUNCTION_LARGE_PLACE] == HBC_INLINE && row[HBC_FUNCTION_LARGE_PLACE] == HBC_INLINE);
        file[flags] = HBC_FLAG_OVERFLOWED;
        CHECK(hbc_refresh_functions(file, 80, layout, 0, 2, flags, flags + 1, rows, words, &large, &sizes) == 1);
        CHECK(row[HBC_FUNCTION_LARGE_PLACE] == 40 && rows[HBC_FUNCTION_LARGE_PLACE] == HBC_INLINE);
        file[place] = 41;
        CHECK(hbc_refresh_functions(file, 80, layout, 0, 2, place, place + 1, rows, words, &large, &sizes) == 1);
        CHECK(row[HBC_FUNCTION_LARGE_PLACE] == 41);
        CHECK(hbc_read_function(file, 80, layout, 0, 1, one, HBC_FUNCTION_WORDS) == 1);
        CHECK(memcmp(one, row, sizeof one) == 0);
        file[flags] = 0;
        CHECK(hbc_refresh_functions(file, 80, layout, 0, 2, flags, flags + 1, rows, words, &large, &sizes) == 1);
        CHECK(row[HBC_FUNCTION_LARGE_PLACE] == HBC_INLINE);
        /* The words of a record are no row. */
        CHECK(is(hbc_read_function(file, 80, layout, 0, 1, one, HBC_FUNCTION_LARGE_PLACE), "TOO_FEW_ROWS"));
    }
    CHECK(HBC_FUNCTION_LARGE_PLACE == HBC_FUNCTION_WORDS - 1 && HBC_INLINE > HBC_LIMIT);
    return 0;
}

/* Whether bytes from .. to - 1 of a buffer that was filled with 0xAB are as they were. */
static int stayed(const uint8_t *buffer, size_t from, size_t to)
{
    while (from < to)
        if (buffer[from++] != 0xAB)
            return 0;
    return 1;
}

/* Two rows of which the second is too wide for its header, at byte 1 of a buffer: what is written and read back, and
 * that all else stays; the info_offset that a modern row must have. */
static int written(void)
{
    uint32_t layout, rows[2 * HBC_FUNCTION_WORDS], again[2 * HBC_FUNCTION_WORDS];
    const size_t words = sizeof rows / sizeof *rows;
    uint8_t buffer[100];
    for (layout = HBC_LAYOUT_LEGACY16; layout <= HBC_LAYOUT_MODERN12; layout++) {
        const size_t own = layout == HBC_LAYOUT_LEGACY16 ? 16 : 12, size = layout == HBC_LAYOUT_LEGACY16 ? 31 : 37;
        const size_t end = 1 + 2 * own, place = 36, last = place + size;
        uint32_t *row = rows + HBC_FUNCTION_WORDS;
        uint64_t larges, sizes;
        size_t header, large;
        memset(rows, 0, sizeof rows);
        rows[HBC_FUNCTION_LAYOUT] = row[HBC_FUNCTION_LAYOUT] = layout;
        row[HBC_FUNCTION_ID] = 1;
        row[HBC_FUNCTION_SIZE] = 1 << 15;
        row[HBC_FUNCTION_INFO_OFFSET] = layout == HBC_LAYOUT_LEGACY16 ? 7 : (uint32_t)(place + 40);

        /* The last word of a row is any number here, and is read back as the place of the large header. */
        rows[HBC_FUNCTION_LARGE_PLACE] = 7;
        row[HBC_FUNCTION_LARGE_PLACE] = HBC_INLINE;

        memset(buffer, 0xAB, sizeof buffer);
        CHECK(hbc_write_functions(rows, words, layout, 1, 2, 33, buffer, sizeof buffer) == last);
        CHECK(stayed(buffer, 0, 1) && stayed(buffer, end, place) && stayed(buffer, last, sizeof buffer));
        CHECK(hbc_read_functions(buffer, last, layout, 1, 2, again, words, &larges, &sizes) == 2);
        CHECK(larges == 1 && sizes == 1 << 15);
        rows[HBC_FUNCTION_LARGE_PLACE] = HBC_INLINE;
        row[HBC_FUNCTION_LARGE_PLACE] = (uint32_t)place;
        CHECK(memcmp(rows, again, sizeof rows) == 0);
        CHECK(hbc_function_ground(buffer, last, layout, 1, 1, &header, &large) == 0);
        CHECK(header == 1 + own && large == place);
        /* Without the wide row the table's end is all there is, and no place for large headers is too far. */
        CHECK(hbc_write_functions(rows, words, layout, 1, 1, SIZE_MAX, buffer, 1 + own) == 1 + own);

        /* Refused, each before those that follow, which hold too. */
        memset(buffer, 0xAB, sizeof buffer);
        CHECK(is(hbc_write_functions(rows, words, layout, 1, 2, 33, buffer, last - 1), "TOO_FEW_ROWS"));
        CHECK(is(hbc_write_functions(rows, words, layout, 1, 0, 0, buffer, 1), "LARGE_BEFORE_END"));
        CHECK(is(hbc_write_functions(rows, words, layout, 1, 1, 0, buffer, 1), "LARGE_BEFORE_END"));
        if (layout == HBC_LAYOUT_MODERN12) {
            uint64_t code = hbc_write_functions(rows, words, layout, 1, 2, 0, buffer, 1);
            CHECK(is(code, "BAD_INFO_OFFSET") && HBC_PLACE(code) == 1);
        }
        row[HBC_FUNCTION_FLAGS] = 256;
        CHECK(is(hbc_write_functions(rows, words, layout, 1, 2, 0, buffer, 1), "BAD_ROW"));
        CHECK(HBC_PLACE(hbc_write_functions(rows, words, layout, 1, 2, 0, buffer, 1)) == 1);
        CHECK(is(hbc_write_functions(rows, words - 1, layout, 1, 2, 0, buffer, 1), "TOO_FEW_TO_READ"));
        CHECK(is(hbc_write_functions(rows, words, layout, 1, UINT32_MAX, 0, buffer, 1), "TOO_FEW_TO_READ"));
        CHECK(is(hbc_write_functions(rows, 0, layout, 2, 2, 0, buffer, 1), "PAST_END"));
        CHECK(is(hbc_write_functions(rows, 0, layout, SIZE_MAX, 2, 0, buffer, (size_t)HBC_LIMIT + 1), "TOO_LONG"));
        CHECK(is(hbc_write_functions(rows, 0, 2, 2, 2, 0, buffer, (size_t)HBC_LIMIT + 1), "NO_SUCH_LAYOUT"));
        CHECK(stayed(buffer, 0, sizeof buffer));
    }
    return 0;
}

/* The numbers of the version are those of its text. */
static int version(void)
{
    const char text[] = {'0' + HBC_VERSION_MAJOR, '.', '0' + HBC_VERSION_MINOR, '.', '0' + HBC_VERSION_PATCH, 0};
    CHECK(strcmp(text, HBC_VERSION) == 0);
    return 0;
}

int main(void)
{
    return refusals() || left() || modes() || texts() || handlers() || bundles() || marks() || refresh() || totals() ||
           ground() || large_place() || written() || version();
}
