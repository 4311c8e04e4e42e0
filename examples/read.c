/* Reads a function table, changes a byte, brings table and totals up to date; then strings, texts, handlers and
 * literals. From the root:
 * gcc -std=c99 -Wall -Wextra -pedantic -Iinclude examples/read.c "$(rust/archive)" -o read && ./read
 */
#include <inttypes.h>
#include <stdio.h>

#include "hbc.h"

#define COUNT 2
#define LARGE 32 /* where the large header of function 1 is */

/* Two legacy headers. Bit 5 of the second one's flags says that its fields are in a large header, at byte 32. */
static uint8_t file[] = {
    0x00, 0x01, 0x00, 0x04, 0x0A, 0x80, 0x01, 0x00, 0x00, 0x00, 0x00, 0x0A, 1, 2, 3, 0x04,
    LARGE, 0,   0,    0,    0,    0,    0,    0,    0,    0,    0,    0,    0, 0, 0, 0x20,
    0x00, 0x10, 0x00, 0x00, /* offset 4096 */
    0x01, 0x00, 0x00, 0x00, /* param_count 1 */
    0x40, 0x9C, 0x00, 0x00, /* size 40000 */
    0x02, 0x00, 0x00, 0x00, /* name 2 */
    0x00, 0x00, 0x00, 0x00, /* info_offset 0 */
    0x2C, 0x01, 0x00, 0x00, /* frame_size 300 */
    0x00, 0x00, 0x00, 0x00, /* environment_size 0 */
    0, 0, 0,                /* read index, write index, flags */
};

/* What a call answers, if it was refused. */
static int refused(const char *call, uint64_t code)
{
    if (HBC_NUMBER(code) == 0)
        return 0;
    printf("%s: refused %" PRIu32 " at %" PRIu32 "\n", call, HBC_NUMBER(code), HBC_PLACE(code));
    return 1;
}

/* The last word of a row says where to look in the file for what was read. */
static void print_rows(const uint32_t *rows)
{
    for (int i = 0; i < COUNT; i++) {
        const uint32_t *row = rows + i * HBC_FUNCTION_WORDS;
        printf("  function %" PRIu32 " offset %" PRIu32 " size %" PRIu32 " name %" PRIu32 " frame %" PRIu32,
               row[HBC_FUNCTION_ID],
               row[HBC_FUNCTION_OFFSET], row[HBC_FUNCTION_SIZE], row[HBC_FUNCTION_NAME], row[HBC_FUNCTION_FRAME_SIZE]);
        if (row[HBC_FUNCTION_LARGE_PLACE] == HBC_INLINE)
            printf(", inline\n");
        else
            printf(", large header at byte %" PRIu32 "\n", row[HBC_FUNCTION_LARGE_PLACE]);
    }
}

/* The totals are kept beside the rows: nothing is added up to show them. */
static void print_totals(uint64_t large, uint64_t sizes)
{
    printf("  in all: %" PRIu64 " of %d from large headers, %" PRIu64 " bytes of bytecode\n", large, COUNT, sizes);
}

static int functions(void)
{
    uint32_t rows[COUNT * HBC_FUNCTION_WORDS];
    const size_t words = COUNT * HBC_FUNCTION_WORDS, changed = LARGE + 8;
    uint64_t large = 0, sizes = 0;
    uint64_t code = hbc_read_functions(file, sizeof file, HBC_LAYOUT_LEGACY16, 0, COUNT, rows, words, &large, &sizes);
    if (refused("read", code))
        return 1;
    printf("%" PRIu64 " functions\n", code);
    print_rows(rows);
    print_totals(large, sizes);

    file[changed] += 1; /* the size of function 1 */
    code = hbc_refresh_functions(file, sizeof file, HBC_LAYOUT_LEGACY16, 0, COUNT, changed, changed + 1, rows, words,
                                 &large, &sizes);
    if (refused("refresh", code))
        return 1;
    printf("byte %zu changed, %" PRIu64 " row read again\n", changed, code);
    print_rows(rows);
    print_totals(large, sizes);

    /* A file that ends within the large header: the place is the function. */
    code = hbc_read_functions(file, 62, HBC_LAYOUT_LEGACY16, 0, COUNT, rows, words, &large, &sizes);
    return !(refused("read of 62 bytes", code) && HBC_NUMBER(code) == HBC_REFUSED_CUT);
}

static const uint8_t storage[] = {'h', 'i', 'y', 'o', 'u'};

static void print_strings(const uint32_t *rows, size_t count)
{
    for (size_t i = 0; i < count; i++) {
        size_t start, len;
        hbc_string_bytes(storage, sizeof storage, rows, count * HBC_STRING_WORDS, i, &start, &len);
        printf("string %zu: %.*s%s\n", i, (int)len, (const char *)storage + start,
               rows[i * HBC_STRING_WORDS + HBC_STRING_MARKS] & HBC_MARK_IDENTIFIER ? ", an identifier" : "");
    }
}

static int strings(void)
{
    const uint32_t kinds[] = {1, 1u << 31 | 1};                    /* one string, one identifier */
    const uint32_t small[] = {0u << 1 | 2u << 24, 2u << 1 | 3u << 24}; /* offset 0 length 2, offset 2 length 3 */
    const uint32_t overflow[] = {0, 0};
    uint32_t rows[2 * HBC_STRING_WORDS];
    uint64_t code = hbc_decode_strings(2, kinds, 2, small, 2, overflow, 2, storage, sizeof storage, rows,
                                       2 * HBC_STRING_WORDS);
    if (refused("strings", code))
        return 1;
    print_strings(rows, code);
    return 0;
}

/* Two names that share an overflow pair, as a linker may write them: Hermes mode takes the pair that each names. */
static int shared(void)
{
    const uint32_t kinds[] = {0, 1u << 31 | 2};                            /* no string, two identifiers */
    const uint32_t small[] = {1u << 1 | 255u << 24, 1u << 1 | 255u << 24}; /* pair 1, pair 1 */
    const uint32_t overflow[] = {0, 2, 2, 3};                              /* offset 0 length 2, offset 2 length 3 */
    uint32_t rows[2 * HBC_STRING_WORDS];
    uint64_t code = hbc_decode_strings_hermes(2, kinds, 2, small, 2, overflow, 4, storage, sizeof storage, rows,
                                              2 * HBC_STRING_WORDS);
    if (refused("strings as Hermes", code))
        return 1;
    printf("as Hermes, with a pair shared\n");
    print_strings(rows, code);
    return 0;
}

/* Texts are UTF-8, whatever the bytes are: UTF-16 is converted, and U+FFFD stands for what is ill-formed. */
static int texts(void)
{
    static const uint8_t bytes[] = {'c', 'a', 'f', 0xC3, 0xA9, 'h', 0xFF, 'i', 0x3D, 0xD8, 0x00, 0xDE, '!', 0};
    const uint32_t rows[] = {0, 5, 0, 0, 5, 3, 0, 0, 8, 6, 0, HBC_MARK_UTF16};
    uint8_t out[15]; /* three bytes for each byte of the longest string of UTF-8 */
    for (size_t i = 0; i < 3; i++) {
        uint64_t code = hbc_string_text(bytes, sizeof bytes, rows, 3 * HBC_STRING_WORDS, i, out, sizeof out);
        if (refused("text", code))
            return 1;
        printf("text %zu: %.*s, %" PRIu64 " bytes\n", i, (int)code, (const char *)out, code);
    }
    return !refused("text in 4 bytes", hbc_string_text(bytes, sizeof bytes, rows, 3 * HBC_STRING_WORDS, 0, out, 4));
}

/* Of each function its handlers, or why it has none. */
static int handlers(void)
{
    static const uint8_t bytes[] = {1, 0, 0, 0, 1, 0, 0, 0, 10, 0, 0, 0, 40, 0, 0, 0, 52, 0, 0, 0, 2, 0, 0, 0, 7, 7, 7, 7};
    static const uint32_t info[] = {4, 20, 28, 0}; /* one handler, two that are cut, the end of the file, nothing */
    uint32_t rows[4 * HBC_FUNCTION_WORDS] = {0};
    for (uint32_t id = 0; id < 4; id++) {
        uint32_t count = 0;
        uint64_t code;
        rows[id * HBC_FUNCTION_WORDS + HBC_FUNCTION_INFO_OFFSET] = info[id];
        rows[id * HBC_FUNCTION_WORDS + HBC_FUNCTION_FLAGS] = HBC_FLAG_HAS_EXCEPTION_HANDLER;
        code = hbc_why_no_handlers(bytes, sizeof bytes, rows, 4 * HBC_FUNCTION_WORDS, id, &count);
        if (refused("why", code))
            return 1;
        printf("handlers of function %" PRIu32 ": %" PRIu32 "%s\n", id, count,
               code == HBC_WHY_SHOWN ? "" : code == HBC_WHY_CUT ? ", they are cut"
               : code == HBC_WHY_INFO_PAST ? ", its info_offset is past the end" : ", for another reason");
    }
    return 0;
}

static int literals(void)
{
    static const uint8_t buffer[] = {0x72, 5, 0, 0, 0, 0xFF, 0xFF, 0xFF, 0xFF, 0x11}; /* two integers, then true */
    uint32_t kinds[3];
    uint64_t payloads[3];
    uint64_t code = hbc_read_series(buffer, sizeof buffer, 0, 3, kinds, 3, payloads, 3);
    if (refused("series", code))
        return 1;
    printf("%" PRIu64 " bytes of literals:", code);
    for (int i = 0; i < 3; i++)
        if (kinds[i] == HBC_LITERAL_INTEGER)
            printf(" %" PRId32, (int32_t)(uint32_t)payloads[i]);
        else
            printf(" %s", kinds[i] == HBC_LITERAL_TRUE ? "true" : "another");
    printf("\n");
    return 0;
}

int main(void)
{
    return functions() || strings() || shared() || texts() || handlers() || literals();
}
