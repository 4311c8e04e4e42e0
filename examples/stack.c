/* How much stack hbc_read_debug and hbc_check_bundle take: they are called on a stack that was painted before, and the
 * deepest word that is no longer paint is looked for. Exits 1 where one took more than include/hbc.h says. */
#define _GNU_SOURCE
#include <pthread.h>
#include <stdio.h>
#include <stdlib.h>
#include <string.h>

#include "hbc.h"

#define STACK ((size_t)512 << 10)
#define PAINT 0xA5
#define ENTRIES 70000

static uint8_t file[16 * ENTRIES];
static size_t file_len;
static uint32_t offset, strings[2], none[1], callees[2 * ENTRIES];

static size_t sleb128(uint8_t *at, int64_t value) {
    size_t n = 0;
    for (;;) {
        uint8_t byte = value & 0x7F;
        value >>= 7;
        int last = (value == 0 && !(byte & 0x40)) || (value == -1 && (byte & 0x40));
        at[n++] = last ? byte : byte | 0x80;
        if (last) return n;
    }
}

static void word(uint8_t *at, uint32_t value) {
    for (int k = 0; k < 4; k++) at[k] = (uint8_t)(value >> 8 * k);
}

/* One string, and `count` callees of that name: first, first + step, .. */
static void section(uint32_t count, uint32_t first, int32_t step) {
    uint8_t *part = file + 29;
    size_t n = sleb128(part, count);
    for (uint32_t k = 0; k < count; k++) {
        n += sleb128(part + n, (int64_t)first + (int64_t)step * k);
        n += sleb128(part + n, 0);
    }
    memset(file, 0, 29);
    word(file + 1 + 20, (uint32_t)n);
    word(file + 1 + 24, (uint32_t)n + 2);
    memcpy(part + n, "\1x", 2);
    file_len = 29 + n + 2;
    offset = 1;
}

static void *nothing(void *unused) { return unused; }

static void *read_it(void *answer) {
    size_t counts[4];
    uint32_t exact;
    *(uint64_t *)answer = hbc_read_debug(file, file_len, offset, strings, 2, none, 0, none, 0, callees, 2 * ENTRIES,
                                         &counts[0], &counts[1], &counts[2], &counts[3], &exact);
    return NULL;
}

/* `count` legacy functions behind one another, each with its large header behind the table: first, first + step, .. */
static uint32_t functions;

static void headers(uint32_t count, uint32_t first, int32_t step) {
    file_len = (size_t)count * (16 + 31);
    memset(file, 0, file_len);
    for (uint32_t k = 0; k < count; k++) {
        uint32_t place = count * 16 + 31 * (uint32_t)((int32_t)first + step * (int32_t)k);
        word(file + 16 * k, place & 0xFFFF);
        word(file + 16 * k + 8, place >> 16);
        file[16 * k + 15] = HBC_FLAG_OVERFLOWED;
    }
    functions = count;
}

static void *check_it(void *answer) {
    uint32_t place = 0;
    *(uint64_t *)answer = hbc_check_bundle(file, file_len, HBC_LAYOUT_LEGACY16, 0, functions, none, 0, 0, none, 0, none, 0,
                                           file, 0, file, 0, file, 0, none, 0, &place);
    return NULL;
}

/* The bytes of a thread's stack that are no longer paint, from the deepest one up. */
static size_t depth(void *(*run)(void *), void *argument) {
    pthread_attr_t attributes;
    pthread_t thread;
    uint8_t *stack = aligned_alloc(1 << 16, STACK);
    if (!stack) exit(2);
    memset(stack, PAINT, STACK);
    if (pthread_attr_init(&attributes) || pthread_attr_setstack(&attributes, stack, STACK)) exit(2);
    if (pthread_create(&thread, &attributes, run, argument) || pthread_join(thread, NULL)) exit(2);
    size_t at = 0;
    while (at < STACK && stack[at] == PAINT) at++;
    free(stack);
    return STACK - at;
}

static int failed;

static void measure(const char *what, void *(*run)(void *), size_t most, uint64_t expected) {
    uint64_t answer = 0;
    size_t own = depth(nothing, NULL), all = depth(run, &answer);
    size_t taken = all > own ? all - own : 0;
    printf("%s: %s\n", what, taken <= most && answer == expected ? "within" : "MORE, or another answer");
    fprintf(stderr, "%s: %zu bytes, at most %zu\n", what, taken, most);
    failed |= taken > most || answer != expected;
}

int main(void) {
    file_len = 3;
    offset = 0;
    measure("no section", read_it, 8 << 10, 0);
    offset = 1;
    measure("a section that is cut", read_it, 8 << 10, (uint64_t)3 << 32);
    section(1000, 5, 1);
    measure("rising callees", read_it, 8 << 10, 0);
    section(3, 5, -1);
    measure("three falling callees", read_it, 272 << 10, 0);
    section(ENTRIES, ENTRIES, -1);
    measure("70,000 falling callees", read_it, 272 << 10, 0);
    headers(1000, 0, 1);
    measure("rising large headers", check_it, 8 << 10, HBC_CLEAN);
    file[0]++;
    measure("rising large headers of which two share a byte", check_it, 272 << 10, HBC_RULE_LARGE_HEADERS);
    headers(20000, 19999, -1);
    measure("20,000 falling large headers", check_it, 272 << 10, HBC_CLEAN);
    return failed;
}
