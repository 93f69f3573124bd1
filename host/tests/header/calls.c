/*
 * Every declaration and constant of include/zembrulish.h against the library. `named.h` is made from the header by tests/header.rs: NAMED_f(..) takes
 * the arguments of f in the order told here and hands them to f in the order of the names in its declaration, so that two names exchanged there show.
 */
#include <inttypes.h>
#include <stdio.h>
#include <stdlib.h>
#include <string.h>
#include "zembrulish.h"
#include "named.h"

#define TYPE(f, ...) _Static_assert(_Generic(&f, __VA_ARGS__ : 1, default : 0), "the type of " #f)
TYPE(zem_judge_answer, uint32_t (*)(uint32_t, uint32_t, const uint8_t *, size_t));
TYPE(zem_judge_position, uint64_t (*)(uint32_t, uint32_t, const uint8_t *, size_t));
TYPE(zem_judge_count, uint64_t (*)(uint32_t, uint32_t, const uint8_t *, size_t));
TYPE(zem_read, uint32_t (*)(uint32_t, uint32_t, const uint8_t *, size_t, uint8_t *, size_t));
TYPE(zem_read_position, uint64_t (*)(uint32_t, uint32_t, const uint8_t *, size_t, size_t));
TYPE(zem_read_count, uint64_t (*)(uint32_t, uint32_t, const uint8_t *, size_t, size_t));
TYPE(zem_write, uint32_t (*)(uint32_t, const uint8_t *, size_t, uint8_t *, size_t));
TYPE(zem_write_position, uint64_t (*)(uint32_t, const uint8_t *, size_t, size_t));
TYPE(zem_write_count, uint64_t (*)(uint32_t, const uint8_t *, size_t, size_t));

static int wrong;

static void same(int line, uint64_t got, uint64_t wanted) {
    if (got == wanted) return;
    wrong = 1;
    printf("calls.c:%d: %" PRIu64 " and not %" PRIu64 "\n", line, got, wanted);
}

#define SAME(got, wanted) same(__LINE__, (uint64_t)(got), (uint64_t)(wanted))

/* No two of the numbers handed over, and no two of those that come back from one call, are alike. */

static void judges(void) {
    /* Alphabet 2 with CASE; alphabet 16 would be answer 1. The pad at 7 comes where spare bits are not zero. */
    const uint8_t *text = (const uint8_t *)"mzxw6yr=";
    SAME(NAMED_zem_judge_answer(2, 16, text, 8), 6);
    SAME(NAMED_zem_judge_position(2, 16, text, 8), 7);
    SAME(NAMED_zem_judge_count(2, 16, text, 8), 4);
    SAME(NAMED_zem_judge_answer(16, 2, text, 8), 1);
    SAME(NAMED_zem_judge_answer(2, 16, text, 5), 8);
    SAME(NAMED_zem_judge_position(2, 16, text, 5), 5);
    SAME(NAMED_zem_judge_count(2, 16, text, 5), 3);
    /* Alphabet 1 with LINES + BLANK, which are alphabet 3 with LINES where exchanged. */
    SAME(NAMED_zem_judge_answer(1, 3, (const uint8_t *)"-_\n =", 4), 8);
    SAME(NAMED_zem_judge_position(1, 3, (const uint8_t *)"-_\n =", 5), 2 + 2);
    SAME(NAMED_zem_judge_count(1, 3, (const uint8_t *)"-_\n =", 5), 1);
}

static void reads(void) {
    const uint8_t *text = (const uint8_t *)"Zm9v\nYg==";
    uint8_t out[6] = {9, 9, 9, 9, 9, 9};
    SAME(NAMED_zem_read(0, 1, text, 9, out, 4), 0);
    SAME(memcmp(out, "foob\11\11", 6), 0);
    SAME(NAMED_zem_read_position(0, 1, text, 9, 4), 9);
    SAME(NAMED_zem_read_count(0, 1, text, 9, 4), 4);
    SAME(NAMED_zem_read(0, 1, text, 9, out, 3), 3);
    SAME(NAMED_zem_read_position(0, 1, text, 9, 3), 0);
    SAME(NAMED_zem_read_count(0, 1, text, 9, 3), 4);
    SAME(NAMED_zem_read(0, 1, text, 7, out, 6), 8);
    SAME(NAMED_zem_read_position(0, 1, text, 7, 6), 7);
    SAME(NAMED_zem_read_count(0, 1, text, 6, 7), 3);
    /* Without the option the byte 10 is foreign; exchanged, it is alphabet 1 without an option. */
    SAME(NAMED_zem_read(1, 0, text, 9, out, 6), 4);
    SAME(NAMED_zem_read_position(1, 0, text, 9, 6), 4);
    SAME(NAMED_zem_read_count(1, 0, text, 9, 6), 3);
}

static void writes(void) {
    const uint8_t *src = (const uint8_t *)"foobar";
    uint8_t out[17] = {0};
    SAME(NAMED_zem_write(2, src, 4, out, 9), 0);
    SAME(memcmp(out, "MZXW6YQ=\0", 9), 0);
    SAME(NAMED_zem_write_position(2, src, 4, 9), 8);
    SAME(NAMED_zem_write_count(2, src, 4, 9), 8);
    SAME(NAMED_zem_write(2, src, 6, out, 15), 3);
    SAME(NAMED_zem_write_position(2, src, 6, 15), 0);
    SAME(NAMED_zem_write_count(2, src, 6, 15), 16);
    SAME(NAMED_zem_write(6, src, 6, out, 15), 1);
}

/* A text at the limit is accepted, and one byte more is refused there. */
static void limit(void) {
    uint8_t *text = malloc((size_t)ZEM_LIMIT + 1), *out = malloc((size_t)ZEM_LIMIT + 1);
    if (text == NULL || out == NULL) exit(2);
    memset(text, '0', (size_t)ZEM_LIMIT + 1);
    SAME(NAMED_zem_judge_answer(4, 0, text, ZEM_LIMIT), 0);
    SAME(NAMED_zem_judge_position(4, 0, text, ZEM_LIMIT), ZEM_LIMIT);
    SAME(NAMED_zem_judge_answer(4, 0, text, (size_t)ZEM_LIMIT + 1), 2);
    SAME(NAMED_zem_judge_position(4, 0, text, (size_t)ZEM_LIMIT + 1), ZEM_LIMIT);
    SAME(NAMED_zem_judge_count(4, 0, text, (size_t)ZEM_LIMIT + 1), ZEM_LIMIT / 2);
    SAME(NAMED_zem_write(4, text, ZEM_LIMIT / 2, out, ZEM_LIMIT), 0);
    SAME(NAMED_zem_write(4, text, ZEM_LIMIT / 2 + 1, out, (size_t)ZEM_LIMIT + 1), 2);
    free(text);
    free(out);
}

int main(void) {
    judges();
    reads();
    writes();
    limit();
    return wrong;
}
