/* Plans through the C interface, over the sample volume of document 01: each answer, field by
 * field. Volume and plan are lent out of the middle of other bytes and words, and all of them are
 * compared after each call with how they were. */
#include "lihambozy.h"

#include <stdio.h>
#include <string.h>

#define SIDE 16
#define ROOM 300

static const uint32_t counts[3] = {2, 3, 3};
static const uint32_t postings[8] = {65536, 65542, 65538, 65544, 131076, 65541, 65543, 131081};

struct memory {
    uint8_t bytes[SIDE + LHZ_BLOCK_BYTES + SIDE];
    uint32_t words[SIDE + ROOM + SIDE];
};

static struct memory lent, kept;
static uint8_t *const volume = lent.bytes + SIDE;
static uint32_t *const plan = lent.words + SIDE;

static void show_kept(void) {
    printf(memcmp(&lent, &kept, sizeof lent) == 0 ? "\n" : " written\n");
}

static void show_check(const char *name, size_t len) {
    kept = lent;
    lhz_check_plan_answer answer = lhz_check_plan(volume, LHZ_BLOCK_BYTES, plan, len);
    printf("%s: %u %u %u %u", name, (unsigned)answer.refusal, (unsigned)answer.at,
           (unsigned)answer.patterns, (unsigned)answer.vars);
    show_kept();
}

static void show_rows(size_t len, uint32_t pattern) {
    kept = lent;
    lhz_pattern_rows_answer answer = lhz_pattern_rows(volume, LHZ_BLOCK_BYTES, plan, len, pattern);
    printf("rows of %u: %u %u", (unsigned)pattern, (unsigned)answer.start, (unsigned)answer.len);
    show_kept();
}

/* Puts a row at the end of the plan: how long it is then. */
static size_t add(size_t len, uint32_t kind, uint32_t a, uint32_t b, uint32_t c) {
    plan[len] = kind;
    plan[len + 1] = a;
    plan[len + 2] = b;
    plan[len + 3] = c;
    return len + LHZ_ROW_WORDS;
}

/* The c of an APART row with these limits, and the limits that it holds. */
#define SHOW_LIMITS(least, most) \
    printf("limits %u: %u %u\n", (unsigned)LHZ_APART_LIMITS(least, most), \
           (unsigned)(LHZ_APART_LIMITS(least, most) / 65536), \
           (unsigned)(LHZ_APART_LIMITS(least, most) % 65536))

int main(void) {
    size_t len = 0, second;
    memset(&lent, 7, sizeof lent);
    if (lhz_write_volume(counts, 3, postings, 8, volume, LHZ_BLOCK_BYTES).refusal != 0) return 1;

    printf("check answer %u: %u %u %u %u\n", (unsigned)sizeof(lhz_check_plan_answer),
           (unsigned)offsetof(lhz_check_plan_answer, refusal),
           (unsigned)offsetof(lhz_check_plan_answer, at),
           (unsigned)offsetof(lhz_check_plan_answer, patterns),
           (unsigned)offsetof(lhz_check_plan_answer, vars));
    printf("rows answer %u: %u %u\n", (unsigned)sizeof(lhz_pattern_rows_answer),
           (unsigned)offsetof(lhz_pattern_rows_answer, start),
           (unsigned)offsetof(lhz_pattern_rows_answer, len));
    printf("limits %d %d %d %d %d\n", LHZ_ROW_WORDS, LHZ_MAX_ROWS, LHZ_MAX_PLAN_WORDS,
           LHZ_MAX_PATTERNS, LHZ_MAX_VARS);
    printf("kinds %d %d %d %d %d %d %d %d %d %d %d\n", LHZ_VOICE, LHZ_NEAR, LHZ_BEFORE,
           LHZ_SAME_TITLE, LHZ_SPAN, LHZ_END, LHZ_BOTH, LHZ_EITHER, LHZ_FIRST_NOT_SECOND, LHZ_APART,
           LHZ_AT_LEAST);
    SHOW_LIMITS(0, 0);
    SHOW_LIMITS(4, 9);
    SHOW_LIMITS(0, LHZ_NO_UPPER_END);
    SHOW_LIMITS(LHZ_LAST_POS - 1, LHZ_NO_UPPER_END);
    SHOW_LIMITS(65535, 65535);
    SHOW_LIMITS(1 + 1, 1 ? 3 : 2);

    show_check("no row", len);
    len = add(len, LHZ_VOICE, 1, 0, 0);
    len = add(len, LHZ_VOICE, 2, 0, 0);
    len = add(len, LHZ_BEFORE, 0, 1, 0);
    len = add(len, LHZ_SAME_TITLE, 0, 1, 0);
    show_check("open", len);
    show_rows(len, 0);
    len = add(len, LHZ_END, 0, 0, 0);
    show_check("sample", len);
    show_check("a word less", len - 1);
    show_rows(len, 0);
    show_rows(len, 1);
    show_rows(len, UINT32_MAX);

    second = len;
    len = add(len, LHZ_VOICE, 2, 0, 0);
    len = add(len, LHZ_NEAR, 0, 0, 65535);
    len = add(len, LHZ_SPAN, 0, 0, 65536);
    len = add(len, LHZ_END, 0, 0, 0);
    show_check("two answers", len);
    len = add(len, LHZ_FIRST_NOT_SECOND, 0, 0, 0);
    show_check("two patterns", len);
    show_rows(len, 0);
    show_rows(len, 1);
    show_rows(len, 2);

    plan[second + 7] = 65536;
    show_check("c of NEAR", len);
    show_rows(len, 1);
    plan[second + 7] = 0;
    plan[second + 1] = 3;
    show_check("list", len);
    plan[second + 1] = 1;
    plan[second + 6] = 1;
    show_check("variable", len);
    plan[second + 6] = 0;
    show_check("two patterns", len);
    add(second + 4, LHZ_APART, 0, 0, LHZ_APART_LIMITS(3, 3));
    show_check("APART", len);
    plan[second + 7] = LHZ_APART_LIMITS(3, 2);
    show_check("least over most", len);
    plan[second + 7] = LHZ_APART_LIMITS(65535, LHZ_NO_UPPER_END);
    plan[second + 5] = 1;
    show_check("variable of APART", len);
    add(second + 4, LHZ_AT_LEAST, 1, 2, 0);
    show_check("AT LEAST with a pattern open", len);
    add(second + 4, LHZ_AT_LEAST + 1, 0, 0, 0);
    show_check("kind 12", len);
    add(second + 4, LHZ_NEAR, 0, 0, 0);
    add(len - 4, LHZ_BOTH, 0, 0, 0);
    show_check("BOTH", len);
    add(len - 4, LHZ_EITHER, 0, 0, 0);
    show_check("EITHER", len);
    add(len - 4, LHZ_AT_LEAST, 2, 2, 0);
    show_check("AT LEAST 2 2", len);
    add(len - 4, LHZ_AT_LEAST, 3, 3, 0);
    show_check("AT LEAST 3 3", len);
    add(len - 4, LHZ_AT_LEAST, 3, 2, 0);
    show_check("AT LEAST 3 2", len);
    add(len - 4, LHZ_AT_LEAST, 0, 2, 0);
    show_check("AT LEAST 0 2", len);
    add(len - 4, LHZ_AT_LEAST, 1, 1, 0);
    show_check("AT LEAST 1 1", len);
    add(len - 4, LHZ_AT_LEAST, 1, 9, 0);
    show_check("AT LEAST 1 9", len);
    add(len - 4, LHZ_AT_LEAST, 1, 2, 1);
    show_check("c of AT LEAST", len);
    add(len - 4, LHZ_AT_LEAST, 1, 2, 0);
    show_check("AT LEAST 1 2", len);

    volume[LHZ_BLOCK_BYTES - 1] ^= 1;
    show_check("checksum", len);
    show_check("checksum, no row", 0);
    show_rows(len, 0);
    volume[LHZ_BLOCK_BYTES - 1] ^= 1;

    for (len = 0; len < 36;) len = add(len, LHZ_VOICE, 1, 0, 0);
    show_check("nine variables", len);
    while (len < 4 * LHZ_MAX_ROWS + 4) len = add(len, LHZ_VOICE, 1, 0, 0);
    show_check("65 rows", len);
    return 0;
}
