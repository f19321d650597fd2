/* Every refusal by its name. Each is caused as the header tells; its line has the name, the name's
 * number, and the number and place that the call answers. */
#include "lihambozy.h"

#include <stdio.h>
#include <string.h>

#define SHOW(NAME, ANSWER) show(#NAME, NAME, (ANSWER).refusal, (ANSWER).at)
#define CHECK lhz_check_volume(volume, sizeof volume)
#define PLAN lhz_check_plan(volume, sizeof volume, plan, plan_len)
#define LIST(start, room) lhz_list(volume, sizeof volume, plan, plan_len, start, out, room)
#define MATCHES(doc, room) \
    lhz_list_matches(volume, sizeof volume, plan, plan_len, 0, doc, out, LHZ_MAX_VARS, tuple, room)
#define READ(list, room) lhz_read_list(volume, sizeof volume, list, out, room)
#define WRITE(lists, sum, room) lhz_write_volume(counts, lists, postings, sum, written, room)
#define JOIN(raise, room) \
    lhz_join_volumes(volume, sizeof volume, volume, sizeof volume, raise, joined, room)
#define LINE(len, room) lhz_line_to_plan(line, len, plan, room)
#define TELL(room) lhz_plan_to_line(volume, sizeof volume, plan, plan_len, written, room)

/* Two blocks: list 0 is empty, list 1 rises by 2. The last word that is used is word 133. */
static uint32_t counts[2] = {0, 130};
static uint32_t postings[LHZ_MAX_WORDS];
static uint8_t volume[2 * LHZ_BLOCK_BYTES], written[2 * LHZ_BLOCK_BYTES];
static uint8_t joined[3 * LHZ_BLOCK_BYTES], half[LHZ_MAX_BYTES / 2 + LHZ_BLOCK_BYTES];
static uint32_t plan[LHZ_MAX_PLAN_WORDS + LHZ_ROW_WORDS], out[LHZ_MAX_ROW_WORDS];
static uint32_t tuple[LHZ_MAX_VARS];
static uint8_t line[LHZ_MAX_LINE_BYTES + 1];
static size_t plan_len;

static void show(const char *name, unsigned number, uint32_t refusal, uint32_t at) {
    printf("%s %u: %u %u\n", name, number, (unsigned)refusal, (unsigned)at);
}

static void fresh(void) {
    lhz_write_volume(counts, 2, postings, 130, volume, sizeof volume);
}

/* Stores the checksum of a block, as it is then. */
static void seal(uint8_t *block) {
    uint32_t a = 1, b = 0;
    for (int i = 0; i < 508; i++) {
        a = (a + block[i]) % 65535;
        b = (b + a) % 65535;
    }
    block[508] = (uint8_t)(a % 256);
    block[509] = (uint8_t)(a / 256);
    block[510] = (uint8_t)(b % 256);
    block[511] = (uint8_t)(b / 256);
}

/* A fresh volume with another low byte in a word of its stream, and a sealed block around it. */
static void change(size_t word, uint8_t low) {
    uint8_t *block = volume + word / LHZ_BLOCK_WORDS * LHZ_BLOCK_BYTES;
    fresh();
    block[4 + word % LHZ_BLOCK_WORDS * 4] = low;
    seal(block);
}

static void add(uint32_t kind, uint32_t a) {
    plan[plan_len] = kind;
    plan[plan_len + 1] = a;
    plan_len += LHZ_ROW_WORDS;
}

static void start_plan(void) {
    memset(plan, 0, sizeof plan);
    plan_len = 0;
}

int main(void) {
    for (uint32_t i = 0; i < LHZ_MAX_WORDS; i++) postings[i] = 2 * i;

    fresh();
    SHOW(LHZ_REFUSED_LENGTH, lhz_check_volume(volume, 0));
    SHOW(LHZ_REFUSED_LENGTH, lhz_check_volume(volume, LHZ_BLOCK_BYTES - 1));
    volume[LHZ_BLOCK_BYTES] = 0;
    SHOW(LHZ_REFUSED_BLOCK_NUMBER, CHECK);
    fresh();
    volume[sizeof volume - 1] ^= 1;
    SHOW(LHZ_REFUSED_CHECKSUM, CHECK);
    change(0, 2);
    SHOW(LHZ_REFUSED_VERSION, CHECK);
    change(1, 0);
    SHOW(LHZ_REFUSED_LIST_COUNT, CHECK);
    change(3, 122);
    SHOW(LHZ_REFUSED_BLOCK_COUNT, CHECK);
    change(5, 0);
    SHOW(LHZ_REFUSED_LIST_ORDER, CHECK);
    change(134, 1);
    SHOW(LHZ_REFUSED_PADDING, CHECK);

    fresh();
    SHOW(LHZ_REFUSED_PLAN_LENGTH, PLAN);
    plan_len = LHZ_MAX_PLAN_WORDS + LHZ_ROW_WORDS;
    SHOW(LHZ_REFUSED_PLAN_LENGTH, PLAN);
    start_plan();
    add(LHZ_VOICE, 1);
    SHOW(LHZ_REFUSED_UNFINISHED, PLAN);
    add(LHZ_AT_LEAST + 1, 0);
    SHOW(LHZ_REFUSED_ROW_FORM, PLAN);
    plan[LHZ_ROW_WORDS] = LHZ_APART;
    plan[LHZ_ROW_WORDS + 3] = LHZ_APART_LIMITS(1, 0);
    SHOW(LHZ_REFUSED_ROW_FORM, PLAN);
    start_plan();
    add(LHZ_AT_LEAST, 3);
    plan[2] = 2;
    SHOW(LHZ_REFUSED_ROW_FORM, PLAN);
    plan[1] = 2;
    SHOW(LHZ_REFUSED_ROW_ORDER, PLAN);
    start_plan();
    add(LHZ_VOICE, 2);
    SHOW(LHZ_REFUSED_ROW_LIST, PLAN);
    start_plan();
    for (int i = 0; i <= LHZ_MAX_VARS; i++) add(LHZ_VOICE, 1);
    SHOW(LHZ_REFUSED_ROW_TOO_MANY, PLAN);
    start_plan();
    add(LHZ_VOICE, 1);
    add(LHZ_BEFORE, 1);
    SHOW(LHZ_REFUSED_ROW_ORDER, PLAN);

    start_plan();
    for (int i = 0; i < 7; i++) {
        for (int var = 0; var < LHZ_MAX_VARS; var++) add(LHZ_VOICE, 1);
        add(LHZ_END, 0);
    }
    add(LHZ_AT_LEAST, 7);
    plan[plan_len - 2] = 7;
    printf("longest row %d: %u %u\n", LHZ_MAX_ROW_WORDS, (unsigned)PLAN.patterns,
           (unsigned)PLAN.vars);
    SHOW(LHZ_REFUSED_START, LIST(LHZ_LAST_DOC + 1, LHZ_MAX_ROW_WORDS));
    SHOW(LHZ_REFUSED_SHORT_BUFFER, LIST(LHZ_LAST_DOC, LHZ_MAX_ROW_WORDS - 1));
    SHOW(LHZ_REFUSED_SHORT_BUFFER, READ(1, LHZ_MAX_ROW_WORDS));
    SHOW(LHZ_REFUSED_OUT_OF_RANGE, READ(2, LHZ_MAX_ROW_WORDS));
    out[LHZ_MAX_VARS - 1] = LHZ_LAST_POS + 1;
    SHOW(LHZ_REFUSED_OUT_OF_RANGE, lhz_test_positions(volume, sizeof volume, plan, plan_len, 0,
                                                      LHZ_LAST_DOC, out, LHZ_MAX_VARS));
    SHOW(LHZ_REFUSED_OUT_OF_RANGE, MATCHES(LHZ_LAST_DOC, LHZ_MAX_VARS));
    out[LHZ_MAX_VARS - 1] = LHZ_LAST_POS;
    SHOW(LHZ_REFUSED_OUT_OF_RANGE, MATCHES(LHZ_LAST_DOC + 1, LHZ_MAX_VARS - 1));
    SHOW(LHZ_REFUSED_SHORT_BUFFER, MATCHES(LHZ_LAST_DOC, LHZ_MAX_VARS - 1));

    SHOW(LHZ_REFUSED_COUNT_SUM, WRITE(2, 129, sizeof written));
    counts[0] = LHZ_MAX_WORDS - 4 - counts[1];
    SHOW(LHZ_REFUSED_SHORT_OUTPUT, WRITE(2, LHZ_MAX_WORDS - 4, LHZ_BLOCK_BYTES));
    counts[0] += 1;
    SHOW(LHZ_REFUSED_TOO_LARGE, WRITE(2, LHZ_MAX_WORDS - 3, sizeof written));

    memcpy(line, "[1]&[1;s 9]|[1]", 15);
    SHOW(LHZ_REFUSED_LINE_FORM, LINE(sizeof line, LHZ_MAX_PLAN_WORDS));
    SHOW(LHZ_REFUSED_LINE_FORM, LINE(0, LHZ_MAX_PLAN_WORDS));
    SHOW(LHZ_REFUSED_LINE_FORM, LINE(12, LHZ_MAX_PLAN_WORDS));
    SHOW(LHZ_REFUSED_LINE_FORM, LINE(16, LHZ_MAX_PLAN_WORDS));
    SHOW(LHZ_REFUSED_SHORT_BUFFER, LINE(15, 8 * LHZ_ROW_WORDS));
    plan_len = LINE(15, 9 * LHZ_ROW_WORDS).words;
    SHOW(LHZ_REFUSED_SHORT_BUFFER, TELL(14));
    plan_len -= LHZ_ROW_WORDS;
    SHOW(LHZ_REFUSED_UNFINISHED, TELL(14));
    memset(line, '(', sizeof line);
    SHOW(LHZ_REFUSED_LINE_FORM, LINE(LHZ_MAX_LINE_DEPTH, LHZ_MAX_PLAN_WORDS));
    SHOW(LHZ_REFUSED_LINE_DEPTH, LINE(LHZ_MAX_LINE_DEPTH + 1, LHZ_MAX_PLAN_WORDS));
    line[LHZ_MAX_LINE_DEPTH] = '<';
    SHOW(LHZ_REFUSED_LINE_DEPTH, LINE(LHZ_MAX_LINE_DEPTH + 1, LHZ_MAX_PLAN_WORDS));
    line[0] = '[';
    for (size_t i = 1; i < 2 * LHZ_MAX_ROWS; i += 2) memcpy(line + i, "1 ", 2);
    line[2 * LHZ_MAX_ROWS] = ']';
    SHOW(LHZ_REFUSED_LINE_ROWS, LINE(2 * LHZ_MAX_ROWS + 1, 0));

    counts[0] = 0;
    WRITE(1, 0, LHZ_BLOCK_BYTES);
    SHOW(LHZ_REFUSED_LISTS_DIFFER, lhz_join_volumes(volume, sizeof volume, written, LHZ_BLOCK_BYTES,
                                                    1, joined, sizeof joined));
    SHOW(LHZ_REFUSED_RAISE, JOIN(0, sizeof joined));
    SHOW(LHZ_REFUSED_RAISE, JOIN(LHZ_LAST_DOC + 1, 0));
    SHOW(LHZ_REFUSED_SHORT_OUTPUT, JOIN(LHZ_LAST_DOC, sizeof joined - 1));
    counts[0] = LHZ_MAX_WORDS / 2 - 1;
    counts[1] = 0;
    lhz_write_volume(counts, 2, postings, counts[0], half, sizeof half);
    SHOW(LHZ_REFUSED_TOO_LARGE,
         lhz_join_volumes(half, sizeof half, half, sizeof half, LHZ_LAST_DOC / 2, joined, 0));
    volume[0] = 1;
    SHOW(LHZ_REFUSED_BLOCK_NUMBER, JOIN(0, 0));
    return 0;
}
