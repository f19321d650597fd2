/* Typed lines through the C interface, over the sample volume of document 01: each answer, field by
 * field, with the rows read, unless they fill a plan, and the lines written. Lines, volume, plan
 * and buffers are lent out of the middle of other bytes and words. What is lent for reading is
 * compared after each call with how it was, and what stands before and behind the rows and the line
 * with 7. */
#include "lihambozy.h"

#include <stdio.h>
#include <string.h>

#define SIDE 16
#define SEVENS 0x07070707u

static const uint32_t counts[3] = {2, 3, 3};
static const uint32_t postings[8] = {65536, 65542, 65538, 65544, 131076, 65541, 65543, 131081};

struct memory {
    uint8_t bytes[SIDE + LHZ_BLOCK_BYTES + SIDE];
    uint8_t line[SIDE + LHZ_MAX_LINE_BYTES + 1 + SIDE];
    uint32_t words[SIDE + LHZ_MAX_PLAN_WORDS + SIDE];
};

static struct memory lent, kept;
static uint8_t *const volume = lent.bytes + SIDE;
static uint8_t *const line = lent.line + SIDE;
static uint32_t *const plan = lent.words + SIDE;
static size_t plan_len;

static void show_kept(size_t touched) {
    if (touched) printf(" %u touched", (unsigned)touched);
    printf(memcmp(&lent, &kept, sizeof lent) == 0 ? "\n" : " written\n");
}

/* Reads the first bytes of the line into so many words: the answer, and the rows written, which
 * become the plan where there are any. */
static void read_line(size_t len, size_t room) {
    uint32_t memory[SIDE + LHZ_MAX_PLAN_WORDS + SIDE];
    uint32_t *out = memory + SIDE;
    size_t touched = 0, i;
    memset(memory, 7, sizeof memory);
    kept = lent;
    lhz_line_to_plan_answer answer = lhz_line_to_plan(line, len, out, room);
    printf("read %u %u %u", (unsigned)answer.refusal, (unsigned)answer.at, (unsigned)answer.words);
    for (i = 0; i < answer.words && answer.words < LHZ_MAX_PLAN_WORDS; i++)
        printf("%s%u", i % LHZ_ROW_WORDS ? " " : ": ", (unsigned)out[i]);
    for (i = 0; i < SIDE; i++) touched += memory[i] != SEVENS;
    for (i = SIDE + answer.words; i < sizeof memory / sizeof *memory; i++)
        touched += memory[i] != SEVENS;
    show_kept(touched);
    if (answer.words != 0) {
        plan_len = answer.words;
        memcpy(plan, out, plan_len * sizeof *plan);
    }
}

/* Puts a line in place, without the zero byte that ends it in C, and reads it. */
static void show_line(const char *typed) {
    size_t len = strlen(typed);
    memset(line, 7, LHZ_MAX_LINE_BYTES + 1);
    memcpy(line, typed, len);
    printf("%s\n", typed);
    read_line(len, LHZ_MAX_PLAN_WORDS);
}

/* Writes the plan as a line into so many bytes: the answer, and the line. */
static void show_plan(size_t room) {
    uint8_t memory[SIDE + LHZ_MAX_LINE_BYTES + SIDE];
    uint8_t *out = memory + SIDE;
    size_t touched = 0, i;
    memset(memory, 7, sizeof memory);
    kept = lent;
    lhz_plan_to_line_answer answer =
        lhz_plan_to_line(volume, LHZ_BLOCK_BYTES, plan, plan_len, out, room);
    printf("line %u %u %u", (unsigned)answer.refusal, (unsigned)answer.at, (unsigned)answer.bytes);
    if (answer.bytes != 0) printf(": %.*s", (int)answer.bytes, (const char *)out);
    for (i = 0; i < SIDE; i++) touched += memory[i] != 7;
    for (i = SIDE + answer.bytes; i < sizeof memory; i++) touched += memory[i] != 7;
    show_kept(touched);
}

int main(void) {
    size_t len;
    memset(&lent, 7, sizeof lent);
    if (lhz_write_volume(counts, 3, postings, 8, volume, LHZ_BLOCK_BYTES).refusal != 0) return 1;

    printf("read answer %u: %u %u %u\n", (unsigned)sizeof(lhz_line_to_plan_answer),
           (unsigned)offsetof(lhz_line_to_plan_answer, refusal),
           (unsigned)offsetof(lhz_line_to_plan_answer, at),
           (unsigned)offsetof(lhz_line_to_plan_answer, words));
    printf("line answer %u: %u %u %u\n", (unsigned)sizeof(lhz_plan_to_line_answer),
           (unsigned)offsetof(lhz_plan_to_line_answer, refusal),
           (unsigned)offsetof(lhz_plan_to_line_answer, at),
           (unsigned)offsetof(lhz_plan_to_line_answer, bytes));
    printf("limits %d %d\n", LHZ_MAX_LINE_BYTES, LHZ_MAX_LINE_DEPTH);

    /* Accepted over the sample, with the line that is written, and into buffers too short. */
    show_line("[1 2;b 0 1;t 0 1]");
    read_line(17, 20);
    read_line(17, 19);
    read_line(17, 0);
    show_plan(LHZ_MAX_LINE_BYTES);
    show_plan(17);
    show_plan(16);
    show_plan(0);
    show_line("[1 2;b 0 1]|([2]&[1])");
    show_plan(LHZ_MAX_LINE_BYTES);
    show_line("((([1]|[2])))!([1]&[2])");
    show_plan(LHZ_MAX_LINE_BYTES);
    show_line("[2 1;n 1 0 65535;s 65536;a 0 1 0 65535]");
    show_plan(LHZ_MAX_LINE_BYTES);
    show_line("(<2:[1],([2]|[1]),<1:[2],[1]>>)![2]");
    show_plan(LHZ_MAX_LINE_BYTES);
    show_plan(31);
    show_plan(30);

    /* Read, and refused as plans: list 3, variable 2, a SPAN of 0, and a volume. */
    show_line("[1]&[3]");
    show_plan(LHZ_MAX_LINE_BYTES);
    show_line("[1 2;b 2 65536]");
    show_plan(0);
    show_line("[1;s 0]");
    show_plan(LHZ_MAX_LINE_BYTES);
    volume[LHZ_BLOCK_BYTES - 1] ^= 1;
    show_plan(0);
    volume[LHZ_BLOCK_BYTES - 1] ^= 1;
    plan_len = 0;
    show_plan(0);

    show_line("");
    show_line("[65537");
    show_line("[65536");
    show_line("[655360]");
    show_line("[01]");
    show_line("[1 ]");
    show_line("[1;n 0 1]");
    show_line("[1;n 0 1 2 3]");
    show_line("[1;a 0 1 65535 65536]");
    show_line("[1]\n");
    show_line("[1]]");
    read_line(3, 8);
    show_line("(((((((([1]))))))))");
    show_line("((((((((([1])))))))))");
    show_line("(((((((([1](");
    show_line("((((((((x(");
    show_line("<");
    show_line("<9:[1],[2]>");
    show_line("<2:[1]>");
    show_line("<3:[1],[2]>");
    show_line("<8:[1],[1],[1],[1],[1],[1],[1],[1],[1]>");
    show_line("[1],[2]");
    show_line("<1:[1],(((((((<1:[1],[2]>");

    /* 64 rows and 65, in 127 bytes and 129; then 2,048 bytes and 2,049. */
    line[0] = '[';
    for (len = 1; len < LHZ_MAX_LINE_BYTES + 1; len++) line[len] = len % 2 ? '1' : ' ';
    line[126] = ']';
    read_line(127, LHZ_MAX_PLAN_WORDS);
    read_line(127, LHZ_MAX_PLAN_WORDS - 1);
    line[126] = ' ';
    line[128] = ']';
    read_line(129, LHZ_MAX_PLAN_WORDS);
    read_line(129, 0);
    line[128] = ' ';
    line[2046] = '1';
    line[2047] = ']';
    read_line(LHZ_MAX_LINE_BYTES, LHZ_MAX_PLAN_WORDS);
    read_line(LHZ_MAX_LINE_BYTES - 1, LHZ_MAX_PLAN_WORDS);
    read_line(LHZ_MAX_LINE_BYTES + 1, LHZ_MAX_PLAN_WORDS);
    line[0] = 'x';
    read_line(LHZ_MAX_LINE_BYTES, LHZ_MAX_PLAN_WORDS);
    read_line(LHZ_MAX_LINE_BYTES + 1, 0);
    return 0;
}
