/* Searches through the C interface, over the sample volume of document 01: each answer, field by
 * field, each row, and each tuple that passes. Volume, plan, positions and buffer are lent out of
 * the middle of other bytes and words; all but the buffer are compared after each call with how
 * they were, and the words before and behind the rows and tuples with 7. */
#include "lihambozy.h"

#include <stdio.h>
#include <string.h>

#define SIDE 16
#define ROOM 100
#define SEVENS 0x07070707u

static const uint32_t counts[3] = {2, 3, 3};
static const uint32_t postings[8] = {65536, 65542, 65538, 65544, 131076, 65541, 65543, 131081};
/* The same without the first start. */
static const uint32_t late_counts[3] = {1, 3, 3};

struct memory {
    uint8_t bytes[SIDE + LHZ_BLOCK_BYTES + SIDE];
    uint32_t words[SIDE + ROOM + SIDE];
    uint32_t positions[SIDE + LHZ_MAX_VARS + SIDE];
};

static struct memory lent, kept;
static uint8_t *const volume = lent.bytes + SIDE;
static uint32_t *const plan = lent.words + SIDE;
static uint32_t *const positions = lent.positions + SIDE;
static size_t plan_len;

/* The words of a row, as the plan's check tells them. */
static size_t width(void) {
    lhz_check_plan_answer answer = lhz_check_plan(volume, LHZ_BLOCK_BYTES, plan, plan_len);
    return 1 + (size_t)answer.patterns + 2 * (size_t)answer.vars;
}

static void add(uint32_t kind, uint32_t a, uint32_t b, uint32_t c) {
    plan[plan_len] = kind;
    plan[plan_len + 1] = a;
    plan[plan_len + 2] = b;
    plan[plan_len + 3] = c;
    plan_len += LHZ_ROW_WORDS;
}

static void show_kept(void) {
    printf(memcmp(&lent, &kept, sizeof lent) == 0 ? "\n" : " written\n");
}

static void show_test(uint32_t pattern, uint32_t doc, uint32_t p, uint32_t q, size_t count) {
    positions[0] = p;
    positions[1] = q;
    kept = lent;
    lhz_test_positions_answer answer = lhz_test_positions(volume, LHZ_BLOCK_BYTES, plan, plan_len,
                                                          pattern, doc, positions, count);
    printf("test %u %u %u", (unsigned)answer.refusal, (unsigned)answer.at, (unsigned)answer.passes);
    show_kept();
}

/* Lists into so many words: the answer, and the rows written. */
static lhz_list_answer show_list(uint32_t start, size_t room) {
    uint32_t memory[SIDE + ROOM + SIDE];
    uint32_t *out = memory + SIDE;
    size_t words, touched = 0, i;
    memset(memory, 7, sizeof memory);
    kept = lent;
    lhz_list_answer answer = lhz_list(volume, LHZ_BLOCK_BYTES, plan, plan_len, start, out, room);
    printf("list %u %u %u %u %u", (unsigned)answer.refusal, (unsigned)answer.at,
           (unsigned)answer.rows, (unsigned)answer.tally, (unsigned)answer.next);
    words = answer.rows * width();
    for (i = 0; i < words; i++) printf("%s%u", i % width() ? " " : ": ", (unsigned)out[i]);
    for (i = 0; i < SIDE; i++) touched += memory[i] != SEVENS;
    for (i = SIDE + words; i < SIDE + ROOM + SIDE; i++) touched += memory[i] != SEVENS;
    if (touched) printf(" %u touched", (unsigned)touched);
    show_kept();
    return answer;
}

/* Lists matches from the positions, so many of them, into so many words: the answer with all words
 * of `next`, and the tuples written. */
static lhz_list_matches_answer show_matches(uint32_t pattern, uint32_t doc, size_t count,
                                            size_t room) {
    uint32_t memory[SIDE + ROOM + SIDE];
    uint32_t *out = memory + SIDE;
    size_t words, touched = 0, i;
    memset(memory, 7, sizeof memory);
    kept = lent;
    lhz_list_matches_answer answer = lhz_list_matches(
        volume, LHZ_BLOCK_BYTES, plan, plan_len, pattern, doc, positions, count, out, room);
    printf("matches %u %u %llu %u,", (unsigned)answer.refusal, (unsigned)answer.at,
           (unsigned long long)answer.count, (unsigned)answer.more);
    for (i = 0; i < LHZ_MAX_VARS; i++) printf(" %u", (unsigned)answer.next[i]);
    words = (size_t)answer.count * count;
    for (i = 0; i < words; i++) printf("%s%u", i % count ? " " : ": ", (unsigned)out[i]);
    for (i = 0; i < SIDE; i++) touched += memory[i] != SEVENS;
    for (i = SIDE + words; i < SIDE + ROOM + SIDE; i++) touched += memory[i] != SEVENS;
    if (touched) printf(" %u touched", (unsigned)touched);
    show_kept();
    return answer;
}

/* All tuples of a pattern in a document through buffers of one length, from zeros: how many. The
 * loop is that of the header. No enumeration here has more than five calls. */
static void enumerate(uint32_t pattern, uint32_t doc, size_t vars, size_t room) {
    lhz_list_matches_answer answer;
    uint64_t tuples = 0;
    int calls = 0;
    printf("all of %u in %u, %u words\n", (unsigned)pattern, (unsigned)doc, (unsigned)room);
    memset(positions, 0, LHZ_MAX_VARS * sizeof *positions);
    do {
        answer = show_matches(pattern, doc, vars, room);
        if (answer.refusal != 0) return;
        tuples += answer.count;
        memcpy(positions, answer.next, sizeof answer.next);
    } while (answer.more && ++calls < 5);
    printf("%s %llu\n", answer.more ? "more" : "done", (unsigned long long)tuples);
}

static void show_matches_from(uint32_t pattern, uint32_t doc, uint32_t p, uint32_t q, size_t count,
                              size_t room) {
    positions[0] = p;
    positions[1] = q;
    show_matches(pattern, doc, count, room);
}

/* A search to DONE through buffers of one length: how many rows, and the sum of the tallies. No
 * search here has more than three calls. */
static void search(const char *name, size_t room) {
    uint32_t rows = 0, tally = 0, start = 0;
    int calls;
    printf("%s, %u words\n", name, (unsigned)room);
    for (calls = 0; calls < 3 && start != LHZ_DONE; calls++) {
        lhz_list_answer answer = show_list(start, room);
        if (answer.refusal != 0) return;
        rows += answer.rows;
        tally += answer.tally;
        start = answer.next;
    }
    printf("%s %u %u\n", start == LHZ_DONE ? "done" : "more", (unsigned)rows, (unsigned)tally);
}

int main(void) {
    memset(&lent, 7, sizeof lent);
    if (lhz_write_volume(counts, 3, postings, 8, volume, LHZ_BLOCK_BYTES).refusal != 0) return 1;

    printf("test answer %u: %u %u %u\n", (unsigned)sizeof(lhz_test_positions_answer),
           (unsigned)offsetof(lhz_test_positions_answer, refusal),
           (unsigned)offsetof(lhz_test_positions_answer, at),
           (unsigned)offsetof(lhz_test_positions_answer, passes));
    printf("list answer %u: %u %u %u %u %u\n", (unsigned)sizeof(lhz_list_answer),
           (unsigned)offsetof(lhz_list_answer, refusal), (unsigned)offsetof(lhz_list_answer, at),
           (unsigned)offsetof(lhz_list_answer, rows), (unsigned)offsetof(lhz_list_answer, tally),
           (unsigned)offsetof(lhz_list_answer, next));
    printf("matches answer %u: %u %u %u %u %u\n", (unsigned)sizeof(lhz_list_matches_answer),
           (unsigned)offsetof(lhz_list_matches_answer, refusal),
           (unsigned)offsetof(lhz_list_matches_answer, at),
           (unsigned)offsetof(lhz_list_matches_answer, count),
           (unsigned)offsetof(lhz_list_matches_answer, more),
           (unsigned)offsetof(lhz_list_matches_answer, next));
    printf("DONE %d, NO START %d\n", LHZ_DONE, LHZ_NO_START);

    show_list(0, ROOM);
    show_test(0, 1, 2, 5, 2);
    show_matches_from(0, 1, 0, 0, 2, ROOM);
    add(LHZ_VOICE, 1, 0, 0);
    add(LHZ_VOICE, 2, 0, 0);
    add(LHZ_BEFORE, 0, 1, 0);
    add(LHZ_SAME_TITLE, 0, 1, 0);
    show_list(0, ROOM);
    add(LHZ_END, 0, 0, 0);
    search("sample", width());
    search("sample", width() + 3);
    search("sample", 2 * width());
    search("sample", width() - 1);
    search("sample", 4);
    search("sample", 0);
    show_list(2, ROOM);
    show_list(3, ROOM);
    show_list(65535, ROOM);
    show_list(65536, ROOM);
    show_list(UINT32_MAX, 0);

    show_test(0, 1, 2, 5, 2);
    show_test(0, 1, 2, 7, 2);
    show_test(0, 2, 4, 9, 2);
    show_test(0, 2, 2, 5, 2);
    show_test(1, 1, 2, 5, 2);
    show_test(0, 65536, 2, 5, 2);
    show_test(0, 1, 2, 5, 1);
    show_test(0, 1, 2, 65541, 2);

    enumerate(0, 1, 2, 2);
    show_matches_from(0, 1, 2, 5, 2, ROOM);
    show_matches_from(0, 1, 2, 6, 2, ROOM);
    show_matches_from(0, 2, 0, 0, 2, ROOM);
    show_matches_from(1, 1, 0, 0, 2, ROOM);
    show_matches_from(0, 65536, 0, 0, 2, ROOM);
    show_matches_from(0, 1, 0, 0, 1, ROOM);
    show_matches_from(0, 1, 0, 0, 3, 1);
    show_matches_from(0, 1, 0, 65536, 2, 1);
    show_matches_from(0, 1, 0, 0, 2, 1);
    show_matches_from(0, 65535, 65535, 65535, 2, 0);

    /* The fourth row as SAME TITLE 0 0, and as BEFORE 0 1, like the third. */
    plan[14] = 0;
    search("SAME TITLE 0 0", width());
    show_test(0, 1, 2, 7, 2);
    show_test(0, 2, 4, 9, 2);
    plan[12] = LHZ_BEFORE;
    plan[14] = 1;
    search("BEFORE", width());
    search("BEFORE", 2 * width());
    show_list(2, ROOM);
    show_test(0, 2, 4, 9, 2);

    add(LHZ_VOICE, 2, 0, 0);
    add(LHZ_VOICE, 1, 0, 0);
    add(LHZ_NEAR, 0, 1, 0);
    add(LHZ_END, 0, 0, 0);
    add(LHZ_FIRST_NOT_SECOND, 0, 0, 0);
    search("FIRST NOT SECOND", width());
    plan[plan_len - 4] = LHZ_EITHER;
    search("EITHER", width());
    show_test(1, 1, 7, 8, 2);
    enumerate(0, 1, 2, 2);
    enumerate(0, 1, 2, 5);
    enumerate(1, 1, 2, 2);
    enumerate(1, 2, 2, 2);
    show_matches_from(2, 1, 0, 0, 2, ROOM);
    plan[plan_len - 4] = LHZ_AT_LEAST + 1;
    show_list(65536, 0);

    plan_len = 0;
    add(LHZ_VOICE, 1, 0, 0);
    add(LHZ_VOICE, 2, 0, 0);
    add(LHZ_APART, 0, 1, LHZ_APART_LIMITS(2, 4));
    add(LHZ_END, 0, 0, 0);
    search("APART 2 4", 2 * width());
    show_test(0, 1, 2, 5, 2);
    show_test(0, 1, 2, 7, 2);
    show_test(0, 1, 8, 5, 2);
    plan[11] = LHZ_APART_LIMITS(3, 3);
    search("APART 3 3", 2 * width());
    plan[11] = LHZ_APART_LIMITS(4, LHZ_NO_UPPER_END);
    search("APART 4 and no upper end", 2 * width());
    plan[11] = LHZ_APART_LIMITS(4, 3);
    show_list(0, ROOM);

    show_matches_from(9, 65536, 0, 0, 0, 0);

    /* Three patterns: the second word behind the first, the first in a title, and the second right
     * behind the first. Document 1 has two of them, document 2 one. */
    plan_len = 0;
    add(LHZ_VOICE, 1, 0, 0);
    add(LHZ_VOICE, 2, 0, 0);
    add(LHZ_BEFORE, 0, 1, 0);
    add(LHZ_END, 0, 0, 0);
    add(LHZ_VOICE, 1, 0, 0);
    add(LHZ_SAME_TITLE, 0, 0, 0);
    add(LHZ_END, 0, 0, 0);
    add(LHZ_VOICE, 1, 0, 0);
    add(LHZ_VOICE, 2, 0, 0);
    add(LHZ_APART, 0, 1, LHZ_APART_LIMITS(0, 0));
    add(LHZ_END, 0, 0, 0);
    add(LHZ_AT_LEAST, 1, 3, 0);
    search("AT LEAST 1 3", width());
    plan[plan_len - 3] = 2;
    search("AT LEAST 2 3", width());
    enumerate(1, 1, 1, ROOM);
    plan[plan_len - 3] = 3;
    search("AT LEAST 3 3", width());
    plan[plan_len - 3] = 4;
    show_list(0, ROOM);
    plan[plan_len - 2] = 4;
    show_list(0, ROOM);

    /* All tuples of one variable, of two and of eight. */
    plan_len = 0;
    add(LHZ_VOICE, 2, 0, 0);
    add(LHZ_END, 0, 0, 0);
    enumerate(0, 1, 1, 1);
    plan_len -= LHZ_ROW_WORDS;
    add(LHZ_VOICE, 1, 0, 0);
    add(LHZ_END, 0, 0, 0);
    enumerate(0, 1, 2, 3);
    enumerate(0, 1, 2, 8);
    plan_len -= LHZ_ROW_WORDS;
    while (plan_len < LHZ_MAX_VARS * LHZ_ROW_WORDS) add(LHZ_VOICE, 1, 0, 0);
    add(LHZ_END, 0, 0, 0);
    enumerate(0, 2, LHZ_MAX_VARS, LHZ_MAX_VARS);
    for (size_t i = 0; i < LHZ_MAX_VARS; i++) positions[i] = i < 6 ? 7 : 2;
    show_matches(0, 1, LHZ_MAX_VARS, 2 * LHZ_MAX_VARS - 1);
    show_matches(0, 1, LHZ_MAX_VARS, LHZ_MAX_VARS - 1);

    /* The first title of document 1 starts at 6, between two positions of one list. */
    if (lhz_write_volume(late_counts, 3, postings + 1, 7, volume, LHZ_BLOCK_BYTES).refusal != 0)
        return 1;
    plan_len = 0;
    add(LHZ_VOICE, 1, 0, 0);
    add(LHZ_VOICE, 1, 0, 0);
    add(LHZ_VOICE, 2, 0, 0);
    add(LHZ_BEFORE, 0, 1, 0);
    add(LHZ_END, 0, 0, 0);
    search("late title", width());
    search("late title", width() - 1);
    add(LHZ_VOICE, 2, 0, 0);
    add(LHZ_SAME_TITLE, 0, 0, 0);
    add(LHZ_END, 0, 0, 0);
    add(LHZ_BOTH, 0, 0, 0);
    search("late title, and a word in a title", 2 * width() - 1);

    volume[LHZ_BLOCK_BYTES - 1] ^= 1;
    show_list(65536, 0);
    show_test(9, 65536, 2, 5, 0);
    show_matches_from(9, 65536, 2, 65536, 0, 0);
    return 0;
}
