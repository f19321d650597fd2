/* The sample volume of document 01 through the C interface: each answer, field by field. */
#include "lihambozy.h"

#include <stdio.h>
#include <string.h>

static const uint32_t counts[3] = {2, 3, 3};
static const uint32_t postings[8] = {65536, 65542, 65538, 65544, 131076, 65541, 65543, 131081};

static void show_check(const uint8_t *volume, size_t len) {
    lhz_check_volume_answer answer = lhz_check_volume(volume, len);
    printf("check %u %u %u %u\n", (unsigned)answer.refusal, (unsigned)answer.at,
           (unsigned)answer.lists, (unsigned)answer.postings);
}

static void show_read(const uint8_t *volume, size_t len, uint32_t list, size_t room) {
    uint32_t out[9] = {7, 7, 7, 7, 7, 7, 7, 7, 7};
    lhz_read_list_answer answer = lhz_read_list(volume, len, list, out, room);
    printf("read %u %u %u:", (unsigned)answer.refusal, (unsigned)answer.at, (unsigned)answer.count);
    for (int i = 0; i < 4; i++) printf(" %u", (unsigned)out[i]);
    printf("\n");
}

static void show_write(size_t lists, uint8_t *out, size_t room) {
    lhz_write_volume_answer answer = lhz_write_volume(counts, lists, postings, 8, out, room);
    printf("write %u %u %u\n", (unsigned)answer.refusal, (unsigned)answer.at,
           (unsigned)answer.blocks);
}

int main(void) {
    static uint8_t out[2 * LHZ_BLOCK_BYTES];
    printf("limits %d %d %d %d %d %d\n", LHZ_BLOCK_BYTES, LHZ_BLOCK_WORDS, LHZ_MAX_BLOCKS,
           LHZ_MAX_BYTES, LHZ_MAX_WORDS, LHZ_MAX_LISTS);
    memset(out, 7, sizeof out);
    show_write(2, out, sizeof out);
    show_write(3, out, LHZ_BLOCK_BYTES - 1);
    printf("out %u %u\n", (unsigned)out[0], (unsigned)out[511]);
    show_write(3, out, sizeof out);
    printf("out %u %u %u %u\n", (unsigned)out[0], (unsigned)out[4], (unsigned)out[508],
           (unsigned)out[512]);
    show_check(out, LHZ_BLOCK_BYTES);
    show_check(out, sizeof out);
    show_read(out, LHZ_BLOCK_BYTES, 0, 9);
    show_read(out, LHZ_BLOCK_BYTES, 2, 3);
    show_read(out, LHZ_BLOCK_BYTES, 2, 2);
    show_read(out, LHZ_BLOCK_BYTES, 3, 9);
    out[0] = 1;
    show_read(out, LHZ_BLOCK_BYTES, 0, 9);
    return 0;
}
