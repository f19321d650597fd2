/* Two volumes joined through the C interface: each answer, field by field, and what is written. */
#include "lihambozy.h"

#include <stddef.h>
#include <stdio.h>
#include <string.h>

/* The sample volume of document 01, and a second work with as many lists. The last document of the
 * sample is 2; those of the second are 0 and 9. */
static const uint32_t first_counts[3] = {2, 3, 3};
static const uint32_t first_postings[8] = {65536,  65542, 65538, 65544,
                                           131076, 65541, 65543, 131081};
static const uint32_t second_counts[3] = {1, 2, 0};
static const uint32_t second_postings[3] = {0, 4, 9 * 65536 + 7};

/* Behind the block of the second there is one more, with its number and a wrong checksum. */
static uint8_t first[LHZ_BLOCK_BYTES], second[2 * LHZ_BLOCK_BYTES], out[2 * LHZ_BLOCK_BYTES];

static void show_join(size_t first_len, size_t second_len, uint32_t raise, size_t room) {
    lhz_join_volumes_answer answer;
    size_t written, kept = 0;

    memset(out, 7, sizeof out);
    answer = lhz_join_volumes(first, first_len, second, second_len, raise, out, room);
    written = answer.blocks * (size_t)LHZ_BLOCK_BYTES;
    for (size_t i = written; i < sizeof out; i++) kept += out[i] == 7;
    printf("join %u %u %u %u, %s\n", (unsigned)answer.refusal, (unsigned)answer.at,
           (unsigned)answer.volume, (unsigned)answer.blocks,
           kept == sizeof out - written ? "kept" : "changed");
}

static void show_lists(void) {
    lhz_check_volume_answer checked = lhz_check_volume(out, LHZ_BLOCK_BYTES);
    printf("check %u %u %u %u\n", (unsigned)checked.refusal, (unsigned)checked.at,
           (unsigned)checked.lists, (unsigned)checked.postings);
    for (uint32_t list = 0; list < checked.lists; list++) {
        uint32_t postings[11];
        uint32_t count = lhz_read_list(out, LHZ_BLOCK_BYTES, list, postings, 11).count;
        printf("list %u:", (unsigned)list);
        for (uint32_t i = 0; i < count; i++) {
            printf(" %u:%u", (unsigned)(postings[i] / 65536), (unsigned)(postings[i] % 65536));
        }
        printf("\n");
    }
}

int main(void) {
    const size_t len = LHZ_BLOCK_BYTES;
    printf("join answer %u: %u %u %u %u\n", (unsigned)sizeof(lhz_join_volumes_answer),
           (unsigned)offsetof(lhz_join_volumes_answer, refusal),
           (unsigned)offsetof(lhz_join_volumes_answer, at),
           (unsigned)offsetof(lhz_join_volumes_answer, volume),
           (unsigned)offsetof(lhz_join_volumes_answer, blocks));
    lhz_write_volume(first_counts, 3, first_postings, 8, first, sizeof first);
    lhz_write_volume(second_counts, 3, second_postings, 3, second, len);
    second[len] = 1;

    show_join(len, len, 3, sizeof out);
    show_lists();
    show_join(len, len, 65526, len);
    show_lists();
    show_join(len, len, 2, sizeof out);
    show_join(len, len, 65527, sizeof out);
    show_join(len, len, 0xFFFFFFFF, sizeof out);
    show_join(len, len, 3, len - 1);
    show_join(len, len, 2, 0);

    /* The first volume is refused before the second, and each before all else. */
    show_join(0, len, 0, 0);
    show_join(len, 0, 0, 0);
    show_join(0, 0, 0, 0);
    show_join(len, sizeof second, 3, sizeof out);
    first[300] ^= 1;
    show_join(len, sizeof second, 3, sizeof out);
    first[300] ^= 1;

    /* Another number of lists, and then no posting, which no number raises too far. */
    lhz_write_volume(second_counts, 2, second_postings, 3, second, len);
    show_join(len, len, 2, sizeof out);
    lhz_write_volume(second_counts + 2, 1, second_postings, 0, second, len);
    show_join(len, len, 0, 0);
    memcpy(first, second, len);
    show_join(len, len, 0xFFFFFFFF, sizeof out);
    show_lists();
    return 0;
}
