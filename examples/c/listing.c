/* listing: prints the scenes of a volume in which a plan is true.
 *
 *    listing VOLUME PLAN [WORDS]
 *
 * VOLUME is a volume of any size, up to 4 MiB. PLAN is a plan file: the words of the plan as bytes,
 * little-endian. The search goes through a buffer of WORDS words of 32 bits, or of one row where
 * WORDS is not given. Built in the folder of the repository with
 *
 *    cc -std=c99 examples/c/listing.c -Iinclude target/staticlib/liblihambozy.a -o listing
 *
 * For each true scene, rising, it prints `scene` and the words of its row: the scene, then for each
 * figure 1 and the earliest places of its voices, or 0 and zeros. Behind each place stands the
 * start of its title, or 65536 where the place is in no title. Then it prints `done` and the sum of
 * the tallies. A listing without that last line is not whole. Where the volume, the plan or the
 * buffer is refused it prints `refused`, the number and the place, and on standard error why.
 *
 * Exit status: 0 listed; 1 refused; 2 wrong usage, a file that cannot be read, no memory, or
 * standard output that cannot be written.
 */
#include "lihambozy.h"

#include <errno.h>
#include <inttypes.h>
#include <stdio.h>
#include <stdlib.h>
#include <string.h>

enum { LISTED = 0, REFUSED = 1, FAILED = 2 };

/* The words of the longest listing: a row for every document (01: scene). */
#define MOST_WORDS (((size_t)LHZ_LAST_DOC + 1) * LHZ_MAX_ROW_WORDS)

struct file {
    const char *name;
    uint8_t *bytes;
    size_t len;
};

/* Why a listing is refused, in document 01's words; # stands for the place. */
static const char *const sentences[] = {
    [LHZ_REFUSED_LENGTH] =
        "the volume is empty, is no whole number of blocks of 512 bytes, or has over 8,192 blocks",
    [LHZ_REFUSED_BLOCK_NUMBER] = "block # does not hold its own number",
    [LHZ_REFUSED_CHECKSUM] = "the check of block # is wrong",
    [LHZ_REFUSED_VERSION] = "the volume's edition is not 1",
    [LHZ_REFUSED_LIST_COUNT] = "the number of lists is not 1 to 1,024",
    [LHZ_REFUSED_BLOCK_COUNT] = "the number of blocks is not the least that holds the lists",
    [LHZ_REFUSED_LIST_ORDER] = "list # does not rise strictly",
    [LHZ_REFUSED_PADDING] = "word # of the stream, behind the lists, is not 0",
    [LHZ_REFUSED_PLAN_LENGTH] =
        "the plan is empty, is no whole number of rows, or has over 64 rows",
    [LHZ_REFUSED_ROW_FORM] =
        "row # of the plan has an unknown kind, a word that is not 0 where its kind uses none, "
        "a c out of range, a least that exceeds its most, or as AT LEAST an a that is not 1 to b "
        "or a b that is not 2 to 8",
    [LHZ_REFUSED_ROW_LIST] =
        "row # of the plan names list 0, or a list that the volume does not have",
    [LHZ_REFUSED_ROW_TOO_MANY] =
        "row # of the plan is the ninth voice of a figure, or opens a ninth figure",
    [LHZ_REFUSED_ROW_ORDER] =
        "row # of the plan is out of order, finds fewer answers than it takes, or names a voice "
        "that its figure does not have",
    [LHZ_REFUSED_UNFINISHED] = "the plan ends with a figure open, or not with one answer",
    [LHZ_REFUSED_START] = "the start scene is over 65,535",
    [LHZ_REFUSED_SHORT_BUFFER] = "the buffer is shorter than one row of the listing",
};

/* Tells a person what has failed, and why. */
static int fail(const char *what, const char *why) {
    fprintf(stderr, "listing: %s: %s\n", what, why);
    return FAILED;
}

/* Prints a refusal, and tells a person what is refused, and why. */
static int refuse(const char *what, uint32_t refusal, uint32_t at) {
    const char *sentence = sentences[refusal];
    size_t start = strcspn(sentence, "#");

    printf("refused %" PRIu32 " %" PRIu32 "\n", refusal, at);
    fprintf(stderr, "listing: %s: %.*s", what, (int)start, sentence);
    if (sentence[start] == '#') fprintf(stderr, "%" PRIu32 "%s", at, sentence + start + 1);
    fprintf(stderr, "\n");
    return REFUSED;
}

/* Reads a file whole, but no more than one byte over `most`: that byte is enough to see that a file
 * is too long, so that one without end, such as /dev/zero, is too long as well. Returns 1, and the
 * bytes are the caller's to free; or 0, and there are none. */
static int read_file(const char *name, size_t most, struct file *file) {
    FILE *stream = fopen(name, "rb");
    uint8_t *shorter;

    if (stream == NULL) {
        fail(name, strerror(errno));
        return 0;
    }
    file->name = name;
    file->bytes = malloc(most + 1);
    file->len = file->bytes != NULL ? fread(file->bytes, 1, most + 1, stream) : 0;
    if (file->bytes == NULL || ferror(stream)) {
        fail(name, file->bytes == NULL ? "no memory" : strerror(errno));
        free(file->bytes);
        fclose(stream);
        return 0;
    }
    fclose(stream);
    /* What the file does not fill is given back. One byte stays, since no pointer that is lent to
     * the library is null, not even that of an empty file. */
    shorter = realloc(file->bytes, file->len > 0 ? file->len : 1);
    if (shorter != NULL) file->bytes = shorter;
    return 1;
}

/* The words of a plan file, on any machine, and how many they are. Bytes that are no whole words or
 * too many for a plan are handed on as an empty plan: the library refuses that with 9, but what is
 * wrong with the volume it tells first. */
static size_t plan_words(const struct file *file, uint32_t words[LHZ_MAX_PLAN_WORDS]) {
    size_t count = file->len / 4;

    if (file->len % 4 != 0 || count > LHZ_MAX_PLAN_WORDS) return 0;
    for (size_t i = 0; i < count; i++) {
        const uint8_t *b = file->bytes + 4 * i;
        words[i] = (uint32_t)b[0] | (uint32_t)b[1] << 8 | (uint32_t)b[2] << 16 |
                   (uint32_t)b[3] << 24;
    }
    return count;
}

static void print_row(const uint32_t *row, size_t words) {
    printf("scene");
    for (size_t i = 0; i < words; i++) printf(" %" PRIu32, row[i]);
    printf("\n");
}

/* Runs a search to its end, call by call through one buffer, and prints it. Volume and plan are
 * accepted, so that a call can be refused for the buffer's length alone.
 *
 * However short the buffer is, no true scene is missed and none comes twice. A call writes whole
 * rows, those of the first true scenes from `start` on. If a true scene is left for which no row
 * fits, `next` is the lowest such scene, and the next call starts at exactly that one. LHZ_DONE
 * comes only where none is left. The library promises this of the search as a whole, whatever the
 * buffers' lengths are, if nobody writes in the volume or in the plan until it is done. A longer
 * buffer only makes fewer calls. */
static int search(const struct file *volume, const uint32_t *plan, size_t plan_len,
                  size_t row_words, uint32_t *out, size_t out_len) {
    uint32_t start = 0;
    uint64_t tallies = 0;

    while (start != LHZ_DONE) {
        lhz_list_answer answer =
            lhz_list(volume->bytes, volume->len, plan, plan_len, start, out, out_len);
        if (answer.refusal != 0) return refuse("WORDS", answer.refusal, answer.at);
        for (size_t row = 0; row < answer.rows; row++) print_row(out + row * row_words, row_words);
        if (ferror(stdout)) return FAILED; /* main tells why */
        tallies += answer.tally;
        start = answer.next;
    }
    printf("done %" PRIu64 "\n", tallies);
    return LISTED;
}

/* Checks volume and plan, and lists through a buffer of so many words, or of one row for NULL. */
static int list(const struct file *volume, const struct file *plan_file, const size_t *words) {
    uint32_t plan[LHZ_MAX_PLAN_WORDS];
    size_t plan_len = plan_words(plan_file, plan);
    lhz_check_plan_answer checked = lhz_check_plan(volume->bytes, volume->len, plan, plan_len);
    size_t row_words, out_len;
    uint32_t *out;
    int status;

    if (checked.refusal != 0) {
        int of_plan = checked.refusal >= LHZ_REFUSED_PLAN_LENGTH;
        return refuse(of_plan ? plan_file->name : volume->name, checked.refusal, checked.at);
    }
    row_words = 1 + (size_t)checked.patterns + 2 * (size_t)checked.vars;
    out_len = words != NULL ? *words : row_words;
    out = malloc(sizeof *out * (out_len > 0 ? out_len : 1));
    if (out == NULL) return fail("the buffer", "no memory");
    status = search(volume, plan, plan_len, row_words, out, out_len);
    free(out);
    return status;
}

/* A number of words in base ten, digits alone. */
static int read_words(const char *text, size_t *words) {
    *words = 0;
    for (const char *digit = text; *digit != '\0'; digit++) {
        if (*digit < '0' || *digit > '9') return 0;
        *words = 10 * *words + (size_t)(*digit - '0');
        if (*words > MOST_WORDS) return 0;
    }
    return *text != '\0';
}

int main(int argc, char **argv) {
    struct file volume, plan;
    size_t words;
    int status = FAILED;

    if (argc < 3 || argc > 4 || (argc == 4 && !read_words(argv[3], &words))) {
        fprintf(stderr, "usage: listing VOLUME PLAN [WORDS], WORDS being 0 to %lu\n",
                (unsigned long)MOST_WORDS);
        return FAILED;
    }
    if (read_file(argv[1], LHZ_MAX_BYTES, &volume)) {
        if (read_file(argv[2], 4 * LHZ_MAX_PLAN_WORDS, &plan)) {
            status = list(&volume, &plan, argc == 4 ? &words : NULL);
            free(plan.bytes);
        }
        free(volume.bytes);
    }
    /* What was printed may still fail to be written, as on a full disk. */
    if (fflush(stdout) != 0 || ferror(stdout)) return fail("standard output", strerror(errno));
    return status;
}
