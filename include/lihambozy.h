/* lihambozy.h: reading, writing and joining the volumes of a surtitle archive, checking plans over
 * them, listing the documents that match, listing all tuples of positions that pass in one of them,
 * and reading and writing plans as typed lines.
 *
 * `rt staticlib lihambozy` builds the library. A C99 program that includes this header is built in
 * the same folder with
 *
 *    cc prog.c -Iinclude target/staticlib/liblihambozy.a
 *
 * and anywhere with the first of these lines after `make install`, with the second after
 * `make install PREFIX=DIR`:
 *
 *    cc prog.c -llihambozy
 *    cc prog.c -IDIR/include -LDIR/lib -llihambozy
 *
 * A C++ program is built with c++ and the same words. Nothing else has to be linked: the library
 * calls memcpy and memset of the C library, and no other function. examples/c/listing.c is a whole
 * program.
 *
 * A volume is an inverted index as one piece of bytes. It holds T posting lists, 1 to 1,024. A
 * posting is a 32-bit number, document * 65,536 + position, both 0 to 65,535, so that its document
 * is posting / 65536 and its position posting % 65536 (document 01 says scene and place; "01" below
 * gives its other words). Each list rises strictly and may be empty. List 0 holds the positions at
 * which titles start; lists 1 to T - 1 belong to words.
 *
 * The layout: n blocks of 512 bytes, n from 1 to 8,192. Block k holds k in bytes 0 to 3, 126 words
 * of 32 bits in bytes 4 to 507, and its checksum (01: check) in bytes 508 to 511. The words of all
 * blocks, joined, are the stream: the format version (01: edition), 1; T; T counts; the lists back
 * to back; then zero words. With S the sum of the counts, n is the least number of blocks that
 * holds 2 + T + S words. The checksum is two numbers A and B of 16 bits, at 508 and at 510. They
 * start as 1 and 0; for each of bytes 0 to 507 in turn A becomes (A + byte) mod 65,535, then B
 * becomes (B + A) mod 65,535. All stored numbers are little-endian.
 *
 * A plan is a query over a volume: 1 to 64 rows of four words, kind, a, b and c. A row whose kind
 * does not use a word has 0 there. The eleven kinds:
 *
 *    1  VOICE             a variable (01: voice) with list a, which is not list 0. Where no pattern
 *                         (01: figure) is open it opens one. Variables are numbered from 0 in each
 *                         pattern.
 *    2  NEAR              a predicate (01: condition): the positions of variables a and b differ by
 *                         at most c + 1; c is 0 to 65,535
 *    3  BEFORE            a predicate: the position of variable a is less than that of variable b
 *    4  SAME TITLE        a predicate: variables a and b stand in one title, that is, some start of
 *                         the document is at or before both positions, and no start s of it has
 *                         smaller position < s <= larger position. Positions before the first start
 *                         of a document, and all positions of a document without starts, are in no
 *                         title. So it may fail also where a is b: it asks that the variable stands
 *                         in a title.
 *    5  SPAN              a predicate: the largest and smallest position of the pattern's variables
 *                         differ by at most c - 1; c is 1 to 65,536
 *    6  END               closes the pattern; its answer is stacked
 *    7  BOTH              takes the top two answers and stacks one: both are yes
 *    8  EITHER            the same: at least one is yes
 *    9  FIRST NOT SECOND  the same: the lower one is yes and the upper one is not
 *   10  APART             a predicate: variable b stands behind variable a, and the position of b
 *                         less that of a less 1 is from least to most, both counted in. c is
 *                         least * 65,536 + most, with least not over most; a most of 65,535 sets
 *                         no upper end. It never holds where a is b.
 *   11  AT LEAST          takes the top b answers and stacks one: a or more of them are yes; b is 2
 *                         to 8, and a is 1 to b
 *
 * In a pattern all variables stand before the predicates. A pattern has 1 to 8 variables, a plan 1
 * to 8 patterns, numbered from 0 in the order in which they open. At the end no pattern is open and
 * one answer is left.
 *
 * In memory a plan is words of the machine, as uint32_t has them. A plan file holds the same words
 * as bytes, little-endian on every machine, 16 bytes for each row: with b the bytes from 4 * i on,
 * word i is b[0] + b[1] * 2^8 + b[2] * 2^16 + b[3] * 2^24.
 *
 * A line is a plan as it is typed, such as [1 2;b 0 1]|([3]&[4]). It is ASCII, without a zero byte
 * or a line feed at its end. In its grammar a sign in quotes stands for itself, what stands in
 * braces may be absent or come any number of times, and / parts what may stand there:
 *
 *    line       part { "|" part }                 EITHER
 *    part       item { "&" item / "!" item }      BOTH, FIRST NOT SECOND
 *    item       pattern / "(" line ")" / some
 *    some       "<" k ":" line { "," line } ">"   AT LEAST
 *    pattern    "[" list { " " list } { ";" predicate } "]"
 *    predicate  "n " a " " b " " c                NEAR
 *               "b " a " " b                      BEFORE
 *               "t " a " " b                      SAME TITLE
 *               "s " c                            SPAN
 *               "a " a " " b " " least " " most   APART
 *
 * A list, a, b and c are numbers from 0 to 65,536, least and most from 0 to 65,535, in base ten and
 * without a leading zero. Between < and > stand two to eight lines; k is a digit from 1 to 8, and
 * not over the number of the lines. Both kinds of joining go left to right: [1]&[2]![3] is
 * ([1]&[2])![3]. The rows of a line follow its order: a VOICE for each list, a row for each
 * predicate, END at the closing square bracket, and each operator behind all rows of its second
 * side. AT LEAST stands behind all rows of its last line; its a is k, and its b the number of its
 * lines. Round brackets have no rows. Any number of lists, any variable, SPAN 0 or an APART whose
 * least exceeds its most can be typed; it is the plan's check that refuses them.
 *
 * A tuple of positions (01: choice), one for each variable of a pattern, passes in a document if
 * each position is in its variable's list for that document and all predicates hold. Two variables
 * may take one position, and a predicate may name one variable twice. A pattern is found in a
 * document if some tuple passes there; END stacks yes exactly then. A pattern that is found has its
 * least positions (01: earliest places): they pass, and each tuple that passes in that document has
 * in every variable a position at least as large. A document matches (01: is true) if the one
 * answer left at the end is yes for it.
 *
 * What every call here has in common:
 *
 * - A slice is lent as a pointer and the number of its elements (bytes for uint8_t, words for
 *   uint32_t). The pointer is not null, also where that number is 0 (malloc(0) may give a null
 *   pointer), and a uint32_t pointer is aligned to 4 bytes; bytes may start at any address.
 * - What is lent through a pointer to const is read and never written. Nobody writes in it during
 *   the call, so that a file which another program may change is read into memory, not mapped.
 * - What is lent as `out` overlaps nothing else that is lent to the same call, and nobody else
 *   reads or writes it during the call. What it holds before the call does not matter.
 * - A call keeps no pointer and no state, allocates nothing, leaves errno alone, takes a few KiB of
 *   stack, and always returns. Calls may run at the same time in several threads, over one volume
 *   and one plan too, if each has an `out` of its own.
 * - A call that takes a volume checks every byte of it first, each time, and a call that takes a
 *   plan then checks that too. So nothing has to be checked beforehand, and no call takes less time
 *   than a pass over its volume.
 * - Any content and any length is allowed; what does not fit is refused. The answer is a struct
 *   that starts with `refusal` and `at`. `refusal` is 0 where the call is answered. Otherwise it is
 *   the number of the first refusal that applies, in the order listed at the call; `at` is its
 *   place, 0 where none is named below; the fields behind `at` are 0; and `out` is left exactly as
 *   it was. So `refusal` is looked at before any other field. lhz_join_volumes alone tells one more
 *   thing, which volume is refused. lhz_pattern_rows alone tells no number: an empty part stands
 *   for every refusal.
 */
#ifndef LIHAMBOZY_H
#define LIHAMBOZY_H

#include <stddef.h>
#include <stdint.h>

#ifdef __cplusplus
extern "C" {
#endif

#define LHZ_BLOCK_BYTES 512     /* bytes of a block */
#define LHZ_BLOCK_WORDS 126     /* stream words of a block */
#define LHZ_MAX_BLOCKS 8192     /* blocks of the largest volume */
#define LHZ_MAX_BYTES 4194304   /* bytes of the largest volume */
#define LHZ_MAX_WORDS 1032192   /* stream words of the largest volume */
#define LHZ_MAX_LISTS 1024      /* lists of a volume, at most; 1 at least */
#define LHZ_LAST_DOC 65535      /* the last document; the first is 0 */
#define LHZ_LAST_POS 65535      /* the last position in a document; the first is 0 */
#define LHZ_ROW_WORDS 4         /* words of a row of a plan */
#define LHZ_MAX_ROWS 64         /* rows of a plan, at most; 1 at least */
#define LHZ_MAX_PLAN_WORDS 256  /* words of a plan, at most */
#define LHZ_MAX_PATTERNS 8      /* patterns of a plan, at most; 1 at least */
#define LHZ_MAX_VARS 8          /* variables of a pattern, at most; 1 at least */
#define LHZ_MAX_LINE_BYTES 2048 /* bytes of a line, at most */
#define LHZ_MAX_LINE_DEPTH 8    /* brackets ( and < of a line that are open at one place, at most */

/* Words of a row that lhz_list writes, at most: 1 + F + 2 * V with F patterns and V variables. Of a
 * plan's rows, 64 at most, V are VOICE and F are END, and where F is over 1 one more at least makes
 * one answer of theirs; V is 8 * F at most. So the longest row is that of 7 patterns with 56
 * variables. A buffer of so many words holds a row of every plan. */
#define LHZ_MAX_ROW_WORDS 120

#define LHZ_DONE 65536     /* what lhz_list tells as `next` where no document is left */
#define LHZ_NO_START 65536 /* what a row has as title start of a position that is in no title */

/* The kinds of a plan's rows. */
#define LHZ_VOICE 1
#define LHZ_NEAR 2
#define LHZ_BEFORE 3
#define LHZ_SAME_TITLE 4
#define LHZ_SPAN 5
#define LHZ_END 6
#define LHZ_BOTH 7
#define LHZ_EITHER 8
#define LHZ_FIRST_NOT_SECOND 9
#define LHZ_APART 10
#define LHZ_AT_LEAST 11

/* The c of an APART row, of two limits: at least so many positions between the two variables, and
 * at most so many. 0 and 0 make a phrase. Each limit must be from 0 to 65,535: a larger one makes
 * the c of other limits, which may be in order. */
#define LHZ_APART_LIMITS(least, most) ((uint32_t)(least) * 65536u + (uint32_t)(most))
#define LHZ_NO_UPPER_END 65535 /* the `most` that sets no upper end */

/* The refusals. Cause and place stand at the call that is named here; a call that gives the same
 * refusal for another cause tells that cause itself.
 *
 * The volume is refused: lhz_check_volume. */
#define LHZ_REFUSED_LENGTH 1
#define LHZ_REFUSED_BLOCK_NUMBER 2
#define LHZ_REFUSED_CHECKSUM 3
#define LHZ_REFUSED_VERSION 4
#define LHZ_REFUSED_LIST_COUNT 5
#define LHZ_REFUSED_BLOCK_COUNT 6
#define LHZ_REFUSED_LIST_ORDER 7
#define LHZ_REFUSED_PADDING 8
/* The plan is refused: lhz_check_plan. */
#define LHZ_REFUSED_PLAN_LENGTH 9
#define LHZ_REFUSED_ROW_FORM 10
#define LHZ_REFUSED_ROW_LIST 11
#define LHZ_REFUSED_ROW_TOO_MANY 12
#define LHZ_REFUSED_ROW_ORDER 13
#define LHZ_REFUSED_UNFINISHED 14
/* What else a call is given is refused: lhz_list, lhz_read_list, lhz_test_positions,
 * lhz_list_matches, lhz_line_to_plan, lhz_plan_to_line. */
#define LHZ_REFUSED_START 15
#define LHZ_REFUSED_SHORT_BUFFER 16
#define LHZ_REFUSED_OUT_OF_RANGE 17
/* What is to be written is refused: lhz_write_volume, lhz_join_volumes. */
#define LHZ_REFUSED_COUNT_SUM 18
#define LHZ_REFUSED_TOO_LARGE 19
#define LHZ_REFUSED_SHORT_OUTPUT 20
/* The line is refused: lhz_line_to_plan. */
#define LHZ_REFUSED_LINE_FORM 21
#define LHZ_REFUSED_LINE_DEPTH 22
#define LHZ_REFUSED_LINE_ROWS 23
/* Two volumes do not go together: lhz_join_volumes. */
#define LHZ_REFUSED_LISTS_DIFFER 24
#define LHZ_REFUSED_RAISE 25

/* The answer of lhz_check_volume. */
typedef struct lhz_check_volume_answer {
    uint32_t refusal;
    uint32_t at;
    uint32_t lists;    /* T, the number of lists */
    uint32_t postings; /* S, the number of postings of all lists together */
} lhz_check_volume_answer;

/* Checks a volume, every byte of it.
 *
 * Lent for reading: volume, len bytes. Nothing is written.
 *
 * Refusals, the first that applies. Blocks go upward, 2 before 3 in each, and 4 comes after all of
 * them:
 *    1  LHZ_REFUSED_LENGTH        len is 0, no multiple of 512, or over 8,192 blocks
 *    2  LHZ_REFUSED_BLOCK_NUMBER  a block does not hold its own number
 *                                 at: the block, from 0
 *    3  LHZ_REFUSED_CHECKSUM      a block's checksum is wrong
 *                                 at: the block, from 0
 *    4  LHZ_REFUSED_VERSION       the format version is not 1
 *    5  LHZ_REFUSED_LIST_COUNT    T is 0 or over 1,024
 *    6  LHZ_REFUSED_BLOCK_COUNT   the number of blocks is not the least that holds the counts and
 *                                 the lists: there are fewer, or more
 *    7  LHZ_REFUSED_LIST_ORDER    a list does not rise strictly
 *                                 at: the lowest such list, from 0
 *    8  LHZ_REFUSED_PADDING       a word behind the lists is not 0
 *                                 at: the lowest such index in the stream, from 0
 */
lhz_check_volume_answer lhz_check_volume(const uint8_t *volume, size_t len);

/* The answer of lhz_read_list. */
typedef struct lhz_read_list_answer {
    uint32_t refusal;
    uint32_t at;
    uint32_t count; /* postings of the list, so words written */
} lhz_read_list_answer;

/* Reads one list of a volume.
 *
 * Lent for reading: volume, len bytes. `list` is the list's number, from 0. Lent for writing: out,
 * out_len words. The list's postings are written at the front of out, rising; the words behind them
 * stay as they were. An empty list fits an empty buffer. A buffer of S words, which
 * lhz_check_volume tells as `postings`, fits every list of the volume; S is below LHZ_MAX_WORDS.
 *
 * Refusals, the first that applies:
 *    1 to 8                       the volume is refused as by lhz_check_volume, with the same place
 *   17  LHZ_REFUSED_OUT_OF_RANGE  `list` is not below T
 *   16  LHZ_REFUSED_SHORT_BUFFER  out_len is less than the list's count
 */
lhz_read_list_answer lhz_read_list(const uint8_t *volume, size_t len, uint32_t list,
                                   uint32_t *out, size_t out_len);

/* The answer of lhz_write_volume. */
typedef struct lhz_write_volume_answer {
    uint32_t refusal;
    uint32_t at;
    uint32_t blocks; /* n, the blocks written, 512 bytes each */
} lhz_write_volume_answer;

/* Writes the volume of the given lists.
 *
 * Lent for reading: counts, counts_len words, the number of postings of each list, so that T is
 * counts_len; postings, postings_len words, the lists back to back. Lent for writing: out, out_len
 * bytes. The n blocks are written at the front of out, every byte of them; the bytes behind them
 * stay as they were. n is (2 + counts_len + postings_len) / 126, rounded up, so that 512 * n bytes
 * are needed; LHZ_MAX_BYTES fit every volume. lhz_check_volume accepts what is written, and
 * lhz_read_list reads the given lists from it.
 *
 * Refusals, the first that applies:
 *    5  LHZ_REFUSED_LIST_COUNT    counts_len is 0 or over 1,024
 *   18  LHZ_REFUSED_COUNT_SUM     the counts do not sum to postings_len
 *    7  LHZ_REFUSED_LIST_ORDER    a list does not rise strictly
 *                                 at: the lowest such list, from 0
 *   19  LHZ_REFUSED_TOO_LARGE     2 + counts_len + postings_len is over 1,032,192 words
 *   20  LHZ_REFUSED_SHORT_OUTPUT  out_len is less than 512 * n bytes
 */
lhz_write_volume_answer lhz_write_volume(const uint32_t *counts, size_t counts_len,
                                         const uint32_t *postings, size_t postings_len,
                                         uint8_t *out, size_t out_len);

/* The answer of lhz_join_volumes. */
typedef struct lhz_join_volumes_answer {
    uint32_t refusal;
    uint32_t at;
    uint32_t volume; /* 1 or 2 where the first or the second volume is refused itself, else 0 */
    uint32_t blocks; /* n, the blocks written, 512 bytes each */
} lhz_join_volumes_answer;

/* Joins two volumes into one.
 *
 * Lent for reading: first, first_len bytes; second, second_len bytes. They may overlap, and may be
 * one volume. Lent for writing: out, out_len bytes, which overlap neither.
 *
 * Each list of the result is the first's list, then the second's with `raise` (document 02: h)
 * added to each document. The n blocks are written at the front of out, every byte of them; the
 * bytes behind them stay as they were. With T lists in each volume, S1 postings in the first and S2
 * in the second, n is (2 + T + S1 + S2) / 126, rounded up, so that 512 * n bytes are needed;
 * first_len + second_len bytes are always enough. lhz_check_volume accepts what is written, and
 * lhz_read_list reads these lists from it.
 *
 * A plan that is accepted over one of the three volumes is accepted over all. Listed with lhz_list
 * until `next` is LHZ_DONE, the joined volume has the rows of the first, then those of the second
 * with `raise` added to the document, each once. Its tallies sum to those of both together.
 *
 * Refusals, the first that applies. The first volume is checked before the second. A refusal of 1
 * to 8 is of one of the volumes itself, and `volume` tells which: 1 for the first, 2 for the
 * second. With any other refusal, and in an answer, `volume` is 0.
 *    1 to 8                       a volume is refused as by lhz_check_volume, with the same place
 *   24  LHZ_REFUSED_LISTS_DIFFER  the two volumes do not have equally many lists
 *   25  LHZ_REFUSED_RAISE         a document of the second volume plus `raise`, as numbers without
 *                                 limit, is over 65,535, or is not above every document of the
 *                                 first volume; the documents of all lists count, list 0 too.
 *                                 Never where the second volume has no posting
 *   19  LHZ_REFUSED_TOO_LARGE     2 + T + S1 + S2 is over 1,032,192 words
 *   20  LHZ_REFUSED_SHORT_OUTPUT  out_len is less than 512 * n bytes
 */
lhz_join_volumes_answer lhz_join_volumes(const uint8_t *first, size_t first_len,
                                         const uint8_t *second, size_t second_len, uint32_t raise,
                                         uint8_t *out, size_t out_len);

/* The answer of lhz_check_plan. */
typedef struct lhz_check_plan_answer {
    uint32_t refusal;
    uint32_t at;
    uint32_t patterns; /* F, the number of patterns */
    uint32_t vars;     /* V, the number of variables of all patterns together */
} lhz_check_plan_answer;

/* Checks a plan over a volume.
 *
 * Lent for reading: volume, len bytes; plan, plan_len words. Nothing is written.
 *
 * Refusals, the first that applies. Rows go upward, 10 to 13 in order in each, and 14 comes after
 * all of them. For 10 to 13, at: the row, from 0.
 *    1 to 8                       the volume is refused as by lhz_check_volume, with the same place
 *    9  LHZ_REFUSED_PLAN_LENGTH   plan_len is 0, no multiple of 4, or over 256
 *   10  LHZ_REFUSED_ROW_FORM      the kind is not 1 to 11, an unused word is not 0, c is out of
 *                                 range, an APART has a least over its most, or in an AT LEAST a is
 *                                 not 1 to b or b is not 2 to 8
 *   11  LHZ_REFUSED_ROW_LIST      a VOICE with list 0, or with a list not below T
 *   12  LHZ_REFUSED_ROW_TOO_MANY  a ninth variable of a pattern, or a VOICE that would open a ninth
 *                                 pattern
 *   13  LHZ_REFUSED_ROW_ORDER     a VOICE after a predicate; a predicate with no pattern open, or
 *                                 naming a variable that is not there; END with no pattern open;
 *                                 BOTH, EITHER or FIRST NOT SECOND with a pattern open or fewer
 *                                 than two answers; AT LEAST with a pattern open or fewer than b
 *                                 answers
 *   14  LHZ_REFUSED_UNFINISHED    at the end a pattern is open, or the number of answers is not one
 */
lhz_check_plan_answer lhz_check_plan(const uint8_t *volume, size_t len, const uint32_t *plan,
                                     size_t plan_len);

/* The answer of lhz_pattern_rows: a part of the plan. */
typedef struct lhz_pattern_rows_answer {
    uint32_t start; /* the words of the plan in front of the part */
    uint32_t len;   /* the words of the part, LHZ_ROW_WORDS for each row */
} lhz_pattern_rows_answer;

/* Finds the rows of one pattern in a plan, from its first VOICE to its END.
 *
 * Lent for reading: volume, len bytes; plan, plan_len words. `pattern` is the pattern's number,
 * from 0. Nothing is written.
 *
 * The part is the `len` words from plan + start on. It is empty, start 0 and len 0, where
 * lhz_check_plan refuses the volume or the plan (1 to 14), which tells why, and where `pattern` is
 * not below F (17). Otherwise it has at least a VOICE and an END, so that `len` is 8 or more.
 */
lhz_pattern_rows_answer lhz_pattern_rows(const uint8_t *volume, size_t len, const uint32_t *plan,
                                         size_t plan_len, uint32_t pattern);

/* The answer of lhz_test_positions. */
typedef struct lhz_test_positions_answer {
    uint32_t refusal;
    uint32_t at;
    uint32_t passes; /* 1 if the positions pass, 0 if they do not */
} lhz_test_positions_answer;

/* Tests whether given positions pass, for one pattern in one document.
 *
 * Lent for reading: volume, len bytes; plan, plan_len words; positions, positions_len words, one
 * for each variable of the pattern, in the order of its variables. `pattern` is the pattern's
 * number, from 0; `doc` is the document. Nothing is written. In a document without postings no
 * positions pass.
 *
 * Refusals, the first that applies:
 *    1 to 14                      the volume or the plan is refused as by lhz_check_plan, with the
 *                                 same place
 *   17  LHZ_REFUSED_OUT_OF_RANGE  `pattern` is not below F, positions_len is not the number of that
 *                                 pattern's variables, or `doc` or a position is over 65,535
 */
lhz_test_positions_answer lhz_test_positions(const uint8_t *volume, size_t len,
                                             const uint32_t *plan, size_t plan_len,
                                             uint32_t pattern, uint32_t doc,
                                             const uint32_t *positions, size_t positions_len);

/* The answer of lhz_list. */
typedef struct lhz_list_answer {
    uint32_t refusal;
    uint32_t at;
    uint32_t rows;  /* the rows written */
    uint32_t tally; /* the postings of the variables' lists from `start` up to `next` */
    uint32_t next;  /* MORE: the least matching document not written. DONE: LHZ_DONE */
} lhz_list_answer;

/* Lists the documents that match, rising, from a document on.
 *
 * Lent for reading: volume, len bytes; plan, plan_len words. `start` is the document to start from.
 * Lent for writing: out, out_len words.
 *
 * A row is 1 + F + 2 * V words, with F and V as lhz_check_plan tells them, and LHZ_MAX_ROW_WORDS at
 * most: the document; then for each pattern 1 and a pair of words for each of its variables, in
 * their order, or, where it is not found in that document, 0 and two zeros for each of its
 * variables. A pair is the variable's position, which is one of the pattern's least positions, and
 * its title start: the greatest start of that document, in list 0, that is not above the position,
 * or LHZ_NO_START where there is none. SAME TITLE holds of two variables exactly if both have a
 * start and it is the same. Which positions are least does not depend on their starts.
 *
 * With two patterns of two variables each, such rows are
 *
 *    1  1 2 0 5 0          1 7 6 8 6    both are found in document 1: the first at 2 and 5, in the
 *                                       title that starts at 0, the second at 7 and 8, in the one
 *                                       that starts at 6
 *    2  1 4 65536 9 65536  0 0 0 0 0    the first is found in document 2, at 4 and 9, and no title
 *                                       starts at or before them; the second is not found
 *
 * The rows of the matching documents from `start` on are written back to back at the front of out,
 * as many as there are or as whole rows fit; the words behind them stay as they were. Where more
 * documents match than rows fit, `next` is the least one that is not written (MORE); otherwise it
 * is LHZ_DONE.
 *
 * `tally` sums, over all variables of the plan, the postings of the variable's list in the
 * documents from `start` up to `next`, which is not counted. A list counts once for each of its
 * variables.
 *
 * A search starts at 0 and goes on with a call from each `next` until that is LHZ_DONE, with the
 * same volume and plan, in which nobody writes from the first call to the last, and with buffers of
 * any length; longer ones make fewer calls, and one may serve again once its rows are taken out:
 *
 *    uint32_t start = 0;
 *    while (start != LHZ_DONE) {
 *        lhz_list_answer answer = lhz_list(volume, len, plan, plan_len, start, out, out_len);
 *        if (answer.refusal != 0) break;
 *        .. take answer.rows rows from out, and add answer.tally up ..
 *        start = answer.next;
 *    }
 *
 * What is promised is promised of the search as a whole. After LHZ_DONE its rows, joined in the
 * order of the calls, are those of all documents that match, each once, rising, however short the
 * buffers were; and its tallies sum to the whole counts of the variables' lists, which is below
 * 2^32 too. Before LHZ_DONE the same holds of the documents below the last `next`. With k documents
 * that match, LHZ_DONE comes with call k at the latest, or with call 1 where k is 0; calls that are
 * refused do not count. A call that is refused with 16 may be made again with a longer buffer. On a
 * refusal `next` is 0 and not a document to go on from.
 *
 * Refusals, the first that applies:
 *    1 to 14                      the volume or the plan is refused as by lhz_check_plan, with the
 *                                 same place
 *   15  LHZ_REFUSED_START         `start` is over 65,535
 *   16  LHZ_REFUSED_SHORT_BUFFER  out_len is less than the 1 + F + 2 * V words of a row, even where
 *                                 no document matches
 */
lhz_list_answer lhz_list(const uint8_t *volume, size_t len, const uint32_t *plan, size_t plan_len,
                         uint32_t start, uint32_t *out, size_t out_len);

/* The answer of lhz_list_matches. */
typedef struct lhz_list_matches_answer {
    uint32_t refusal;
    uint32_t at;
    uint64_t count; /* the tuples written */
    uint32_t more;  /* 1 where a tuple that passes is left (MORE), 0 where none is (DONE) */
    uint32_t next[LHZ_MAX_VARS]; /* MORE: the first tuple left, and zeros behind it. DONE: zeros */
} lhz_list_matches_answer;

/* Lists the tuples of positions that pass, for one pattern in one document, from a tuple on.
 *
 * Lent for reading: volume, len bytes; plan, plan_len words; from, from_len words, a position for
 * each variable of the pattern, in the order of its variables. `pattern` is the pattern's number,
 * from 0; `doc` is the document. Lent for writing: out, out_len words.
 *
 * Tuples are in order by their first position, those that agree in it by their second, and so on.
 * The tuples that pass and do not come before `from` are written back to back at the front of out,
 * in order, each once, as many as there are or as fit whole; the words behind them stay as they
 * were. A tuple has as many words as the pattern has variables, so that LHZ_MAX_VARS words hold a
 * tuple of every pattern. `from` is written itself where it passes. It need not pass, nor do its
 * positions have to be in the lists. Where more tuples are left than fit, `more` is 1 and the first
 * words of `next`, as many as from_len, are the first tuple that is not written; otherwise `more`
 * is 0. In a document without postings no tuple passes. Whether the document matches does not
 * matter.
 *
 * All tuples are listed by a call from zeros and one from each `next` until `more` is 0, for the
 * same pattern and document, with the same volume and plan, in which nobody writes from the first
 * call to the last, and with buffers of any length; longer ones make fewer calls, and one may serve
 * again once its tuples are taken out. vars is the number of the pattern's variables, that is, of
 * VOICE rows that lhz_pattern_rows shows:
 *
 *    uint32_t from[LHZ_MAX_VARS] = {0};
 *    lhz_list_matches_answer answer;
 *    do {
 *        answer = lhz_list_matches(volume, len, plan, plan_len, pattern, doc, from, vars, out,
 *                                  out_len);
 *        if (answer.refusal != 0) break;
 *        .. take answer.count tuples of vars words each from out ..
 *        memcpy(from, answer.next, sizeof from);
 *    } while (answer.more);
 *
 * Once `more` is 0, the tuples of all calls, joined in the order of the calls, are exactly those
 * that pass, each once and in order, however short the buffers were. Before that they are those
 * that come before the last `next`. With k tuples that pass, `more` is 0 with call k at the latest,
 * or with call 1 where k is 0; calls that are refused do not count. The first tuple of all is the
 * pattern's least positions, which lhz_list shows where the document matches. Tuples carry no title
 * starts. A call that is refused with 16 may be made again with a longer buffer. On a refusal
 * `next` is zeros; that does not tell where to go on.
 *
 * Refusals, the first that applies:
 *    1 to 14                      the volume or the plan is refused as by lhz_check_plan, with the
 *                                 same place
 *   17  LHZ_REFUSED_OUT_OF_RANGE  `pattern` is not below F, from_len is not the number of that
 *                                 pattern's variables, or `doc` or a position of `from` is over
 *                                 65,535
 *   16  LHZ_REFUSED_SHORT_BUFFER  out_len is less than from_len, even where no tuple passes
 */
lhz_list_matches_answer lhz_list_matches(const uint8_t *volume, size_t len, const uint32_t *plan,
                                         size_t plan_len, uint32_t pattern, uint32_t doc,
                                         const uint32_t *from, size_t from_len, uint32_t *out,
                                         size_t out_len);

/* The answer of lhz_line_to_plan. */
typedef struct lhz_line_to_plan_answer {
    uint32_t refusal;
    uint32_t at;
    uint32_t words; /* the words written, LHZ_ROW_WORDS for each row */
} lhz_line_to_plan_answer;

/* Reads a typed line as the rows of a plan.
 *
 * Lent for reading: line, len bytes. Lent for writing: out, out_len words. The rows of the line are
 * written at the front of out, in its order; the words behind them stay as they were. A buffer of
 * LHZ_MAX_PLAN_WORDS words holds the rows of every line that is read.
 *
 * No volume is asked: whether the rows are accepted over one is told by lhz_check_plan. Where they
 * are, the documents that match are exactly those that the line names when it is read on its own:
 * a pattern names those in which it is found, & those that both its sides name, | those that at
 * least one of its sides names, ! those that its first side names and its second does not, <k:..>
 * those that k or more of its lines name.
 *
 * Refusals, the first that applies. Of 21 and 22 that is the one at the lower byte, and 21 where
 * both are at one byte.
 *   21  LHZ_REFUSED_LINE_FORM     len is over 2,048, before anything else
 *                                 at: 2,048
 *                                 or the line breaks the grammar
 *                                 at: the first byte, from 0, that no line of the grammar could
 *                                 have there; len where no line could end there. Brackets within
 *                                 brackets, rows and bytes are not limited by the grammar
 *   22  LHZ_REFUSED_LINE_DEPTH    a round bracket or a < is opened inside eight open ones, which
 *                                 may be of both kinds
 *                                 at: its byte, from 0
 *   23  LHZ_REFUSED_LINE_ROWS     the line needs over 64 rows
 *   16  LHZ_REFUSED_SHORT_BUFFER  out_len is less than the words of the rows
 */
lhz_line_to_plan_answer lhz_line_to_plan(const uint8_t *line, size_t len, uint32_t *out,
                                         size_t out_len);

/* The answer of lhz_plan_to_line. */
typedef struct lhz_plan_to_line_answer {
    uint32_t refusal;
    uint32_t at;
    uint32_t bytes; /* the bytes written */
} lhz_plan_to_line_answer;

/* Writes a plan as a line.
 *
 * Lent for reading: volume, len bytes; plan, plan_len words. Lent for writing: out, out_len bytes.
 * The line is written at the front of out, without a zero byte behind it; the bytes behind it stay
 * as they were. It has no round bracket that could be dropped, and lhz_line_to_plan reads from it
 * the rows of the plan again. A row takes at most 26 bytes, so that LHZ_MAX_LINE_BYTES hold the
 * line of every plan.
 *
 * Refusals, the first that applies:
 *    1 to 14                      the volume or the plan is refused as by lhz_check_plan, with the
 *                                 same place
 *   16  LHZ_REFUSED_SHORT_BUFFER  out_len is less than the bytes of the line
 */
lhz_plan_to_line_answer lhz_plan_to_line(const uint8_t *volume, size_t len, const uint32_t *plan,
                                         size_t plan_len, uint8_t *out, size_t out_len);

#ifdef __cplusplus
}
#endif

#endif
