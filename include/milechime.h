/*
 * Milechime: the capacity table of a level, round tank from its survey, both
 * readings of such a table (the volume at a dip height, and the lowest dip
 * height for a volume), old surveys in today's format, and what a refusal is
 * about, in words.
 *
 * Units. Lengths are whole numbers of u = 0.01 mm, volumes whole numbers of
 * v = 0.01 L: a dip height of 5000 is 50.00 mm, a volume of 1398 is 13.98 L.
 * Nearest is the nearest whole number, an exact half to the even one: 2.5 to
 * 2, and 3.5 to 4.
 *
 * Limits. A survey has at most MILECHIME_LARGEST_SURVEY bytes, a table at most
 * MILECHIME_MOST_ROWS rows.
 *
 * Every call takes any numbers and any bytes, and answers. A length counts
 * bytes of a survey and cells of a table; with length 0 the pointer may be
 * null. A survey and the table made from it may not overlap.
 *
 * No call allocates, keeps or shares anything: calls may run in several
 * threads at once, each with memory of its own. A call needs less than 64 KiB
 * of stack.
 *
 * Link with libcapi.a (x86-64 Linux). It calls nothing of the C library but
 * memcpy and memset.
 */
#ifndef MILECHIME_H
#define MILECHIME_H

#include <stddef.h>
#include <stdint.h>

#ifdef __cplusplus
extern "C" {
#endif

#define MILECHIME_LARGEST_SURVEY 65536
#define MILECHIME_MOST_ROWS 5001
#define MILECHIME_MOST_WORDS 256
#define MILECHIME_MOST_CONVERTED 1944

/*
 * Refusals. The first number of every answer is 0, or that of the first
 * refusal that fits, in this order; the second is its place. Then every other
 * number of the answer is 0, and lent memory is untouched.
 *
 *  no.  given when                                               place
 *   1   the survey has under 56 or over 65,536 bytes             0
 *   2   the course count is not 1 to 40, the deadwood count
 *       not 0 to 64, or the seam count not the course count      0
 *   3   courses, deadwood or seams start before byte 56, end
 *       outside the survey, or overlap                           0
 *   4   the head kind is not 0 (flat), 1 (half-ellipsoid) or
 *       2 (spherical cap)                                        0
 *   5   another number of the survey is outside its limits, or
 *       a course's reading is, less the tape rise over its
 *       seams                                                    its byte offset
 *   6   the sum of the course lengths and the shell length L1
 *       differ, either way, by more than 100 for each course     0
 *   7   a diameter, D1 or D2, is outside 50,000 to 500,000 or
 *       more than 10,000 away from DH                            0
 *  14   the heads are spherical caps and twice their length L3
 *       exceeds D2                                               0
 *   8   the lent table is shorter than the row count             0
 *   9   a row is below the row before                            its index
 *  10   retired, and given to no other fault: it was for a row
 *       below zero, but such a row, or one before it, gets 9
 *  11   lookup: DH is not 50,000 to 500,000, the step not 100
 *       to 10,000, the table has not exactly the row count, or
 *       a row is below the row before                            0
 *  12   lookup: the height is above DH                           0
 *  13   lookup: the volume is above the last row                 0
 *
 * An old survey has a header of 48 bytes and no seams: there 48 stands for 56
 * in 1 and 3, and nothing is said of seams.
 */

/* The answer to milechime_table. */
struct milechime_table_answer {
    uint32_t refusal; /* 0, 1 to 9 or 14 */
    uint32_t place;   /* of the refusal */
    uint32_t d1;      /* inner diameter of the shell, u */
    uint32_t d2;      /* inner diameter of flanges and heads, u */
    uint32_t rows;    /* rows written */
};

/*
 * Makes the table of a survey. Row i is the volume at dip height i times the
 * step, the last row that at DH, both from the survey. The rows are written
 * from table[0] on; cells behind them are untouched, and so is the whole
 * table in a refusal. MILECHIME_MOST_ROWS cells are enough for every survey.
 * No row is below the row before, and a survey without deadwood that passes
 * 1 to 8 and 14 always gets its table. Where d1 and d2 are DH, the heads are
 * of kind 0 or 1 and there is no deadwood, two rows at dip heights that add up
 * to DH are together the last row, give or take 3.
 */
struct milechime_table_answer milechime_table(
    const uint8_t *survey, size_t survey_length,
    uint32_t *table, size_t table_length);

/*
 * Both lookups take DH, the inner vertical diameter at the dip point, the
 * step, and a table of exactly the row count: DH / step + 1 rows, and one more
 * if DH is no multiple of the step. The table may come from anywhere and is
 * only read.
 */

/* The answer to milechime_litres. */
struct milechime_litres_answer {
    uint32_t refusal; /* 0, 11 or 12 */
    uint32_t place;   /* 0 */
    uint32_t volume;  /* v */
};

/*
 * The volume at a dip height: at a row's height that row, else the nearest v
 * on the straight line between the rows below and above, and never outside the
 * two. The volume is rounded, not what it has more than the row below: midway
 * between rows of 1 and 2 it is 2. It never falls with the height. Refused with
 * 12 exactly when 11 does not apply and the height is above DH.
 */
struct milechime_litres_answer milechime_litres(
    uint32_t dh, uint32_t step,
    const uint32_t *table, size_t table_length,
    uint32_t height);

/* The answer to milechime_height. */
struct milechime_height_answer {
    uint32_t refusal; /* 0, 11 or 13 */
    uint32_t place;   /* 0 */
    uint32_t height;  /* u */
};

/*
 * The lowest dip height, from 0 to DH, at which milechime_litres gives at
 * least this volume. Refused with 13 exactly when 11 does not apply and the
 * last row is below the volume.
 */
struct milechime_height_answer milechime_height(
    uint32_t dh, uint32_t step,
    const uint32_t *table, size_t table_length,
    uint32_t volume);

/* The answer to milechime_convert_48. */
struct milechime_convert_answer {
    uint32_t refusal; /* 0, 1 to 7, 9 or 14; never 8 */
    uint32_t place;   /* of the refusal, in the old survey */
    uint32_t length;  /* bytes of the file */
    uint8_t file[MILECHIME_MOST_CONVERTED]; /* and 0 behind it; all 0 in a refusal */
};

/*
 * Writes an old survey, one with a header of 48 bytes, in today's format: the
 * header, the courses, the deadwood and the seams end to end, with a record of
 * seams for each course, all 0. The offset of an empty section is 0, and bytes
 * that no section of the old survey has are dropped. The first `length` bytes
 * of the answer's file are the new survey.
 *
 * The old survey is judged under its own format by all the rules that hold
 * today, those of its rows too, with room for every row: it is refused with 9
 * if its table would be, and never with 8. What is converted is accepted, and
 * milechime_table makes of it the table, D1 and D2 that the old survey has by
 * these rules.
 *
 * Convert old surveys only, and each of them once. Nothing in a survey tells
 * its format: one in today's format would as a rule pass for an old one and
 * lose its seams, and its table would be another.
 */
struct milechime_convert_answer milechime_convert_48(
    const uint8_t *survey, size_t survey_length);

/* The answer to milechime_words and to milechime_convert_words. */
struct milechime_words_answer {
    uint32_t length;                 /* bytes of the text, below MILECHIME_MOST_WORDS */
    char text[MILECHIME_MOST_WORDS]; /* ASCII, and 0 behind it */
};

/*
 * What milechime_table refuses this survey for, in words, where the lent table
 * has table_length cells, such as "deadwood item 2, high height 270000
 * (2,700.00 mm): must be above its low height and at most DH 260000". Courses
 * and deadwood items are counted from 1, rows from 0. There are no words, and
 * the answer's length is 0, exactly when the survey gets its table. No table
 * is lent here: table_length may be any number.
 */
struct milechime_words_answer milechime_words(
    const uint8_t *survey, size_t survey_length,
    size_t table_length);

/*
 * What milechime_convert_48 refuses this old survey for, in words, and none
 * exactly when it is converted. `header` is the length of the old survey's
 * header in bytes, and 48 is the only one there is. For any other the words
 * are those of "old header of 56 bytes: must have 48", with its number,
 * whatever the survey's bytes: no words are never to be taken for a survey
 * that could be converted.
 */
struct milechime_words_answer milechime_convert_words(
    const uint8_t *survey, size_t survey_length,
    uint32_t header);

#ifdef __cplusplus
}
#endif

#endif
