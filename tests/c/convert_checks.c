/* milechime_convert_48 and milechime_convert_words: files with a header of 48 bytes
 * in today's format, byte for byte, their tables, and their refusals. */
#include "checks.h"

#include "check.h"
#include "lent.h"
#include "many.h"
#include "milechime.h"
#include "paper.h"
#include "says.h"

#include <stdlib.h>
#include <string.h>

typedef struct milechime_convert_answer converted;

/* The answer has this file, and 0 behind it. */
static bool gives(converted a, const uint8_t *file, size_t length)
{
    if (a.refusal != 0 || a.place != 0 || a.length != length || memcmp(a.file, file, length) != 0)
        return false;
    for (size_t i = length; i < sizeof a.file; i++)
        if (a.file[i] != 0)
            return false;
    return true;
}

/* An old file that is refused: no byte is written, and the words are these. */
static void refused(const uint8_t *survey, size_t length, uint32_t refusal, uint32_t place, const char *words)
{
    const uint8_t *bytes = lent_bytes(survey, length);
    converted a = milechime_convert_48(bytes, length);
    bool empty = a.length == 0;
    for (size_t i = 0; i < sizeof a.file; i++)
        empty = empty && a.file[i] == 0;
    check(a.refusal == refusal && a.place == place && empty, words);
    check(says(milechime_convert_words(bytes, length, 48), words), "and in these words");
}

/* The old paper survey with one number exchanged. */
static void refused_with(size_t at, uint32_t number, uint32_t refusal, uint32_t place, const char *words)
{
    uint8_t survey[OLD_PAPER_BYTES];
    old_paper_survey(survey);
    put(survey, at, number);
    refused(survey, OLD_PAPER_BYTES, refusal, place, words);
}

static void converted_paper(void)
{
    uint8_t old[OLD_PAPER_BYTES], today[PAPER_BYTES];
    old_paper_survey(old);
    paper_survey(today);
    converted a = milechime_convert_48(lent_bytes(old, OLD_PAPER_BYTES), OLD_PAPER_BYTES);
    check(sizeof a.file == 1944, "room for the header, 40 courses, 64 deadwood items and 40 records of seams");
    check(a.refusal == 0 && a.place == 0 && a.length == PAPER_BYTES, "the old paper survey converts to 84 bytes");
    bool kept = true;
    for (size_t at = 0; at < 32; at += 4)
        kept = kept && number_at(a.file, at) == number_at(old, at);
    check(kept, "the first eight numbers of the header are kept");
    check(number_at(a.file, 32) == 1 && number_at(a.file, 36) == 56, "one course, at byte 56");
    check(number_at(a.file, 40) == 0 && number_at(a.file, 44) == 0, "no deadwood, its offset 0");
    check(number_at(a.file, 48) == 1 && number_at(a.file, 52) == 72, "one record of seams, at byte 72");
    check(memcmp(a.file + 56, old + 48, 16) == 0, "the course is kept");
    check(gives(a, today, PAPER_BYTES), "it is today's paper survey, and every byte behind it is 0");
    check(says(milechime_convert_words(lent_bytes(old, OLD_PAPER_BYTES), OLD_PAPER_BYTES, 48), ""),
          "and there are no words: length 0, and a text of zeros");

    uint32_t *cells = lent_cells(PAPER_ROWS);
    struct milechime_table_answer t = milechime_table(lent_bytes(a.file, a.length), a.length, cells, PAPER_ROWS);
    check(t.refusal == 0 && t.d1 == 50000 && t.d2 == 50000 && t.rows == PAPER_ROWS && memcmp(cells, paper_rows, sizeof paper_rows) == 0,
          "its table is the paper's");
}

/* Sections apart, the deadwood first, a hole before each and bytes behind them. */
static void converted_from_anywhere(void)
{
    enum { DEADWOOD = 50, COURSE = 71, OLD_BYTES = 99, BYTES = PAPER_BYTES + 12 };
    uint8_t old[OLD_BYTES], today[BYTES], plain[PAPER_BYTES];
    memset(old, 0xA5, sizeof old);
    paper_survey(plain);
    memcpy(old, plain, 32);
    put(old, 32, 1);
    put(old, 36, COURSE);
    put(old, 40, 1);
    put(old, 44, DEADWOOD);
    put(old, DEADWOOD, 10000);
    put(old, DEADWOOD + 4, 30000);
    put(old, DEADWOOD + 8, (uint32_t)-1000);
    memcpy(old + COURSE, plain + 56, 16);

    memcpy(today, plain, 72);
    put(today, 40, 1);
    put(today, 44, 72);
    put(today, 52, 84);
    memcpy(today + 72, old + DEADWOOD, 12);
    memset(today + 84, 0, 12);
    converted a = milechime_convert_48(lent_bytes(old, OLD_BYTES), OLD_BYTES);
    check(gives(a, today, BYTES), "sections anywhere come out end to end: courses, deadwood, seams of zeros");

    uint32_t *cells = lent_cells(PAPER_ROWS);
    struct milechime_table_answer t = milechime_table(lent_bytes(a.file, a.length), a.length, cells, PAPER_ROWS);
    check(t.refusal == 0 && cells[1] == 2796 && cells[2] == 7334 + 500 && cells[5] == 19635 + 1000, "and the deadwood counts in the table");
}

/* 40 courses and 64 deadwood items, in a file of the most bytes, and in one of a byte more. */
static void converted_largest(void)
{
    enum { COURSES = 40, ITEMS = 64 };
    uint8_t plain[PAPER_BYTES];
    uint8_t *old = calloc(MILECHIME_LARGEST_SURVEY + 1, 1);
    if (old == NULL)
        exit(2);
    old_paper_survey(old);
    paper_survey(plain);
    put(old, 32, COURSES);
    put(old, 40, ITEMS);
    put(old, 44, 48 + 16 * COURSES);
    for (size_t i = 0; i < COURSES; i++) {
        memcpy(old + 48 + 16 * i, plain + 56, 16);
        put(old, 48 + 16 * i + 8, 2500);
        put(old, 48 + 16 * i + 12, 480 + (uint32_t)i);
    }
    for (size_t i = 0; i < ITEMS; i++) {
        uint8_t *item = old + 48 + 16 * COURSES + 12 * i;
        put(item, 0, (uint32_t)i);
        put(item, 4, 40000 + (uint32_t)i);
        put(item, 8, 0u - (uint32_t)i);
    }
    converted a = milechime_convert_48(lent_bytes(old, MILECHIME_LARGEST_SURVEY), MILECHIME_LARGEST_SURVEY);
    size_t sections = 16 * COURSES + 12 * ITEMS;
    bool zeros = true;
    for (size_t i = 56 + sections; i < sizeof a.file; i++)
        zeros = zeros && a.file[i] == 0;
    check(a.refusal == 0 && a.length == sizeof a.file && memcmp(a.file + 56, old + 48, sections) == 0 && zeros,
          "40 courses and 64 deadwood items of the longest file fill all 1,944 bytes");
    check(number_at(a.file, 36) == 56 && number_at(a.file, 44) == 696 && number_at(a.file, 48) == COURSES && number_at(a.file, 52) == 1464,
          "at bytes 56, 696 and 1464");
    struct milechime_table_answer t = milechime_table(a.file, a.length, lent_cells(PAPER_ROWS), PAPER_ROWS);
    check(t.refusal == 0 && t.rows == PAPER_ROWS, "and give a table");
    check(says(milechime_convert_words(old, MILECHIME_LARGEST_SURVEY, 48), ""), "and no words");
    refused(old, MILECHIME_LARGEST_SURVEY + 1, 1, 0, "file of more than 65536 bytes: must have 48 to 65536");
    free(old);
}

static void refused_files(void)
{
    uint8_t survey[OLD_PAPER_BYTES + ITEM_BYTES];
    old_paper_survey(survey);
    refused(survey, 0, 1, 0, "file of 0 bytes: must have 48 to 65536");
    refused(survey, 47, 1, 0, "file of 47 bytes: must have 48 to 65536");
    refused(survey, 48, 3, 0, "byte offset of the courses 48: its 1 records must start at byte 48 or later and end inside the file of 48 bytes");
    refused_with(32, 41, 2, 0, "course count 41: must be 1 to 40");
    refused_with(36, 47, 3, 0, "byte offset of the courses 47: its 1 records must start at byte 48 or later and end inside the file of 64 bytes");
    refused_with(0, 3, 4, 0, "head kind 3: must be 0 (flat), 1 (half-ellipsoid) or 2 (spherical cap)");
    refused_with(4, 49999, 5, 4, "dip diameter DH 49999 (499.99 mm): must be 50000 to 500000");
    refused_with(60, 5001, 5, 60, "course 1, thickness 5001 (50.01 mm): must be 100 to 5000");
    refused_with(56, 99899, 6, 0, "sum of the course lengths 99899 (998.99 mm): must be 99900 to 100100, "
                                  "the shell length L1 give or take 100 for each course");
    refused_with(4, 60001, 7, 0, "shell diameter D1 50000 (500.00 mm): must be 50000 to 500000 and at most 10000 from DH 60001");
    add_deadwood(survey, OLD_PAPER_BYTES, 0, 10000, 5000);
    refused(survey, OLD_PAPER_BYTES + ITEM_BYTES, 9, 1,
            "row 1 at dip height 10000 (100.00 mm): must not be below the row before; the deadwood is larger than the room there");

    converted a = milechime_convert_48(NULL, 0);
    check(a.refusal == 1 && a.place == 0 && a.length == 0, "no file at all: refusal 1");
    check(says(milechime_convert_words(NULL, 0, 48), "file of 0 bytes: must have 48 to 65536"), "and in words");

    old_paper_survey(survey);
    struct milechime_table_answer t = milechime_table(survey, OLD_PAPER_BYTES, NULL, 0);
    check(t.refusal == 2 && t.place == 0, "an old file that is not converted: refusal 2, as its course stands where the seam count is");
    check(says(milechime_words(survey, OLD_PAPER_BYTES, 0), "seam count 160221: must be 1, the course count"), "and in words");
}

/* No old survey has a header of this length, whatever its bytes. */
static void no_such_header(uint32_t header, const char *words)
{
    uint8_t survey[OLD_PAPER_BYTES];
    old_paper_survey(survey);
    bool told = says(milechime_convert_words(NULL, 0, header), words) &&
                says(milechime_convert_words(lent_bytes(survey, OLD_PAPER_BYTES), OLD_PAPER_BYTES, header), words);
    put(survey, 4, 49999);
    check(told && says(milechime_convert_words(survey, OLD_PAPER_BYTES, header), words), words);
}

static void other_headers(void)
{
    no_such_header(0, "old header of 0 bytes: must have 48");
    no_such_header(47, "old header of 47 bytes: must have 48");
    no_such_header(49, "old header of 49 bytes: must have 48");
    no_such_header(56, "old header of 56 bytes: must have 48");
    no_such_header(UINT32_MAX, "old header of 4294967295 bytes: must have 48");
}

static struct asked ask(const uint8_t *survey, size_t survey_length, size_t table_length)
{
    (void)table_length; /* an old survey is refused as with room for all rows */
    converted a = milechime_convert_48(survey, survey_length);
    return (struct asked){a.refusal, a.place, milechime_convert_words(survey, survey_length, 48)};
}

/* With flat heads and with caps, both with deadwood. */
static void many_old_surveys(void)
{
    uint8_t surveys[2][OLD_PAPER_BYTES + ITEM_BYTES];
    old_paper_survey(surveys[0]);
    old_paper_survey(surveys[1]);
    put(surveys[1], 0, 2);
    put(surveys[1], 24, 1000);
    struct tally tally = nothing_asked();
    for (size_t i = 0; i < 2; i++) {
        add_deadwood(surveys[i], OLD_PAPER_BYTES, 10000, 30000, 1000);
        ask_many(&tally, surveys[i], sizeof surveys[i], 0, ask);
    }
    check_many(&tally, "many old surveys: no words exactly where milechime_convert_48 refuses nothing", 0x2FF | 1u << 14,
               "each of 1 to 7, 9 and 14 among them, none, and never 8");
}

void convert_checks(void)
{
    converted_paper();
    converted_from_anywhere();
    converted_largest();
    refused_files();
    other_headers();
    many_old_surveys();
}
