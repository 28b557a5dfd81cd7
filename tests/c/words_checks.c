/* milechime_words: what a survey is refused for, with room for its rows and
 * without, and no words for one that gets its table. */
#include "checks.h"

#include "check.h"
#include "lent.h"
#include "many.h"
#include "milechime.h"
#include "paper.h"
#include "says.h"

#include <stdlib.h>

/* Cells for the rows of every survey that is told with them, and bytes of one with a deadwood item. */
enum { ROOM = 10, ITEM_PAPER_BYTES = PAPER_BYTES + ITEM_BYTES };

/* A survey that is refused with so much room, in words. */
static void told(const uint8_t *survey, size_t length, size_t room, const char *words)
{
    const uint8_t *bytes = lent_bytes(survey, length);
    struct milechime_table_answer a = milechime_table(bytes, length, lent_cells(room), room);
    check(a.refusal != 0 && says(milechime_words(bytes, length, room), words), words);
}

static void told_with(size_t at, uint32_t number, const char *words)
{
    uint8_t survey[PAPER_BYTES];
    paper_survey(survey);
    put(survey, at, number);
    told(survey, PAPER_BYTES, ROOM, words);
}

static void refused_surveys(void)
{
    uint8_t survey[PAPER_BYTES];
    paper_survey(survey);
    told(survey, 55, ROOM, "file of 55 bytes: must have 56 to 65536");
    told_with(32, 41, "course count 41: must be 1 to 40");
    told_with(48, 3, "seam count 3: must be 1, the course count");
    told_with(52, 73, "byte offset of the seams 73: its 1 records must start at byte 56 or later and end inside the file of 84 bytes");
    told_with(52, 71, "byte offset of the seams 71: its 1 records must not overlap the courses");
    told_with(0, 3, "head kind 3: must be 0 (flat), 1 (half-ellipsoid) or 2 (spherical cap)");
    told_with(4, 49999, "dip diameter DH 49999 (499.99 mm): must be 50000 to 500000");
    told_with(LENGTH_AT, 99899, "sum of the course lengths 99899 (998.99 mm): must be 99900 to 100100, "
                                "the shell length L1 give or take 100 for each course");
    told_with(4, 60001, "shell diameter D1 50000 (500.00 mm): must be 50000 to 500000 and at most 10000 from DH 60001");
    told_with(THICKNESS_AT, 5001, "course 1, thickness 5001 (50.01 mm): must be 100 to 5000");
    told_with(SEAMS_AT, 13, "seams of course 1, number 13: must be 0 to 12");
    told_with(SEAMS_AT + 4, 1001, "seams of course 1, thickness 1001 (10.01 mm): must be 0 to 1000");
    told_with(SEAMS_AT + 8, 5001, "seams of course 1, width 5001 (50.01 mm): must be 0 to 5000");
    with_seams(survey, 150129, 160221);
    told(survey, PAPER_BYTES, ROOM,
         "course 1, first circumference less the tape rise over its seams 149999 (1,499.99 mm): must be 150000 to 1600000");
    with_caps(survey, 25001);
    told(survey, PAPER_BYTES, ROOM,
         "head length L3 25001 (250.01 mm): must be at most 25000 for spherical caps, half the head diameter D2 50000");
    put(survey, 4, 49999);
    check(says(milechime_words(survey, PAPER_BYTES, ROOM), "dip diameter DH 49999 (499.99 mm): must be 50000 to 500000"),
          "caps too long and DH too small: the words are those of the earlier refusal");
    check(says(milechime_words(NULL, 0, ROOM), "file of 0 bytes: must have 56 to 65536"), "no survey at all");
    check(says(milechime_words(NULL, 0, 0), "file of 0 bytes: must have 56 to 65536"), "and no room: the same words");
}

/* With room for all rows, with too little, and with more than any table has. */
static void room_for_rows(void)
{
    static const char too_short[] = "lent table: must have a cell for each row";
    uint8_t survey[ITEM_PAPER_BYTES];
    paper_survey(survey);
    told(survey, PAPER_BYTES, PAPER_ROWS - 1, too_short);
    check(says(milechime_words(survey, PAPER_BYTES, 0), too_short), "and no cell at all: the same words");
    check(says(milechime_words(lent_bytes(survey, PAPER_BYTES), PAPER_BYTES, PAPER_ROWS), ""),
          "a survey that gets its table has no words: length 0, and a text of zeros");
    check(says(milechime_words(survey, PAPER_BYTES, PAPER_ROWS + 1), ""), "nor with a cell more than it has rows");
    check(says(milechime_words(survey, PAPER_BYTES, SIZE_MAX), ""), "nor with as many cells as can be counted");

    add_deadwood(survey, PAPER_BYTES, 0, 10000, 5000);
    told(survey, ITEM_PAPER_BYTES, PAPER_ROWS,
         "row 1 at dip height 10000 (100.00 mm): must not be below the row before; the deadwood is larger than the room there");
    told(survey, ITEM_PAPER_BYTES, PAPER_ROWS - 1, too_short);

    with_caps(survey, 25001);
    check(says(milechime_words(survey, PAPER_BYTES, 0),
               "head length L3 25001 (250.01 mm): must be at most 25000 for spherical caps, half the head diameter D2 50000"),
          "caps too long and no room: the words are those of the caps");
}

static void longest_files(void)
{
    uint8_t *file = calloc(MILECHIME_LARGEST_SURVEY + 1, 1);
    if (file == NULL)
        exit(2);
    paper_survey(file);
    check(says(milechime_words(lent_bytes(file, MILECHIME_LARGEST_SURVEY), MILECHIME_LARGEST_SURVEY, PAPER_ROWS), ""),
          "65,536 bytes are not too many: no words");
    told(file, MILECHIME_LARGEST_SURVEY + 1, PAPER_ROWS, "file of more than 65536 bytes: must have 56 to 65536");
    free(file);
}

static struct asked ask(const uint8_t *survey, size_t survey_length, size_t table_length)
{
    static uint32_t cells[MILECHIME_MOST_ROWS];
    struct milechime_table_answer a = milechime_table(survey, survey_length, cells, table_length);
    return (struct asked){a.refusal, a.place, milechime_words(survey, survey_length, table_length)};
}

/* With flat heads, caps and seams, all with deadwood: for each no cell, one too
 * few for the paper's rows, just enough for them, and enough for any. */
static void many_surveys(void)
{
    static const size_t lengths[] = {0, PAPER_ROWS - 1, PAPER_ROWS, MILECHIME_MOST_ROWS};
    uint8_t surveys[3][ITEM_PAPER_BYTES];
    paper_survey(surveys[0]);
    with_caps(surveys[1], 1000);
    with_seams(surveys[2], 160221 + 130, 160221 + 130);
    struct tally tally = nothing_asked();
    for (size_t i = 0; i < 3; i++) {
        add_deadwood(surveys[i], PAPER_BYTES, 10000, 30000, 1000);
        for (size_t j = 0; j < sizeof lengths / sizeof lengths[0]; j++)
            ask_many(&tally, surveys[i], sizeof surveys[i], lengths[j], ask);
    }
    check_many(&tally, "many surveys and four lengths of table: no words exactly where milechime_table refuses nothing",
               0x3FF | 1u << 14, "each of 1 to 9 and 14 among them, and none");
}

void words_checks(void)
{
    refused_surveys();
    room_for_rows();
    longest_files();
    many_surveys();
}
