/* milechime_table: the paper's table, refusals with their places, and what is
 * left of the lent cells. */
#include "checks.h"

#include "check.h"
#include "lent.h"
#include "milechime.h"
#include "paper.h"

#include <stdbool.h>
#include <stdlib.h>

static bool answers(struct milechime_table_answer a, uint32_t refusal, uint32_t place,
                    uint32_t d1, uint32_t d2, uint32_t rows)
{
    return a.refusal == refusal && a.place == place && a.d1 == d1 && a.d2 == d2 && a.rows == rows;
}

static bool untouched_from(const uint32_t *cells, size_t from, size_t count)
{
    for (size_t i = from; i < count; i++)
        if (cells[i] != untouched(i))
            return false;
    return true;
}

static bool holds_the_paper_rows(const uint32_t *cells)
{
    for (size_t i = 0; i < PAPER_ROWS; i++)
        if (cells[i] != paper_rows[i])
            return false;
    return true;
}

/* A survey that is refused, with a table that would be long enough. */
static void refused(const uint8_t *survey, size_t length, uint32_t refusal, uint32_t place, const char *what)
{
    enum { CELLS = 10 };
    uint32_t *cells = lent_cells(CELLS);
    struct milechime_table_answer a = milechime_table(lent_bytes(survey, length), length, cells, CELLS);
    check(answers(a, refusal, place, 0, 0, 0) && untouched_from(cells, 0, CELLS), what);
}

/* The paper's survey with one number exchanged. */
static void refused_with(size_t at, uint32_t number, uint32_t refusal, uint32_t place, const char *what)
{
    uint8_t survey[PAPER_BYTES];
    paper_survey(survey);
    put(survey, at, number);
    refused(survey, PAPER_BYTES, refusal, place, what);
}

/* The paper's survey with one deadwood item behind the seams. */
static void with_deadwood(uint8_t *survey, uint32_t low, uint32_t high, int32_t volume)
{
    paper_survey(survey);
    add_deadwood(survey, PAPER_BYTES, low, high, volume);
}

/* The paper's survey with a course that misses L1 by no more than it may: D1 goes by the course's length, the rows by L1. */
static void missing_course(uint32_t length, const char *what)
{
    uint8_t survey[PAPER_BYTES];
    paper_survey(survey);
    put(survey, LENGTH_AT, length);
    uint32_t *cells = lent_cells(PAPER_ROWS);
    struct milechime_table_answer a =
        milechime_table(lent_bytes(survey, PAPER_BYTES), PAPER_BYTES, cells, PAPER_ROWS);
    check(answers(a, 0, 0, 50000, 50000, PAPER_ROWS) && holds_the_paper_rows(cells), what);
}

static void accepted_surveys(void)
{
    enum { MORE = PAPER_ROWS + 5, BYTES = PAPER_BYTES + ITEM_BYTES };
    uint8_t survey[BYTES];
    paper_survey(survey);

    uint32_t *cells = lent_cells(PAPER_ROWS);
    struct milechime_table_answer a =
        milechime_table(lent_bytes(survey, PAPER_BYTES), PAPER_BYTES, cells, PAPER_ROWS);
    check(answers(a, 0, 0, 50000, 50000, PAPER_ROWS), "the paper's survey is accepted: D1, D2 and six rows");
    check(holds_the_paper_rows(cells), "the table holds the paper's six rows");

    cells = lent_cells(MORE);
    a = milechime_table(lent_bytes(survey, PAPER_BYTES), PAPER_BYTES, cells, MORE);
    check(answers(a, 0, 0, 50000, 50000, PAPER_ROWS) && holds_the_paper_rows(cells), "a longer table holds the same rows");
    check(untouched_from(cells, PAPER_ROWS, MORE), "cells behind the rows stay");

    missing_course(99900, "one course 100 shorter than the shell: the same D1, and the paper's rows");
    missing_course(100100, "one course 100 longer than the shell: the same D1, and the paper's rows");

    with_caps(survey, 25000);
    a = milechime_table(lent_bytes(survey, PAPER_BYTES), PAPER_BYTES, lent_cells(PAPER_ROWS), PAPER_ROWS);
    check(answers(a, 0, 0, 50000, 50000, PAPER_ROWS), "caps half as long as D2 are accepted");

    with_seams(survey, 160221 + 130, 160221 + 130);
    cells = lent_cells(PAPER_ROWS);
    a = milechime_table(lent_bytes(survey, PAPER_BYTES), PAPER_BYTES, cells, PAPER_ROWS);
    check(answers(a, 0, 0, 50000, 50000, PAPER_ROWS) && holds_the_paper_rows(cells),
          "readings that are long by the tape's rise over three seams: the same D1 and D2, and the paper's rows");
    with_seams(survey, 160221, 160221);
    a = milechime_table(lent_bytes(survey, PAPER_BYTES), PAPER_BYTES, lent_cells(PAPER_ROWS), PAPER_ROWS);
    check(answers(a, 7, 0, 0, 0, 0), "readings that are not long but have seams: D1 is too small, refusal 7");

    with_deadwood(survey, 10000, 30000, 1000);
    cells = lent_cells(PAPER_ROWS);
    a = milechime_table(lent_bytes(survey, BYTES), BYTES, cells, PAPER_ROWS);
    check(a.refusal == 0 && cells[1] == 2796 && cells[2] == 7334 - 500 && cells[5] == 19635 - 1000,
          "deadwood takes its share from the rows");

    with_deadwood(survey, 0, 10000, 5000);
    refused(survey, BYTES, 9, 1, "deadwood that takes row 1 below zero: refusal 9 at row 1");
}

static void refused_surveys(void)
{
    uint8_t survey[PAPER_BYTES];
    paper_survey(survey);
    refused(survey, 0, 1, 0, "no byte: refusal 1");
    refused(survey, 55, 1, 0, "55 bytes: refusal 1");
    refused(survey, 56, 3, 0, "56 bytes, the course outside: refusal 3");
    refused(survey, PAPER_BYTES - 1, 3, 0, "83 bytes, the seams outside: refusal 3");

    enum { LONG = 70000 };
    uint8_t *file = calloc(LONG, 1);
    if (file == NULL)
        exit(2);
    paper_survey(file);
    refused(file, LONG, 1, 0, "70,000 bytes: refusal 1");
    refused(file, MILECHIME_LARGEST_SURVEY + 1, 1, 0, "65,537 bytes: refusal 1");
    uint32_t *cells = lent_cells(PAPER_ROWS);
    uint8_t *largest = lent_bytes(file, MILECHIME_LARGEST_SURVEY);
    struct milechime_table_answer a = milechime_table(largest, MILECHIME_LARGEST_SURVEY, cells, PAPER_ROWS);
    check(a.refusal == 0 && holds_the_paper_rows(cells), "65,536 bytes are not too many");
    free(file);

    refused_with(32, 0, 2, 0, "no course: refusal 2");
    refused_with(32, 41, 2, 0, "41 courses: refusal 2");
    refused_with(40, 65, 2, 0, "65 deadwood items: refusal 2");
    refused_with(48, 0, 2, 0, "no record of seams for one course: refusal 2");
    refused_with(48, 2, 2, 0, "two records of seams for one course: refusal 2");
    refused_with(36, 55, 3, 0, "courses inside the header: refusal 3");
    refused_with(36, 0xFFFFFFF0u, 3, 0, "courses far outside the file: refusal 3");
    refused_with(52, 55, 3, 0, "seams inside the header: refusal 3");
    refused_with(52, 71, 3, 0, "seams over the course: refusal 3");
    refused_with(52, 73, 3, 0, "seams past the file's end: refusal 3");
    refused_with(0, 3, 4, 0, "head kind 3: refusal 4");
    refused_with(4, 49999, 5, 4, "DH 49,999: refusal 5 at byte 4");
    refused_with(24, 1, 5, 24, "a flat head with a length: refusal 5 at byte 24");
    refused_with(0, 2, 5, 24, "a spherical cap without a length: refusal 5 at byte 24");
    refused_with(THICKNESS_AT, 5001, 5, 68, "a wall too thick: refusal 5 at byte 68");
    refused_with(SEAMS_AT, 13, 5, 72, "13 seams: refusal 5 at byte 72");
    refused_with(SEAMS_AT + 4, 1001, 5, 76, "a seam too thick: refusal 5 at byte 76");
    refused_with(SEAMS_AT + 8, 5001, 5, 80, "a seam too wide: refusal 5 at byte 80");
    refused_with(LENGTH_AT, 99899, 6, 0, "one course 101 shorter than the shell: refusal 6");
    refused_with(LENGTH_AT, 100101, 6, 0, "one course 101 longer than the shell: refusal 6");
    refused_with(4, 60001, 7, 0, "D1 more than 10,000 below DH: refusal 7");

    with_seams(survey, 150129, 160221);
    refused(survey, PAPER_BYTES, 5, 56, "a first circumference that the tape's rise takes below its limit: refusal 5 at byte 56");
    with_seams(survey, 160221, 150129);
    refused(survey, PAPER_BYTES, 5, 60, "and a second one: refusal 5 at byte 60");
    with_seams(survey, 150130, 150130);
    refused(survey, PAPER_BYTES, 7, 0, "corrected readings at their limit: refusal 7 is the first");

    with_caps(survey, 25001);
    refused(survey, PAPER_BYTES, 14, 0, "caps longer than half of D2: refusal 14");
    put(survey, 4, 60001);
    refused(survey, PAPER_BYTES, 7, 0, "and D1 more than 10,000 below DH: refusal 7 comes first");
}

static void short_tables(void)
{
    uint8_t bytes[PAPER_BYTES];
    paper_survey(bytes);
    uint8_t *survey = lent_bytes(bytes, PAPER_BYTES);

    uint32_t *cells = lent_cells(PAPER_ROWS - 1);
    struct milechime_table_answer a = milechime_table(survey, PAPER_BYTES, cells, PAPER_ROWS - 1);
    check(answers(a, 8, 0, 0, 0, 0) && untouched_from(cells, 0, PAPER_ROWS - 1), "five cells for six rows: refusal 8");
    check(answers(milechime_table(survey, PAPER_BYTES, NULL, 0), 8, 0, 0, 0, 0), "no table: refusal 8");
    check(answers(milechime_table(NULL, 0, NULL, 0), 1, 0, 0, 0, 0), "no survey and no table: refusal 1");
    with_caps(bytes, 25001);
    check(answers(milechime_table(lent_bytes(bytes, PAPER_BYTES), PAPER_BYTES, NULL, 0), 14, 0, 0, 0, 0),
          "caps too long and no table: refusal 14 comes first");
    cells = lent_cells(PAPER_ROWS);
    check(answers(milechime_table(NULL, 0, cells, PAPER_ROWS), 1, 0, 0, 0, 0) && untouched_from(cells, 0, PAPER_ROWS),
          "no survey: refusal 1");
}

void table_checks(void)
{
    accepted_surveys();
    refused_surveys();
    short_tables();
}
