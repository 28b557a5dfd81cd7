#include "paper.h"

const uint32_t paper_rows[PAPER_ROWS] = {0, 2796, 7334, 12301, 16839, 19635};

void put(uint8_t *survey, size_t at, uint32_t number)
{
    for (size_t i = 0; i < 4; i++)
        survey[at + i] = (uint8_t)(number >> (8 * i));
}

uint32_t number_at(const uint8_t *survey, size_t at)
{
    uint32_t number = 0;
    for (size_t i = 0; i < 4; i++)
        number |= (uint32_t)survey[at + i] << (8 * i);
    return number;
}

void paper_survey(uint8_t *survey)
{
    static const uint32_t words[PAPER_BYTES / 4] = {
        0, PAPER_DH, 100000, 160221, 160221, 0, 0, PAPER_STEP, /* the tank */
        1, FIRST_AT, 0, 0, 1, SEAMS_AT,                        /* one course, no deadwood, one record of seams */
        160221, 160221, 100000, 500,                           /* the course */
        0, 0, 0,                                               /* its seams: none */
    };
    for (size_t i = 0; i < PAPER_BYTES / 4; i++)
        put(survey, 4 * i, words[i]);
}

void old_paper_survey(uint8_t *survey)
{
    static const uint32_t words[OLD_PAPER_BYTES / 4] = {
        0, PAPER_DH, 100000, 160221, 160221, 0, 0, PAPER_STEP, /* the tank */
        1, 48, 0, 0,                                           /* one course, no deadwood */
        160221, 160221, 100000, 500,                           /* the course */
    };
    for (size_t i = 0; i < OLD_PAPER_BYTES / 4; i++)
        put(survey, 4 * i, words[i]);
}

void with_caps(uint8_t *survey, uint32_t length)
{
    paper_survey(survey);
    put(survey, 0, 2);
    put(survey, 24, length);
}

void with_seams(uint8_t *survey, uint32_t first, uint32_t second)
{
    paper_survey(survey);
    put(survey, FIRST_AT, first);
    put(survey, SECOND_AT, second);
    put(survey, SEAMS_AT, 3);
    put(survey, SEAMS_AT + 4, 200);
    put(survey, SEAMS_AT + 8, 1200);
}

void add_deadwood(uint8_t *survey, size_t at, uint32_t low, uint32_t high, int32_t volume)
{
    put(survey, 40, 1);
    put(survey, 44, (uint32_t)at);
    put(survey, at, low);
    put(survey, at + 4, high);
    put(survey, at + 8, (uint32_t)volume);
}
