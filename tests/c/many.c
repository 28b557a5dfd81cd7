#include "many.h"

#include "check.h"

#include "lent.h"
#include "paper.h"
#include "says.h"

#include <stdio.h>
#include <string.h>

/* At the limits of a survey's numbers, and far outside. */
static const uint32_t numbers[] = {
    0, 1, 2, 3, 12, 13, 40, 41, 47, 48, 55, 56, 64, 65, 71, 72, 76, 83, 84, 85, 96, 99, 100, 101, 1000, 1001, 5000, 5001,
    10000, 10001, 20000, 20001, 25000, 25001, 30001, 49999, 50000, 50001, 60000, 60001, 99899, 99900, 100100, 100101,
    149999, 150129, 160221, 500001, 1600001, 10000001, 0x80000000, UINT32_MAX,
};

/* The words of refusal 5 begin with the name of a number, the others with these. */
static const struct {
    uint32_t refusal;
    const char *words;
} beginnings[] = {
    {1, "file of "},
    {2, "course count "},
    {2, "deadwood count "},
    {2, "seam count "},
    {3, "byte offset of the "},
    {4, "head kind "},
    {6, "sum of the course lengths "},
    {7, "shell diameter D1 "},
    {7, "head diameter D2 "},
    {8, "lent table: "},
    {9, "row "},
};

static uint32_t refusal_of(const char *text)
{
    for (size_t i = 0; i < sizeof beginnings / sizeof beginnings[0]; i++)
        if (strncmp(text, beginnings[i].words, strlen(beginnings[i].words)) == 0)
            return beginnings[i].refusal;
    return strstr(text, " for spherical caps") != NULL ? 14 : 5;
}

/* A text that ends, and has nothing behind its end. */
static bool is_text(struct milechime_words_answer words)
{
    return words.text[MILECHIME_MOST_WORDS - 1] == 0 && says(words, words.text);
}

static bool is_of(const char *text, uint32_t refusal, uint32_t place)
{
    unsigned row;
    return refusal_of(text) == refusal && (refusal != 9 || (sscanf(text, "row %u at ", &row) == 1 && row == place));
}

struct tally nothing_asked(void)
{
    return (struct tally){true, true, 0};
}

static void count(struct tally *tally, struct asked a)
{
    bool text = is_text(a.words);
    tally->exactly = tally->exactly && text && (a.words.length == 0) == (a.refusal == 0);
    tally->same = tally->same && text && (a.refusal == 0 || is_of(a.words.text, a.refusal, a.place));
    tally->met |= a.refusal < 32 ? 1u << a.refusal : 0;
}

void ask_many(struct tally *tally, const uint8_t *survey, size_t survey_length, size_t table_length, asks *ask)
{
    for (size_t length = 0; length < survey_length; length++)
        count(tally, ask(lent_bytes(survey, length), length, table_length));
    uint8_t *changed = lent_bytes(survey, survey_length);
    count(tally, ask(changed, survey_length, table_length));
    for (size_t at = 0; at < survey_length; at += 4) {
        for (size_t i = 0; i < sizeof numbers / sizeof numbers[0]; i++) {
            put(changed, at, numbers[i]);
            count(tally, ask(changed, survey_length, table_length));
        }
        put(changed, at, number_at(survey, at));
    }
}

void check_many(const struct tally *tally, const char *exactly, uint32_t met, const char *each)
{
    check(tally->exactly, exactly);
    check(tally->same, "and else words of the refusal that it gives, of 9 with its row");
    check(tally->met == met, each);
}
