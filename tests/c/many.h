/* Many surveys made of one: cut at each byte, and each of its numbers exchanged
 * for many. Each is asked for its refusal and for the words of it. */
#ifndef MANY_H
#define MANY_H

#include "milechime.h"

#include <stdbool.h>

/* What two calls on one survey say of it. */
struct asked {
    uint32_t refusal;
    uint32_t place;
    struct milechime_words_answer words;
};

typedef struct asked asks(const uint8_t *survey, size_t survey_length, size_t table_length);

struct tally {
    bool exactly; /* words where there is a refusal, and nowhere else */
    bool same;    /* words of that refusal, by the way they begin, and for 9 of the row that is its place */
    uint32_t met; /* the refusals there were: bit n for number n, bit 0 for none */
};

/* Before the first survey. */
struct tally nothing_asked(void);

/* The three checks of what was asked: that words come exactly with a refusal, as
 * `exactly` says it; that they are of that refusal; and which refusals were met. */
void check_many(const struct tally *tally, const char *exactly, uint32_t met, const char *each);

void ask_many(struct tally *tally, const uint8_t *survey, size_t survey_length, size_t table_length, asks *ask);

#endif
