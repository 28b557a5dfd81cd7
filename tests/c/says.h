/* What an answer in words must be. */
#ifndef SAYS_H
#define SAYS_H

#include "milechime.h"

#include <stdbool.h>

/* The words are these, of that length, and 0 behind them. */
bool says(struct milechime_words_answer a, const char *words);

#endif
