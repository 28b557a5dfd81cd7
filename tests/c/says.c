#include "says.h"

#include <string.h>

bool says(struct milechime_words_answer a, const char *words)
{
    if (a.length != strlen(words) || a.length >= MILECHIME_MOST_WORDS || memcmp(a.text, words, a.length) != 0)
        return false;
    for (size_t i = a.length; i < MILECHIME_MOST_WORDS; i++)
        if (a.text[i] != 0)
            return false;
    return true;
}
