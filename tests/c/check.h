/* One printed line for each check. */
#ifndef CHECK_H
#define CHECK_H

#include <stdbool.h>

/* Prints `ok` or `FAILED` and what was checked. */
void check(bool holds, const char *what);

/* How many checks there were, and how many of them failed. */
unsigned checks(void);
unsigned failures(void);

#endif
