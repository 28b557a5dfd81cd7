/* Memory to lend, with an unreachable page right behind it: a call that reads
 * or writes one byte too many ends the program. */
#ifndef LENT_H
#define LENT_H

#include <stddef.h>
#include <stdint.h>

/* So many cells, each with the number that untouched() gives for its index. */
uint32_t *lent_cells(size_t count);

/* A copy of so many bytes. */
uint8_t *lent_bytes(const void *bytes, size_t count);

/* What cell i holds until it is written: no row of a test has such a number. */
uint32_t untouched(size_t i);

#endif
