#include "lent.h"

#include <stdio.h>
#include <stdlib.h>
#include <string.h>
#include <sys/mman.h>
#include <unistd.h>

static void *before_a_wall(size_t bytes)
{
    size_t page = (size_t)sysconf(_SC_PAGESIZE);
    size_t room = (bytes + page - 1) / page * page;
    uint8_t *start = mmap(NULL, room + page, PROT_READ | PROT_WRITE,
                          MAP_PRIVATE | MAP_ANONYMOUS, -1, 0);
    if (start == MAP_FAILED || mprotect(start + room, page, PROT_NONE) != 0) {
        perror("memory to lend");
        exit(2);
    }
    return start + room - bytes;
}

uint32_t untouched(size_t i)
{
    return 0xA5000000u + (uint32_t)i;
}

uint32_t *lent_cells(size_t count)
{
    uint32_t *cells = before_a_wall(count * sizeof *cells);
    for (size_t i = 0; i < count; i++)
        cells[i] = untouched(i);
    return cells;
}

uint8_t *lent_bytes(const void *bytes, size_t count)
{
    uint8_t *copy = before_a_wall(count);
    memcpy(copy, bytes, count);
    return copy;
}
