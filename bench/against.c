/* Times the largest table with two builds of the library in one run, turn by turn, and says whether both give the same table. */
#include <stdint.h>
#include <stdio.h>
#include <stdlib.h>
#include <string.h>
#include <time.h>

#include "milechime.h"

#define RUNS 201

/* the other build: its names begin with other_ */
struct milechime_table_answer other_table(const uint8_t *survey, size_t survey_len, uint32_t *table, size_t table_len);

static double now(void)
{
    struct timespec t;
    clock_gettime(CLOCK_MONOTONIC, &t);
    return t.tv_sec * 1e3 + t.tv_nsec / 1e6;
}

static int by_size(const void *a, const void *b)
{
    double x = *(const double *)a, y = *(const double *)b;
    return (x > y) - (x < y);
}

int main(int argc, char **argv)
{
    static uint8_t survey[MILECHIME_LARGEST_SURVEY];
    static uint32_t ours[MILECHIME_MOST_ROWS], theirs[MILECHIME_MOST_ROWS];
    static double here[RUNS], there[RUNS];
    FILE *file = argc == 2 ? fopen(argv[1], "rb") : NULL;
    if (file == NULL) {
        fprintf(stderr, "expected: against SURVEY\n");
        return 2;
    }
    size_t size = fread(survey, 1, sizeof survey, file);
    struct milechime_table_answer a = milechime_table(survey, size, ours, MILECHIME_MOST_ROWS);
    struct milechime_table_answer b = other_table(survey, size, theirs, MILECHIME_MOST_ROWS);
    if (memcmp(&a, &b, sizeof a) != 0 || memcmp(ours, theirs, sizeof ours) != 0) {
        fprintf(stderr, "the two builds differ\n");
        return 1;
    }
    for (int run = 0; run < RUNS; run++) {
        double start = now();
        milechime_table(survey, size, ours, MILECHIME_MOST_ROWS);
        double middle = now();
        other_table(survey, size, theirs, MILECHIME_MOST_ROWS);
        here[run] = middle - start;
        there[run] = now() - middle;
    }
    qsort(here, RUNS, sizeof *here, by_size);
    qsort(there, RUNS, sizeof *there, by_size);
    printf("%u rows, medians of %d runs: this build %.3f ms, the other %.3f ms, ratio %.3f\n",
           a.rows, RUNS, here[RUNS / 2], there[RUNS / 2], here[RUNS / 2] / there[RUNS / 2]);
    return 0;
}
