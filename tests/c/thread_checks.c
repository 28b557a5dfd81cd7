/* Calls from several threads at once, each with a small stack. */
#include "checks.h"

#include "check.h"
#include "milechime.h"
#include "paper.h"

#include <limits.h>
#include <pthread.h>
#include <stdio.h>
#include <stdlib.h>
#include <string.h>

enum { THREADS = 4, TURNS = 20, STACK = 64 * 1024 };

/* A thread's table, apart from its stack, how often it was right, and how
 * often an old survey was converted. */
struct work {
    uint32_t table[PAPER_ROWS];
    unsigned right;
    unsigned converted;
};

static void *make_tables(void *given)
{
    struct work *work = given;
    uint8_t survey[PAPER_BYTES], old[OLD_PAPER_BYTES];
    paper_survey(survey);
    old_paper_survey(old);
    for (unsigned turn = 0; turn < TURNS; turn++) {
        memset(work->table, 0, sizeof work->table);
        struct milechime_table_answer a = milechime_table(survey, PAPER_BYTES, work->table, PAPER_ROWS);
        if (a.refusal == 0 && memcmp(work->table, paper_rows, sizeof paper_rows) == 0)
            work->right++;
        if (milechime_convert_48(old, OLD_PAPER_BYTES).length == PAPER_BYTES)
            work->converted++;
    }
    return NULL;
}

void thread_checks(void)
{
    pthread_t threads[THREADS];
    struct work works[THREADS] = {0};
    pthread_attr_t small;
    if (pthread_attr_init(&small) != 0 || pthread_attr_setstacksize(&small, STACK + PTHREAD_STACK_MIN) != 0) {
        perror("a small stack");
        exit(2);
    }
    for (unsigned i = 0; i < THREADS; i++)
        if (pthread_create(&threads[i], &small, make_tables, &works[i]) != 0) {
            perror("a thread");
            exit(2);
        }
    unsigned right = 0, converted = 0;
    for (unsigned i = 0; i < THREADS; i++) {
        pthread_join(threads[i], NULL);
        right += works[i].right;
        converted += works[i].converted;
    }
    pthread_attr_destroy(&small);
    check(right == THREADS * TURNS, "four threads at once, each with 64 KiB of stack, make the same tables");
    check(converted == THREADS * TURNS, "and convert the same old survey");
}
