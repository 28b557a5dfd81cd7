/* How much stack a call needs: it runs on one that was painted before, and the
 * lowest byte that changed tells. */
#include "checks.h"

#include "check.h"
#include "milechime.h"
#include "paper.h"
#include "says.h"

#include <pthread.h>
#include <stdio.h>
#include <stdlib.h>
#include <string.h>

enum { KIB = 1024, STACK = 192 * KIB, PAINT = 0x5A };

static _Alignas(4096) uint8_t stack[STACK];
static uint8_t *from;

/* What the calls take and answer, apart from the stack. */
static uint8_t old[OLD_PAPER_BYTES + ITEM_BYTES];
static uint8_t today[PAPER_BYTES + ITEM_BYTES];
static struct milechime_convert_answer converted;
static uint32_t cells[MILECHIME_MOST_ROWS];
static struct milechime_table_answer table;
static struct milechime_words_answer words;

/* The widest tank with the longest half-ellipsoid heads: no product that is
 * divided bit by bit is longer than theirs. */
static void widest(void)
{
    static const uint32_t course[] = {1600000, 1600000, 100000, 5000};
    old_paper_survey(old);
    put(old, 0, 1);
    put(old, 4, 500000);
    put(old, 12, 1600000);
    put(old, 16, 1600000);
    put(old, 24, 260000);
    for (size_t i = 0; i < 4; i++)
        put(old, 48 + 4 * i, course[i]);
}

/* The same with deadwood that is larger than the room below the last row, in both formats. */
static void falling(void)
{
    memcpy(today, converted.file, PAPER_BYTES);
    add_deadwood(today, PAPER_BYTES, 490000, 500000, 1000000);
    add_deadwood(old, OLD_PAPER_BYTES, 490000, 500000, 1000000);
}

static bool is_last_row(void)
{
    return says(words, "row 50 at dip height 500000 (5,000.00 mm): must not be below the row before; the deadwood is larger than the room there");
}

static void *convert(void *unused)
{
    from = __builtin_frame_address(0);
    converted = milechime_convert_48(old, OLD_PAPER_BYTES);
    return unused;
}

static void *make_table(void *unused)
{
    from = __builtin_frame_address(0);
    table = milechime_table(converted.file, converted.length, cells, MILECHIME_MOST_ROWS);
    return unused;
}

static void *say_nothing(void *unused)
{
    from = __builtin_frame_address(0);
    words = milechime_words(converted.file, converted.length, MILECHIME_MOST_ROWS);
    return unused;
}

static void *say(void *unused)
{
    from = __builtin_frame_address(0);
    words = milechime_words(today, sizeof today, MILECHIME_MOST_ROWS);
    return unused;
}

static void *say_nothing_old(void *unused)
{
    from = __builtin_frame_address(0);
    words = milechime_convert_words(old, OLD_PAPER_BYTES, 48);
    return unused;
}

static void *say_old(void *unused)
{
    from = __builtin_frame_address(0);
    words = milechime_convert_words(old, sizeof old, 48);
    return unused;
}

static void *say_other_header(void *unused)
{
    from = __builtin_frame_address(0);
    words = milechime_convert_words(old, sizeof old, UINT32_MAX);
    return unused;
}

/* How much a call needs, with what its caller lays on the stack for it. */
static size_t needed(void *(*call)(void *))
{
    pthread_t thread;
    pthread_attr_t painted;
    memset(stack, PAINT, sizeof stack);
    if (pthread_attr_init(&painted) != 0 || pthread_attr_setstack(&painted, stack, sizeof stack) != 0 ||
        pthread_create(&thread, &painted, call, NULL) != 0) {
        perror("a painted stack");
        exit(2);
    }
    pthread_join(thread, NULL);
    pthread_attr_destroy(&painted);
    size_t low = 0;
    while (low < sizeof stack && stack[low] == PAINT)
        low++;
    return (size_t)(from - stack) - low;
}

void stack_checks(void)
{
    widest();
    check(needed(convert) < 64 * KIB && converted.refusal == 0, "milechime_convert_48 needs less than 64 KiB of stack");
    check(needed(make_table) < 64 * KIB && table.refusal == 0, "milechime_table too");
    check(needed(say_nothing) < 64 * KIB && words.length == 0, "milechime_words too, where nothing is refused");
    check(needed(say_nothing_old) < 64 * KIB && words.length == 0, "and milechime_convert_words");
    falling();
    check(needed(say) < 64 * KIB && is_last_row(), "milechime_words too, where the last test refuses: that of the last row");
    check(needed(say_old) < 64 * KIB && is_last_row(), "and milechime_convert_words");
    check(needed(say_other_header) < 64 * KIB && words.length != 0, "and where there is no such header");
}
