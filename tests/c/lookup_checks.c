/* milechime_litres and milechime_height: the paper's two readings, rows, the
 * highest and lowest that may be asked, exact halves, and refusals 11 to 13. */
#include "checks.h"

#include "check.h"
#include "lent.h"
#include "milechime.h"
#include "paper.h"

#include <stdbool.h>
#include <string.h>

static bool gives_litres(struct milechime_litres_answer a, uint32_t refusal, uint32_t volume)
{
    return a.refusal == refusal && a.place == 0 && a.volume == volume;
}

static bool gives_height(struct milechime_height_answer a, uint32_t refusal, uint32_t height)
{
    return a.refusal == refusal && a.place == 0 && a.height == height;
}

static uint32_t *paper_table(void)
{
    uint32_t *table = lent_cells(PAPER_ROWS);
    memcpy(table, paper_rows, sizeof paper_rows);
    return table;
}

/* Both lookups refuse DH, step and table. */
static void refused_11(uint32_t dh, uint32_t step, const uint32_t *table, size_t length, const char *what)
{
    check(gives_litres(milechime_litres(dh, step, table, length, 0), 11, 0)
              && gives_height(milechime_height(dh, step, table, length, 0), 11, 0),
          what);
}

static void readings(const uint32_t *table)
{
    check(gives_litres(milechime_litres(PAPER_DH, PAPER_STEP, table, PAPER_ROWS, 5000), 0, 1398),
          "height 5,000 gives 1,398 v");
    check(gives_height(milechime_height(PAPER_DH, PAPER_STEP, table, PAPER_ROWS, 1398), 0, 4999),
          "1,398 v is first reached at height 4,999");
    bool rows = true;
    for (uint32_t i = 0; i < PAPER_ROWS; i++)
        rows = rows && gives_litres(milechime_litres(PAPER_DH, PAPER_STEP, table, PAPER_ROWS, i * PAPER_STEP), 0, paper_rows[i]);
    check(rows, "at a row's height, the row");
    check(gives_height(milechime_height(PAPER_DH, PAPER_STEP, table, PAPER_ROWS, 0), 0, 0), "no volume is reached at height 0");
    check(gives_height(milechime_height(PAPER_DH, PAPER_STEP, table, PAPER_ROWS, 19635), 0, 49999),
          "the last row is first reached at height 49,999");
}

/* The value between two rows is rounded, and not what it has more than the
 * lower row: between 1 and 2 that would be a half too, and give 1. */
static void halves(void)
{
    static const uint32_t rows[PAPER_ROWS] = {1, 2, 3, 4, 4, 5};
    uint32_t *table = lent_cells(PAPER_ROWS);
    memcpy(table, rows, sizeof rows);
    static const struct {
        uint32_t height, volume;
        const char *what;
    } middle[] = {
        {5000, 2, "the middle of rows 1 and 2 is 2"},
        {15000, 2, "the middle of rows 2 and 3 is 2"},
        {25000, 4, "the middle of rows 3 and 4 is 4"},
        {45000, 4, "the middle of rows 4 and 5 is 4"},
    };
    for (size_t i = 0; i < sizeof middle / sizeof middle[0]; i++)
        check(gives_litres(milechime_litres(PAPER_DH, PAPER_STEP, table, PAPER_ROWS, middle[i].height), 0, middle[i].volume),
              middle[i].what);
    check(gives_height(milechime_height(PAPER_DH, PAPER_STEP, table, PAPER_ROWS, 2), 0, 5000), "2 v is first reached halfway to it");
    check(gives_height(milechime_height(PAPER_DH, PAPER_STEP, table, PAPER_ROWS, 3), 0, 15001), "3 v is first reached past halfway to it");
    check(gives_height(milechime_height(PAPER_DH, PAPER_STEP, table, PAPER_ROWS, 5), 0, 45001), "5 v is first reached past halfway to it");
    check(memcmp(table, rows, sizeof rows) == 0, "and the table is left as it was");
}

static void refusals(uint32_t *table)
{
    check(gives_litres(milechime_litres(PAPER_DH, PAPER_STEP, table, PAPER_ROWS, PAPER_DH + 1), 12, 0), "a height above DH: refusal 12");
    check(gives_litres(milechime_litres(PAPER_DH, PAPER_STEP, table, PAPER_ROWS, UINT32_MAX), 12, 0), "the largest height: refusal 12");
    check(gives_height(milechime_height(PAPER_DH, PAPER_STEP, table, PAPER_ROWS, 19636), 13, 0),
          "a volume above the last row: refusal 13");
    check(gives_height(milechime_height(PAPER_DH, PAPER_STEP, table, PAPER_ROWS, UINT32_MAX), 13, 0), "the largest volume: refusal 13");
    refused_11(49999, PAPER_STEP, table, PAPER_ROWS, "DH 49,999: refusal 11");
    refused_11(500001, PAPER_STEP, table, PAPER_ROWS, "DH 500,001: refusal 11");
    refused_11(PAPER_DH, 99, table, PAPER_ROWS, "step 99: refusal 11");
    refused_11(PAPER_DH, 0, table, PAPER_ROWS, "step 0: refusal 11");
    refused_11(PAPER_DH, 10001, table, PAPER_ROWS, "step 10,001: refusal 11");
    refused_11(PAPER_DH, PAPER_STEP, table + 1, PAPER_ROWS - 1, "five rows for six: refusal 11");
    refused_11(PAPER_DH, PAPER_STEP, NULL, 0, "no table: refusal 11");
    table[5] = table[4] - 1;
    refused_11(PAPER_DH, PAPER_STEP, table, PAPER_ROWS, "a last row that falls: refusal 11");
    check(gives_litres(milechime_litres(PAPER_DH, PAPER_STEP, table, PAPER_ROWS, UINT32_MAX), 11, 0), "refusal 11 comes before 12");
}

void lookup_checks(void)
{
    uint32_t *table = paper_table();
    readings(table);
    check(memcmp(table, paper_rows, sizeof paper_rows) == 0, "a lookup leaves the table as it was");
    halves();
    refusals(table);
}
