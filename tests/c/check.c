#include "check.h"

#include <stdio.h>

static unsigned all;
static unsigned failed;

void check(bool holds, const char *what)
{
    printf("%s: %s\n", holds ? "ok" : "FAILED", what);
    all++;
    if (!holds)
        failed++;
}

unsigned checks(void)
{
    return all;
}

unsigned failures(void)
{
    return failed;
}
