/* Runs every check of the C interface; ends with 1 if one failed. */
#include "check.h"
#include "checks.h"

#include <stdio.h>

int main(void)
{
    table_checks();
    lookup_checks();
    words_checks();
    convert_checks();
    thread_checks();
    stack_checks();
    printf("%u checks, %u failed\n", checks(), failures());
    return failures() == 0 ? 0 : 1;
}
