/* Prints the header's limits and lengths, and the refusals that the requests brought or changed, for the Rust tests to compare with their own. */

#include <stdio.h>

#include "tulivombe.h"

#define NUMBER(name) printf(#name " %u\n", (unsigned)(TULIVOMBE_##name))

int main(void)
{
    NUMBER(SCREENFUL);
    NUMBER(MOST_STEPS);
    NUMBER(LONGEST_FILE);
    NUMBER(ANSWER_LENGTH);
    NUMBER(CALL_LENGTH);
    NUMBER(FREE_SLOT);
    NUMBER(TOO_MANY_RECORDS);
    NUMBER(OUTSIDE);
    NUMBER(LOCKED);
    NUMBER(NOT_BACK);
    NUMBER(NOT_IN_GRID);
    return 0;
}
