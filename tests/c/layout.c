/* Prints sizes and offsets of the header's types, for the Rust tests to compare with their own. */

#include <stdio.h>

#include "tulivombe.h"

#define SIZE(type) printf(#type " %u\n", (unsigned)sizeof(type))
#define OFFSET(type, field) printf(#type "." #field " %u\n", (unsigned)offsetof(type, field))

int main(void)
{
    SIZE(tulivombe_answer);
    OFFSET(tulivombe_answer, value);
    SIZE(tulivombe_part);
    OFFSET(tulivombe_part, offset);
    OFFSET(tulivombe_part, length);
    SIZE(tulivombe_registers);
    SIZE(tulivombe_ran);
    OFFSET(tulivombe_ran, registers);
    OFFSET(tulivombe_ran, count);
    OFFSET(tulivombe_ran, stopped);
    SIZE(tulivombe_record);
    OFFSET(tulivombe_record, d);
    OFFSET(tulivombe_record, a);
    OFFSET(tulivombe_record, b);
    OFFSET(tulivombe_record, byte);
    OFFSET(tulivombe_record, index);
    OFFSET(tulivombe_record, word);
    OFFSET(tulivombe_record, rows);
    OFFSET(tulivombe_record, columns);
    OFFSET(tulivombe_record, row);
    OFFSET(tulivombe_record, column);
    SIZE(tulivombe_place);
    OFFSET(tulivombe_place, record);
    OFFSET(tulivombe_place, next);
    return 0;
}
