/* Puts a value in register d of the same registers, for each byte d, and prints the number and all registers after it. The
 * values before it are 1 to 16. */

#include <stdio.h>

#include "tulivombe.h"

int main(void)
{
    unsigned d, k;
    for (d = 0; d < 256; d++) {
        tulivombe_registers registers;
        for (k = 0; k < TULIVOMBE_REGISTERS; k++) {
            registers.values[k] = k + 1;
        }
        printf("%u:", (unsigned)tulivombe_put_register(&registers, (uint8_t)d, 4000000000u - d));
        for (k = 0; k < TULIVOMBE_REGISTERS; k++) {
            printf(" %u", (unsigned)registers.values[k]);
        }
        printf("\n");
    }
    return 0;
}
