/* Calls both functions of fold.cg on an array of eight bytes. */
#include <stdio.h>

#include "fold.h"

static const uint8_t bytes[] = {3, 1, 4, 1, 5, 9, 2, 6};

int main(void)
{
    struct SysState memory = {CG_UNBOUNDED};
    struct W8 *array = cg_w8_create(&memory, sizeof bytes);
    at_least_argument argument;
    if (array == NULL) {
        return 1;
    }
    for (uint32_t i = 0; i < sizeof bytes; i++) {
        cg_w8_put(array, i, bytes[i]);
    }
    printf("sum: %u\n", (unsigned)sum(array));
    argument.m0 = array;
    argument.m1 = 4;
    printf("at least 4: %u\n", (unsigned)at_least(argument));
    cg_w8_free(&memory, array);
    return 0;
}
