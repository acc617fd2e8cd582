/* The last of 64 names in a directory block of 1,024 bytes, two hundred thousand times. */
#include "hand.h"
#include "lookup.h"
#include "timing.h"

#include <string.h>

enum { BLOCK = 1024, ENTRY = 16, LETTERS = 7, TIMES = 200000 };

static lookup_argument argument;

static void name_at(uint8_t *bytes, int number)
{
    char name[LETTERS + 1];
    snprintf(name, sizeof name, "file%03d", number);
    memcpy(bytes, name, LETTERS);
}

static uint64_t by_cogent(void)
{
    uint64_t total = 0;
    for (int i = 0; i < TIMES; i++) {
        argument.m0->elements[0] = (uint8_t)i;
        lookup_result found = lookup(argument);
        total = total * 3 + found.a2 * (found.t == IS);
    }
    return total;
}

static uint64_t by_hand(void)
{
    uint64_t total = 0;
    for (int i = 0; i < TIMES; i++) {
        uint32_t number = 0;
        argument.m0->elements[0] = (uint8_t)i;
        lookup_hand(argument.m0->elements, BLOCK, argument.m1->elements, LETTERS, &number);
        total = total * 3 + number;
    }
    return total;
}

static uint64_t by_same(void)
{
    uint64_t total = 0;
    for (int i = 0; i < TIMES; i++) {
        uint32_t number = 0;
        argument.m0->elements[0] = (uint8_t)i;
        lookup_same(argument.m0, argument.m1, &number);
        total = total * 3 + number;
    }
    return total;
}

int main(void)
{
    struct SysState memory = {CG_UNBOUNDED};
    argument.m0 = cg_w8_create(&memory, BLOCK);
    argument.m1 = cg_w8_create(&memory, LETTERS);
    if (argument.m0 == NULL || argument.m1 == NULL) {
        return 1;
    }
    for (int i = 0; i < BLOCK / ENTRY; i++) {
        uint8_t *entry = argument.m0->elements + i * ENTRY;
        entry[0] = (uint8_t)(i + 1);
        entry[4] = ENTRY;
        entry[6] = LETTERS;
        name_at(entry + 8, i);
    }
    name_at(argument.m1->elements, BLOCK / ENTRY - 1);
    return compare(by_cogent, by_hand, by_same);
}
