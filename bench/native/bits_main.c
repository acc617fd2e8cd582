/* The free bits of a million bytes, five times. */
#include "hand.h"
#include "bits.h"
#include "timing.h"

enum { BYTES = 1000000, TIMES = 5 };

static struct W8 *array;

static uint64_t by_cogent(void)
{
    uint64_t total = 0;
    for (int i = 0; i < TIMES; i++) {
        total = total * 3 + bits(array);
    }
    return total;
}

static uint64_t by_hand(void)
{
    uint64_t total = 0;
    for (int i = 0; i < TIMES; i++) {
        total = total * 3 + bits_hand(array->elements, array->length);
    }
    return total;
}

static uint64_t by_same(void)
{
    uint64_t total = 0;
    for (int i = 0; i < TIMES; i++) {
        total = total * 3 + bits_same(array);
    }
    return total;
}

int main(void)
{
    struct SysState memory = {CG_UNBOUNDED};
    array = cg_w8_create(&memory, BYTES);
    if (array == NULL) {
        return 1;
    }
    for (uint32_t i = 0; i < BYTES; i++) {
        array->elements[i] = (uint8_t)(i * 2654435761u >> 24);
    }
    return compare(by_cogent, by_hand, by_same);
}
