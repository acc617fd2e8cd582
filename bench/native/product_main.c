/* The product of two matrices of 256 rows. */
#include "hand.h"
#include "product.h"
#include "timing.h"

enum { SIZE = 256, WORDS = SIZE * SIZE };

static product_argument argument;

static uint64_t digest(void)
{
    uint64_t total = 0;
    for (uint32_t i = 0; i < WORDS; i++) {
        total = total * 31 + argument.m0->elements[i];
    }
    return total;
}

static uint64_t by_cogent(void)
{
    argument.m0 = product(argument);
    return digest();
}

static uint64_t by_hand(void)
{
    product_hand(argument.m0->elements, argument.m1->elements, argument.m2->elements, SIZE);
    return digest();
}

static uint64_t by_same(void)
{
    product_same(argument.m0, argument.m1, argument.m2, SIZE);
    return digest();
}

int main(void)
{
    struct SysState memory = {CG_UNBOUNDED};
    argument.m0 = cg_w32_create(&memory, WORDS);
    argument.m1 = cg_w32_create(&memory, WORDS);
    argument.m2 = cg_w32_create(&memory, WORDS);
    argument.m3 = SIZE;
    if (argument.m0 == NULL || argument.m1 == NULL || argument.m2 == NULL) {
        return 1;
    }
    for (uint32_t i = 0; i < WORDS; i++) {
        argument.m1->elements[i] = i * 2654435761u;
        argument.m2->elements[i] = i * 2246822519u;
    }
    return compare(by_cogent, by_hand, by_same);
}
