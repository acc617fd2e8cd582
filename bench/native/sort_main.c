/* Twenty thousand words in no order, sorted in place. */
#include "hand.h"
#include "sort.h"
#include "timing.h"

enum { WORDS = 20000 };

static struct W32 *array;

static void scatter(void)
{
    for (uint32_t i = 0; i < WORDS; i++) {
        array->elements[i] = i * 2654435761u;
    }
}

/* A number that the order of the words decides. */
static uint64_t digest(void)
{
    uint64_t total = 0;
    for (uint32_t i = 0; i < WORDS; i++) {
        total = total * 31 + array->elements[i];
    }
    return total;
}

static uint64_t by_cogent(void)
{
    scatter();
    array = sort(array);
    return digest();
}

static uint64_t by_hand(void)
{
    scatter();
    sort_hand(array->elements, array->length);
    return digest();
}

static uint64_t by_same(void)
{
    scatter();
    sort_same(array);
    return digest();
}

int main(void)
{
    struct SysState memory = {CG_UNBOUNDED};
    array = cg_w32_create(&memory, WORDS);
    if (array == NULL) {
        return 1;
    }
    return compare(by_cogent, by_hand, by_same);
}
