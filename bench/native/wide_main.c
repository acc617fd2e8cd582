/* Two loops of ten million turns over a record of 80 bytes. */
#include "hand.h"
#include "timing.h"
#include "wide.h"

enum { TURNS = 10000000 };

static uint64_t by_cogent(void)
{
    wide_argument argument = {.m0 = {1, 2, 3, 4, 5, 6, 7, 8, 9, 10}, .m1 = TURNS};
    wide_result behind = wide(argument);
    return behind.m0 + behind.m1 + behind.m8 * 3 + behind.m9;
}

static uint64_t by_hand(void)
{
    struct wide state = {1, 2, 3, 4, 5, 6, 7, 8, 9, 10};
    wide_hand(&state, TURNS);
    return state.a + state.b + state.i * 3 + state.j;
}

int main(void)
{
    return compare(by_cogent, by_hand, by_hand);
}
