/* Asks an allocator that has one cell left for two of them. */
#include <stdio.h>

#include "allocate.h"

/* The alternatives of <None | Some Pair> by their places: the order of their names. */
enum { NONE, SOME };

int main(void)
{
    struct SysState memory = {1};
    make_argument first = {&memory, 40, 2};
    make_result made = make(first);
    make_argument second = {made.m0, 1, 1};
    make_result refused = make(second);
    printf("first: %s\n", made.m1.t == SOME ? "made" : "refused");
    printf("second: %s\n", refused.m1.t == NONE ? "refused" : "made");
    if (made.m1.t == SOME) {
        close_pair_argument last = {refused.m0, made.m1.a1};
        close_pair_result closed = close_pair(last);
        printf("sum: %u\n", (unsigned)closed.m1);
    }
    return 0;
}
