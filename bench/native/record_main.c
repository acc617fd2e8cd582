/* Forty million turns over a record. */
#include "hand.h"
#include "record.h"
#include "timing.h"

enum { TURNS = 40000000 };

static run_argument argument;
static struct state state;

static uint64_t by_cogent(void)
{
    argument.m0->m0 = argument.m0->m1 = argument.m0->m2 = 1;
    argument.m1 = TURNS;
    run_result behind = run(argument);
    return ((uint64_t)behind->m0 << 32 | behind->m1) + behind->m2;
}

static uint64_t by_hand(void)
{
    state.seed = state.total = state.turns = 1;
    record_hand(&state, TURNS);
    return ((uint64_t)state.seed << 32 | state.total) + state.turns;
}

int main(void)
{
    struct SysState memory = {CG_UNBOUNDED};
    argument.m0 = cg_new(&memory, sizeof *argument.m0);
    if (argument.m0 == NULL) {
        return 1;
    }
    return compare(by_cogent, by_hand, by_hand);
}
