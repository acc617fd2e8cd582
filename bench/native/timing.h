/* Times three ways of computing one thing: processor time, each the least of five runs. */
#ifndef TIMING_H
#define TIMING_H

#include <stdint.h>
#include <stdio.h>
#include <time.h>

static double seconds(void)
{
    return (double)clock() / CLOCKS_PER_SEC;
}

/* A run answers a number, which has to be the same each way. Prints the times; the status for main. */
static int compare(uint64_t (*cogent)(void), uint64_t (*hand)(void), uint64_t (*same)(void))
{
    uint64_t (*ways[])(void) = {cogent, hand, same};
    double least[] = {1e9, 1e9, 1e9};
    uint64_t given[] = {0, 0, 0};
    for (int turn = 0; turn < 15; turn++) {
        int way = turn % 3;
        double start = seconds();
        given[way] = ways[way]();
        double taken = seconds() - start;
        if (taken < least[way]) {
            least[way] = taken;
        }
    }
    printf("%.6f %.6f %.6f\n", least[0], least[1], least[2]);
    return given[0] == given[1] && given[0] == given[2] ? 0 : 1;
}

#endif
