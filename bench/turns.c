/* Two archives of the library in one process, call by call and in turns of each, so that what disturbs one disturbs the other: the times, their
   ratio, and the stack. bench/turns builds it. Both sides do the same work from the same bytes; what they leave, with every call's output fed to the
   next, is held to each other, and a refusal ends it. */
#define _GNU_SOURCE
#include <stdio.h>
#include <time.h>

#include "side.h"
#include "stack.h"

enum { TURNS = 301 };
static const struct side *const sides[2] = {&before, &after};

static double now(void)
{
    struct timespec t;
    clock_gettime(CLOCK_MONOTONIC, &t);
    return t.tv_sec * 1e9 + t.tv_nsec;
}

static int by_size(const void *a, const void *b) { return (*(const double *)a > *(const double *)b) - (*(const double *)a < *(const double *)b); }

static double time_of(const struct call *call)
{
    double start = now();
    for (int n = 0; n < call->times; n++) call->work();
    return (now() - start) / call->times;
}

int main(void)
{
    static double times[2][TURNS], ratios[TURNS];
    if (before.version() != after.version()) {
        printf("turns: the archives are of versions %u and %u: their calls are not the same\n", before.version(), after.version());
        return 2;
    }
    printf("ns, medians of %d turns of each; bytes of stack\n", TURNS);
    printf("%-50s %9s %9s %7s   %14s %7s\n", "", "before", "after", "ratio", "stack before", "after");
    for (int i = 0; i < after.count; i++) {
        const struct call *calls[2] = {&before.calls[i], &after.calls[i]};
        for (int side = 0; side < 2; side++) sides[side]->begin();
        for (int turn = 0; turn < TURNS; turn++) {
            /* neither is always the first */
            int first = turn & 1;
            times[first][turn] = time_of(calls[first]);
            times[!first][turn] = time_of(calls[!first]);
            ratios[turn] = times[1][turn] / times[0][turn];
        }
        if (before.refused() + after.refused() || memcmp(before.left, after.left, after.size)) {
            printf("turns: %s: refused, or not the same of both\n", calls[0]->name);
            return 1;
        }
        for (int side = 0; side < 2; side++) qsort(times[side], TURNS, sizeof(double), by_size);
        qsort(ratios, TURNS, sizeof(double), by_size);
        printf("%-50s %9.1f %9.1f %7.2f", calls[0]->name, times[0][TURNS / 2], times[1][TURNS / 2], ratios[TURNS / 2]);
        if (calls[0]->stack) printf("   %14zu %7zu", depth(calls[0]->work), depth(calls[1]->work));
        printf("\n");
    }
    return 0;
}
