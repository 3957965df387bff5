/* The floor that README has in a file and from C: its column of C (column.h), solved at
 * q = 4 and printed as the first rows of the listing are. What its table has of C beside
 * that (table.h) only has to compile. */
#include "vithmork.h"

#include <stdio.h>

static uint8_t belts[VITHMORK_BELTS_BYTES(5)];
static uint8_t pairs[VITHMORK_PAIRS_BYTES(1)];
static uint8_t limits[VITHMORK_LIMITS_BYTES(4)];
static uint8_t flow[VITHMORK_FLOW_BYTES(1, 5)];
static uint8_t lengths[VITHMORK_LENGTH_BYTES(5)];
static uint8_t answer[VITHMORK_ANSWER_BYTES];
static uint8_t counts[VITHMORK_COUNTS_BYTES];

void table(void);

void table(void)
{
#include "table.h"
}

static void row(const char *name, uint64_t upper, size_t lower)
{
    printf("%s,,,%llu,%llu\r\n", name, (unsigned long long)upper,
           (unsigned long long)vithmork_get(answer, lower));
}

int main(void)
{
#include "column.h"
    if (vithmork_solve(4, 4, 1, belts, sizeof belts, pairs, sizeof pairs, limits, 0, flow,
                       sizeof flow, lengths, sizeof lengths, answer, sizeof answer, counts,
                       sizeof counts) != VITHMORK_ACCEPTED)
        return 1;
    row("total",
        vithmork_get(answer, VITHMORK_DRAWN) * vithmork_get(answer, VITHMORK_SCALE_CAPACITY),
        VITHMORK_SCALE_LOAD);
    row("bound", vithmork_get(answer, VITHMORK_BOUND_D), VITHMORK_BOUND_ALPHA);
    return 0;
}
