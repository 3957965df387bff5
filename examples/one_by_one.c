/* A line of two belts that three pairs share. Solved one by one and added up the
 * pairs carry more than the line can; solved in one call they do not. */
#include "vithmork.h"

#include <stdio.h>
#include <stdlib.h>

enum { STATIONS = 3, BELTS = 2, PAIRS = 3, PRECISION = 16, OFFICE = 3 };

static const uint64_t belt[BELTS][3] = {
    /* tail, head, totes an hour */
    {1, 2, 600}, {2, 3, 400}};
static const uint64_t pair[PAIRS][2] = {{1, 3}, {1, 2}, {2, 3}};

static uint8_t belts[VITHMORK_BELTS_BYTES(BELTS)];
static uint8_t pairs[VITHMORK_PAIRS_BYTES(PAIRS)];
static uint8_t flow[VITHMORK_FLOW_BYTES(PAIRS, BELTS)];
static uint8_t lengths[VITHMORK_LENGTH_BYTES(BELTS)];
static uint8_t answer[VITHMORK_ANSWER_BYTES];
static uint8_t counts[VITHMORK_COUNTS_BYTES] = {0}; /* every office starts at 0 */

static void fill(void)
{
    for (size_t e = 0; e < BELTS; e++)
        vithmork_put_belt(belts, e, belt[e][0], belt[e][1], belt[e][2]);
    for (size_t p = 0; p < PAIRS; p++)
        vithmork_put_pair(pairs, p, pair[p][0], pair[p][1]);
}

/* Solves for some pairs, adds each belt's load to carried and returns the total, all in
 * thousandths and rounded down. */
static uint64_t solve(size_t first, size_t number, uint64_t *carried)
{
    uint64_t returned = vithmork_solve(
        STATIONS, PRECISION, OFFICE, belts, sizeof belts, pairs + VITHMORK_PAIRS_BYTES(first),
        VITHMORK_PAIRS_BYTES(number), VITHMORK_ABSENT, 0, flow, sizeof flow, lengths,
        sizeof lengths, answer, sizeof answer, counts, sizeof counts);
    if (returned != VITHMORK_ACCEPTED) {
        vithmork_refusal refusal = vithmork_refused(returned);
        printf("refused: %u (%s), place %u\n", refusal.number, vithmork_word(refusal.number),
               refusal.place);
        exit(1);
    }
    for (size_t e = 0; e < BELTS; e++) {
        uint64_t load = 0;
        for (size_t p = 0; p < number; p++)
            load += vithmork_size(vithmork_get_signed(flow, p * BELTS + e));
        carried[e] += vithmork_thousandths(answer, load);
    }
    return vithmork_total_thousandths(answer);
}

static void print(const char *what, uint64_t total, const uint64_t *carried)
{
    printf("%s %.3f\n", what, total / 1000.0);
    for (size_t e = 0; e < BELTS; e++)
        printf("  belt %u to %u: %.3f of %u\n", (unsigned)belt[e][0], (unsigned)belt[e][1],
               carried[e] / 1000.0, (unsigned)belt[e][2]);
}

int main(void)
{
    uint64_t sum = 0, apart[BELTS] = {0}, shared[BELTS] = {0};
    fill();
    for (size_t p = 0; p < PAIRS; p++) {
        uint64_t total = solve(p, 1, apart);
        printf("pair %u to %u alone %.3f\n", (unsigned)pair[p][0], (unsigned)pair[p][1],
               total / 1000.0);
        sum += total;
    }
    print("added up", sum, apart);
    print("in one call", solve(0, PAIRS, shared), shared);
    printf("bound %.3f\n", vithmork_bound_thousandths(answer) / 1000.0);
    return 0;
}
