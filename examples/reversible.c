/* Two pairs that meet on one aisle, in opposite directions. Drawn as two opposite
 * belts of full capacity the aisle would claim more than the reversible belt that
 * is built there can carry. */
#include "vithmork.h"

#include <stdio.h>
#include <stdlib.h>

enum { STATIONS = 6, BELTS = 5, REVERSIBLE = 1, PAIRS = 2, PRECISION = 16, OFFICE = 8 };
enum { MOST = BELTS + REVERSIBLE };

static const uint64_t belt[BELTS][4] = {
    /* tail, head, totes an hour, reversible */
    {1, 2, 300, 0}, {2, 3, 400, 1}, {3, 4, 300, 0}, {5, 3, 300, 0}, {2, 6, 300, 0}};
static const uint64_t pair[PAIRS][2] = {{1, 4}, {5, 6}};

static uint8_t belts[VITHMORK_BELTS_BYTES(MOST)];
static uint8_t pairs[VITHMORK_PAIRS_BYTES(PAIRS)];
static uint8_t flow[VITHMORK_FLOW_BYTES(PAIRS, MOST)];
static uint8_t lengths[VITHMORK_LENGTH_BYTES(MOST)];
static uint8_t answer[VITHMORK_ANSWER_BYTES];
static uint8_t counts[VITHMORK_COUNTS_BYTES] = {0}; /* every office starts at 0 */

/* The floor as it is built. */
static size_t put_reversible(void)
{
    for (size_t e = 0; e < BELTS; e++)
        vithmork_put_marked_belt(belts, e, belt[e][0], belt[e][1], belt[e][2], belt[e][3]);
    return BELTS;
}

/* The floor with two belts for each that is reversible. */
static size_t put_opposite(void)
{
    size_t m = BELTS;
    for (size_t e = 0; e < BELTS; e++) {
        vithmork_put_belt(belts, e, belt[e][0], belt[e][1], belt[e][2]);
        if (belt[e][3] != 0)
            vithmork_put_belt(belts, m++, belt[e][1], belt[e][0], belt[e][2]);
    }
    return m;
}

static void solve(const char *what, size_t m)
{
    uint64_t returned = vithmork_solve(
        STATIONS, PRECISION, OFFICE, belts, VITHMORK_BELTS_BYTES(m), pairs, sizeof pairs,
        VITHMORK_ABSENT, 0, flow, sizeof flow, lengths, sizeof lengths, answer, sizeof answer,
        counts, sizeof counts);
    if (returned != VITHMORK_ACCEPTED) {
        vithmork_refusal refusal = vithmork_refused(returned);
        printf("refused: %u (%s), place %u\n", refusal.number, vithmork_word(refusal.number),
               refusal.place);
        exit(1);
    }
    printf("%s: total %.3f, bound %.3f\n", what,
           vithmork_total_thousandths(answer) / 1000.0,
           vithmork_bound_thousandths(answer) / 1000.0);
}

/* What each pair sends over a belt, negative from head to tail. */
static void print_belt(size_t e)
{
    uint64_t load = 0;
    for (size_t p = 0; p < PAIRS; p++)
        load += vithmork_size(vithmork_get_signed(flow, p * BELTS + e));
    printf("belt %u to %u carries %.3f of %u:", (unsigned)belt[e][0], (unsigned)belt[e][1],
           vithmork_thousandths(answer, load) / 1000.0, (unsigned)belt[e][2]);
    for (size_t p = 0; p < PAIRS; p++) {
        int64_t amount = vithmork_get_signed(flow, p * BELTS + e);
        printf(" pair %u %.3f%s", (unsigned)p + 1,
               vithmork_thousandths_signed(answer, amount) / 1000.0, p + 1 < PAIRS ? "," : "\n");
    }
}

int main(void)
{
    for (size_t p = 0; p < PAIRS; p++)
        vithmork_put_pair(pairs, p, pair[p][0], pair[p][1]);
    solve("as two opposite belts", put_opposite());
    solve("as one reversible belt", put_reversible());
    for (size_t e = 0; e < BELTS; e++)
        print_belt(e);
    return 0;
}
