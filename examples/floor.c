/* A floor of four stations and two pairs, solved as the drawing package would:
 * docks at 1 and 2, packing at 4, and a transfer at 3 that pair 2 ends in. */
#include "vithmork.h"

#include <stdio.h>

enum { STATIONS = 4, BELTS = 5, PAIRS = 2, PRECISION = 16, OFFICE = 1 };

static const uint64_t belt[BELTS][3] = {
    /* tail, head, totes an hour */
    {1, 2, 600}, {1, 3, 400}, {2, 3, 250}, {2, 4, 500}, {3, 4, 450}};
static const uint64_t pair[PAIRS][2] = {{1, 4}, {2, 3}};

static uint8_t belts[VITHMORK_BELTS_BYTES(BELTS)];
static uint8_t pairs[VITHMORK_PAIRS_BYTES(PAIRS)];
static uint8_t flow[VITHMORK_FLOW_BYTES(PAIRS, BELTS)];
static uint8_t lengths[VITHMORK_LENGTH_BYTES(BELTS)];
static uint8_t answer[VITHMORK_ANSWER_BYTES];
static uint8_t counts[VITHMORK_COUNTS_BYTES] = {0}; /* every office starts at 0 */

static void fill(void)
{
    for (size_t e = 0; e < BELTS; e++)
        vithmork_put_belt(belts, e, belt[e][0], belt[e][1], belt[e][2]);
    for (size_t p = 0; p < PAIRS; p++)
        vithmork_put_pair(pairs, p, pair[p][0], pair[p][1]);
}

static void print(void)
{
    printf("total %.3f\n", vithmork_total_thousandths(answer) / 1000.0);
    printf("bound %.3f\n", vithmork_bound_thousandths(answer) / 1000.0);
    for (size_t p = 0; p < PAIRS; p++) {
        uint64_t total = vithmork_pair_total(belts, BELTS, pairs, p, flow);
        printf("pair %u to %u carries %.3f\n", (unsigned)pair[p][0], (unsigned)pair[p][1],
               vithmork_thousandths(answer, total) / 1000.0);
    }
    for (size_t e = 0; e < BELTS; e++) {
        uint64_t load = 0;
        for (size_t p = 0; p < PAIRS; p++)
            load += vithmork_size(vithmork_get_signed(flow, p * BELTS + e));
        printf("belt %u to %u carries %.3f of %u\n", (unsigned)belt[e][0],
               (unsigned)belt[e][1], vithmork_thousandths(answer, load) / 1000.0,
               (unsigned)belt[e][2]);
    }
    printf("choices %u, so far %u\n", (unsigned)vithmork_get(answer, VITHMORK_CHOICES),
           (unsigned)vithmork_count(counts, OFFICE));
}

int main(void)
{
    fill();
    uint64_t returned = vithmork_solve(
        STATIONS, PRECISION, OFFICE, belts, sizeof belts, pairs, sizeof pairs, VITHMORK_ABSENT,
        0, flow, sizeof flow, lengths, sizeof lengths, answer, sizeof answer, counts,
        sizeof counts);
    if (returned != VITHMORK_ACCEPTED) {
        vithmork_refusal refusal = vithmork_refused(returned);
        printf("refused: %u (%s), place %u\n", refusal.number, vithmork_word(refusal.number),
               refusal.place);
        return 1;
    }
    print();
    return 0;
}
