/* Contracts in whole totes: what each pair may be promised an hour, and what the plan
 * carries beyond that. Docks at 1, 2 and 3, a merge at 4, packing at 5 and 6. */
#include "vithmork.h"

#include <stdio.h>

enum { STATIONS = 6, BELTS = 7, PAIRS = 3, PRECISION = 16, OFFICE = 7 };

static const uint64_t belt[BELTS][3] = {
    /* tail, head, totes an hour */
    {1, 4, 300}, {2, 4, 250}, {3, 4, 200}, {4, 5, 400}, {4, 6, 300}, {1, 5, 150}, {3, 6, 100}};
static const uint64_t pair[PAIRS][2] = {{1, 5}, {2, 6}, {3, 6}};

static uint8_t belts[VITHMORK_BELTS_BYTES(BELTS)];
static uint8_t pairs[VITHMORK_PAIRS_BYTES(PAIRS)];
static uint8_t flow[VITHMORK_FLOW_BYTES(PAIRS, BELTS)];
static uint8_t lengths[VITHMORK_LENGTH_BYTES(BELTS)];
static uint8_t answer[VITHMORK_ANSWER_BYTES];
static uint8_t counts[VITHMORK_COUNTS_BYTES] = {0}; /* every office starts at 0 */
static uint8_t totes[VITHMORK_TOTES_BYTES(PAIRS)];

static void fill(void)
{
    for (size_t e = 0; e < BELTS; e++)
        vithmork_put_belt(belts, e, belt[e][0], belt[e][1], belt[e][2]);
    for (size_t p = 0; p < PAIRS; p++)
        vithmork_put_pair(pairs, p, pair[p][0], pair[p][1]);
}

/* One line a contract; returns what they promise together. */
static uint64_t print_contracts(uint64_t load)
{
    uint64_t promised = 0;
    for (size_t p = 0; p < PAIRS; p++) {
        uint64_t whole = vithmork_pair_whole(totes, p);
        printf("pair %u to %u: %u totes an hour, remainder %u/%u\n", (unsigned)pair[p][0],
               (unsigned)pair[p][1], (unsigned)whole,
               (unsigned)vithmork_pair_remainder(totes, p), (unsigned)load);
        promised += whole;
    }
    return promised;
}

/* Plan and loss are counted in parts of which load make a tote, so that nothing is
 * rounded, and nothing overflows: promised * load is at most carried. */
static void print(void)
{
    uint64_t load = vithmork_get(answer, VITHMORK_SCALE_LOAD);
    uint64_t carried =
        vithmork_get(answer, VITHMORK_DRAWN) * vithmork_get(answer, VITHMORK_SCALE_CAPACITY);
    uint64_t promised = print_contracts(load);
    uint64_t lost = carried - promised * load;
    printf("contracts together: %u totes an hour\n", (unsigned)promised);
    printf("the plan carries: %u + %u/%u\n", (unsigned)(carried / load),
           (unsigned)(carried % load), (unsigned)load);
    printf("lost by rounding: %u + %u/%u, %s than one for each of %d pairs\n",
           (unsigned)(lost / load), (unsigned)(lost % load), (unsigned)load,
           lost < PAIRS * load ? "less" : "no less", PAIRS);
}

int main(void)
{
    fill();
    uint64_t returned = vithmork_whole(
        STATIONS, PRECISION, OFFICE, belts, sizeof belts, pairs, sizeof pairs, VITHMORK_ABSENT,
        0, flow, sizeof flow, lengths, sizeof lengths, answer, sizeof answer, counts,
        sizeof counts, totes, sizeof totes);
    if (returned != VITHMORK_ACCEPTED) {
        vithmork_refusal refusal = vithmork_refused(returned);
        printf("refused: %u (%s), place %u\n", refusal.number, vithmork_word(refusal.number),
               refusal.place);
        return 1;
    }
    print();
    return 0;
}
