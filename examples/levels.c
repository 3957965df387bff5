/* A lift with a rate of its own and an aisle that runs either way, on one floor: totes
 * for packing and returns for the shelves meet on the aisle. */
#include "vithmork.h"

#include <stdio.h>
#include <stdlib.h>

enum { STATIONS = 7, BELTS = 6, LIMITED = 1, PAIRS = 3, PRECISION = 16, OFFICE = 1 };

/* 1 dock, 2 lift, 3 and 4 west and east end of the aisle, 5 packing, 6 returns, 7 shelves */
static const uint64_t belt[BELTS][4] = {
    /* tail, head, totes an hour, reversible */
    {1, 2, 600, 0}, {2, 3, 500, 0}, {3, 4, 400, 1}, {4, 5, 300, 0}, {6, 4, 250, 0},
    {3, 7, 350, 0}};
static const uint64_t pair[PAIRS][2] = {{1, 5}, {6, 7}, {1, 7}};
static const uint64_t limit[LIMITED][2] = {
    /* station, totes an hour */
    {2, 450}};

static uint8_t belts[VITHMORK_BELTS_BYTES(BELTS)];
static uint8_t pairs[VITHMORK_PAIRS_BYTES(PAIRS)];
static uint8_t limits[VITHMORK_LIMITS_BYTES(STATIONS)];
static uint8_t flow[VITHMORK_FLOW_BYTES(PAIRS, BELTS)];
static uint8_t lengths[VITHMORK_LENGTH_BYTES(BELTS + LIMITED)];
static uint8_t answer[VITHMORK_ANSWER_BYTES];
static uint8_t counts[VITHMORK_COUNTS_BYTES] = {0}; /* every office starts at 0 */

static void fill(void)
{
    for (size_t e = 0; e < BELTS; e++)
        vithmork_put_marked_belt(belts, e, belt[e][0], belt[e][1], belt[e][2], belt[e][3]);
    for (size_t p = 0; p < PAIRS; p++)
        vithmork_put_pair(pairs, p, pair[p][0], pair[p][1]);
    for (size_t i = 0; i < LIMITED; i++)
        vithmork_put_limit(limits, limit[i][0], limit[i][1]);
}

static void solve(void)
{
    uint64_t returned = vithmork_solve(
        STATIONS, PRECISION, OFFICE, belts, sizeof belts, pairs, sizeof pairs, limits,
        sizeof limits, flow, sizeof flow, lengths, sizeof lengths, answer, sizeof answer, counts,
        sizeof counts);
    if (returned != VITHMORK_ACCEPTED) {
        vithmork_refusal refusal = vithmork_refused(returned);
        printf("refused: %u (%s), place %u\n", refusal.number, vithmork_word(refusal.number),
               refusal.place);
        exit(1);
    }
    printf("total %.3f, bound %.3f\n",
           vithmork_total_thousandths(answer) / 1000.0,
           vithmork_bound_thousandths(answer) / 1000.0);
}

/* What each pair sends over a belt, negative from head to tail. */
static void print_belt(size_t e)
{
    uint64_t load = 0;
    for (size_t p = 0; p < PAIRS; p++)
        load += vithmork_size(vithmork_get_signed(flow, p * BELTS + e));
    printf("belt %u to %u carries %.3f of %u:", (unsigned)belt[e][0], (unsigned)belt[e][1],
           vithmork_thousandths(answer, load) / 1000.0, (unsigned)belt[e][2]);
    for (size_t p = 0; p < PAIRS; p++) {
        int64_t amount = vithmork_get_signed(flow, p * BELTS + e);
        printf(" pair %u %.3f%s", (unsigned)p + 1,
               vithmork_thousandths_signed(answer, amount) / 1000.0, p + 1 < PAIRS ? "," : "\n");
    }
}

static void print_stations(void)
{
    for (size_t i = 0; i < LIMITED; i++) {
        uint64_t use = 0;
        for (size_t p = 0; p < PAIRS; p++)
            use += vithmork_station_use(belts, BELTS, p, flow, limit[i][0]);
        printf("station %u passes %.3f of %u\n", (unsigned)limit[i][0],
               vithmork_thousandths(answer, use) / 1000.0, (unsigned)limit[i][1]);
    }
}

int main(void)
{
    fill();
    solve();
    for (size_t e = 0; e < BELTS; e++)
        print_belt(e);
    print_stations();
    return 0;
}
