/* A lift that takes fewer totes an hour than the belts to it bring: as belts alone
 * the floor would claim more than the lift can pass. */
#include "vithmork.h"

#include <stdio.h>
#include <stdlib.h>

enum { STATIONS = 6, BELTS = 6, LIMITED = 1, PAIRS = 2, PRECISION = 16, OFFICE = 4 };

static const uint64_t belt[BELTS][3] = {
    /* tail, head, totes an hour */
    {1, 3, 500}, {2, 3, 400}, {3, 4, 450}, {3, 5, 400}, {1, 6, 100}, {6, 4, 150}};
static const uint64_t pair[PAIRS][2] = {{1, 4}, {2, 5}};
static const uint64_t limit[LIMITED][2] = {
    /* station, totes an hour */
    {3, 600}};

static uint8_t belts[VITHMORK_BELTS_BYTES(BELTS)];
static uint8_t pairs[VITHMORK_PAIRS_BYTES(PAIRS)];
static uint8_t limits[VITHMORK_LIMITS_BYTES(STATIONS)];
static uint8_t flow[VITHMORK_FLOW_BYTES(PAIRS, BELTS)];
static uint8_t lengths[VITHMORK_LENGTH_BYTES(BELTS + LIMITED)];
static uint8_t answer[VITHMORK_ANSWER_BYTES];
static uint8_t counts[VITHMORK_COUNTS_BYTES] = {0}; /* every office starts at 0 */

static void fill(void)
{
    for (size_t e = 0; e < BELTS; e++)
        vithmork_put_belt(belts, e, belt[e][0], belt[e][1], belt[e][2]);
    for (size_t p = 0; p < PAIRS; p++)
        vithmork_put_pair(pairs, p, pair[p][0], pair[p][1]);
    for (size_t i = 0; i < LIMITED; i++)
        vithmork_put_limit(limits, limit[i][0], limit[i][1]);
}

static void solve(const char *what, size_t limits_len)
{
    uint64_t returned = vithmork_solve(
        STATIONS, PRECISION, OFFICE, belts, sizeof belts, pairs, sizeof pairs, limits,
        limits_len, flow, sizeof flow, lengths, sizeof lengths, answer, sizeof answer, counts,
        sizeof counts);
    if (returned != VITHMORK_ACCEPTED) {
        vithmork_refusal refusal = vithmork_refused(returned);
        printf("refused: %u (%s), place %u\n", refusal.number, vithmork_word(refusal.number),
               refusal.place);
        exit(1);
    }
    printf("%s: total %.3f, bound %.3f\n", what,
           vithmork_total_thousandths(answer) / 1000.0,
           vithmork_bound_thousandths(answer) / 1000.0);
}

/* What each station with a limit passes of all pairs, by the plan of the last call. */
static void print_stations(void)
{
    for (size_t i = 0; i < LIMITED; i++) {
        uint64_t use = 0;
        for (size_t p = 0; p < PAIRS; p++)
            use += vithmork_station_use(belts, BELTS, p, flow, limit[i][0]);
        printf("  station %u passes %.3f of %u\n", (unsigned)limit[i][0],
               vithmork_thousandths(answer, use) / 1000.0, (unsigned)limit[i][1]);
    }
}

int main(void)
{
    fill();
    solve("without the limit", 0);
    print_stations();
    solve("with it", sizeof limits);
    print_stations();
    return 0;
}
