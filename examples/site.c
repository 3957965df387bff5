/* The two floors of a site in one call: docks and packing below, shelves and a lift above.
 * Then a belt of the lower floor is given more than a belt may carry: that floor is turned
 * down, and the upper one goes on. */
#include "vithmork.h"

#include <stdio.h>
#include <stdlib.h>

enum { FLOORS = 2, BELTS = 9, PAIRS = 4, LIMITS = 5, OFFICE = 6, WIDENED = 2, TOO_MUCH = 1200 };

/* Of each floor: stations, precision, belts, pairs, numbers of limits, and lengths, which
 * are its belts and the stations that have a limit. */
static const struct {
    uint64_t n, q, m, k, limits, r;
} site[FLOORS] = {{4, 16, 4, 2, 0, 4}, {5, 8, 5, 2, 5, 6}};

/* Of all floors, one after the other; stations count from 1 on each of them. */
static const uint64_t belt[BELTS][4] = {
    /* tail, head, totes an hour, reversible */
    {1, 3, 500, 0}, {2, 3, 400, 0}, {3, 4, 600, 0}, {2, 4, 150, 0},
    {1, 3, 400, 0}, {2, 3, 350, 0}, {3, 4, 450, 0}, {3, 5, 300, 0}, {4, 5, 200, 1}};
static const uint64_t pair[PAIRS][2] = {{1, 4}, {2, 4}, {1, 4}, {2, 5}};
static const uint64_t limit[LIMITS] = {0, 0, 550, 0, 0};

static uint8_t floors[VITHMORK_FLOORS_BYTES(FLOORS)];
static uint8_t belts[VITHMORK_BELTS_BYTES(BELTS)];
static uint8_t pairs[VITHMORK_PAIRS_BYTES(PAIRS)];
static uint8_t limits[VITHMORK_LIMITS_BYTES(LIMITS)];
static uint8_t flow[VITHMORK_FLOW_BYTES(2, 4) + VITHMORK_FLOW_BYTES(2, 5)];
static uint8_t lengths[VITHMORK_LENGTH_BYTES(4) + VITHMORK_LENGTH_BYTES(6)];
static uint8_t answers[VITHMORK_ANSWERS_BYTES(FLOORS)];
static uint8_t counts[VITHMORK_COUNTS_BYTES] = {0}; /* every office starts at 0 */

static void fill(void)
{
    for (size_t f = 0; f < FLOORS; f++)
        vithmork_put_fitted_floor(floors, f, site[f].n, site[f].q, site[f].m, site[f].k,
                                  site[f].limits, site[f].r);
    for (size_t e = 0; e < BELTS; e++)
        vithmork_put_marked_belt(belts, e, belt[e][0], belt[e][1], belt[e][2], belt[e][3]);
    for (size_t p = 0; p < PAIRS; p++)
        vithmork_put_pair(pairs, p, pair[p][0], pair[p][1]);
    for (size_t i = 0; i < LIMITS; i++)
        vithmork_put(limits, i, limit[i]);
}

static void print_refusal(uint64_t returned)
{
    vithmork_refusal refusal = vithmork_refused(returned);
    printf("refused: %u (%s), place %u\n", refusal.number, vithmork_word(refusal.number),
           refusal.place);
}

/* What an accepted floor carries, read from its own parts. */
static void print_plan(size_t f, const uint8_t *answer)
{
    const uint8_t *its_belts = belts + vithmork_floor_begin(floors, f, VITHMORK_FLOOR_BELTS);
    const uint8_t *its_pairs = pairs + vithmork_floor_begin(floors, f, VITHMORK_FLOOR_PAIRS);
    const uint8_t *its_flow = flow + vithmork_floor_begin(floors, f, VITHMORK_FLOOR_FLOW);
    printf("total %.3f, bound %.3f, choices %u\n",
           vithmork_total_thousandths(answer) / 1000.0,
           vithmork_bound_thousandths(answer) / 1000.0,
           (unsigned)vithmork_get(answer, VITHMORK_CHOICES));
    for (size_t p = 0; p < site[f].k; p++) {
        uint64_t total = vithmork_pair_total(its_belts, site[f].m, its_pairs, p, its_flow);
        printf("  pair %u carries %.3f\n", (unsigned)p + 1,
               vithmork_thousandths(answer, total) / 1000.0);
    }
}

static void solve(const char *what)
{
    uint64_t returned = vithmork_site(
        OFFICE, floors, sizeof floors, belts, sizeof belts, pairs, sizeof pairs, limits,
        sizeof limits, flow, sizeof flow, lengths, sizeof lengths, answers, sizeof answers,
        counts, sizeof counts);
    if (returned != VITHMORK_ACCEPTED) {
        print_refusal(returned);
        exit(1);
    }
    printf("%s:\n", what);
    for (size_t f = 0; f < FLOORS; f++) {
        uint64_t of_floor = vithmork_floor_returned(answers, f);
        printf("floor %u returned %u, ", (unsigned)f + 1, (unsigned)of_floor);
        if (of_floor == VITHMORK_ACCEPTED)
            print_plan(f, vithmork_floor_answer(answers, f));
        else
            print_refusal(of_floor);
    }
    printf("choices of office %d so far: %u\n", OFFICE, (unsigned)vithmork_count(counts, OFFICE));
}

int main(void)
{
    fill();
    solve("as it is built");
    vithmork_put_belt(belts, WIDENED, belt[WIDENED][0], belt[WIDENED][1], TOO_MUCH);
    solve("with too wide a belt below");
    return 0;
}
