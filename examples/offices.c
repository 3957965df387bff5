/* The floor of floor.c, tried by two offices at three precisions: the count of each
 * says what it pays for. Then one office's count is full, and it alone is refused. */
#include "vithmork.h"

#include <stdio.h>

enum { STATIONS = 4, BELTS = 5, PAIRS = 2, RUNS = 3, PRECISION = 4, FULL = 2, OTHER = 5 };

static const uint64_t belt[BELTS][3] = {
    /* tail, head, totes an hour */
    {1, 2, 600}, {1, 3, 400}, {2, 3, 250}, {2, 4, 500}, {3, 4, 450}};
static const uint64_t pair[PAIRS][2] = {{1, 4}, {2, 3}};
static const uint64_t run[RUNS][2] = {
    /* office, precision */
    {2, 4}, {5, 16}, {2, 8}};

static uint8_t belts[VITHMORK_BELTS_BYTES(BELTS)];
static uint8_t pairs[VITHMORK_PAIRS_BYTES(PAIRS)];
static uint8_t flow[VITHMORK_FLOW_BYTES(PAIRS, BELTS)];
static uint8_t lengths[VITHMORK_LENGTH_BYTES(BELTS)];
static uint8_t answer[VITHMORK_ANSWER_BYTES];
static uint8_t counts[VITHMORK_COUNTS_BYTES] = {0}; /* every office starts at 0 */

static void fill(void)
{
    for (size_t e = 0; e < BELTS; e++)
        vithmork_put_belt(belts, e, belt[e][0], belt[e][1], belt[e][2]);
    for (size_t p = 0; p < PAIRS; p++)
        vithmork_put_pair(pairs, p, pair[p][0], pair[p][1]);
}

static void solve(uint64_t office, uint64_t q)
{
    uint64_t returned = vithmork_solve(
        STATIONS, q, office, belts, sizeof belts, pairs, sizeof pairs, VITHMORK_ABSENT, 0, flow,
        sizeof flow, lengths, sizeof lengths, answer, sizeof answer, counts, sizeof counts);
    printf("office %u at q = %u: ", (unsigned)office, (unsigned)q);
    if (returned != VITHMORK_ACCEPTED) {
        vithmork_refusal refusal = vithmork_refused(returned);
        printf("refused: %u (%s), place %u\n", refusal.number, vithmork_word(refusal.number),
               refusal.place);
        return;
    }
    printf("total %.3f, bound %.3f, choices %u, so far %u\n",
           vithmork_total_thousandths(answer) / 1000.0,
           vithmork_bound_thousandths(answer) / 1000.0,
           (unsigned)vithmork_get(answer, VITHMORK_CHOICES),
           (unsigned)vithmork_count(counts, office));
}

static void print_counts(void)
{
    printf("choices that offices 1 to 8 pay for:");
    for (size_t office = VITHMORK_MIN_OFFICE; office <= VITHMORK_MAX_OFFICE; office++)
        printf(" %u", (unsigned)vithmork_count(counts, office));
    printf("\n");
}

int main(void)
{
    fill();
    for (size_t r = 0; r < RUNS; r++)
        solve(run[r][0], run[r][1]);
    print_counts();
    vithmork_put_count(counts, FULL, ((uint64_t)1 << 63) + 1);
    solve(FULL, PRECISION);
    solve(OTHER, PRECISION);
    solve(VITHMORK_MAX_OFFICE + 1, PRECISION);
    return 0;
}
