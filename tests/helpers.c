/* What the header adds to the calls: versions, absent slices, marks, signed
 * amounts, limits, counts, totes, floors of a site, a station's use, a pair's own
 * total and what is printed in thousandths. Compiled as C99 and as C++17; exits with
 * 1 if something is otherwise. */
#include "vithmork.h"

#include <stdio.h>
#include <string.h>

enum { STATIONS = 4, BELTS = 6, LIMITED = 2, PAIRS = 3, PRECISION = 16, OFFICE = 6, FLOORS = 3 };

static uint8_t belts[VITHMORK_BELTS_BYTES(BELTS)];
static uint8_t pairs[VITHMORK_PAIRS_BYTES(PAIRS)];
static uint8_t flow[VITHMORK_FLOW_BYTES(PAIRS, BELTS)];
static uint8_t limits[VITHMORK_LIMITS_BYTES(STATIONS)];
static uint8_t lengths[VITHMORK_LENGTH_BYTES(BELTS + LIMITED)];
static uint8_t answer[VITHMORK_ANSWER_BYTES];
static uint8_t counts[VITHMORK_COUNTS_BYTES];
static uint8_t totes[VITHMORK_TOTES_BYTES(PAIRS)];
static uint8_t floors[VITHMORK_FLOORS_BYTES(FLOORS)];
static uint8_t answers[VITHMORK_ANSWERS_BYTES(FLOORS)];

static int failed;

static void expect(const char *what, uint64_t found, uint64_t due)
{
    if (found == due)
        return;
    printf("helpers: %s is %llu, not %llu\n", what, (unsigned long long)found,
           (unsigned long long)due);
    failed = 1;
}

static void versions(void)
{
    char text[32];
    snprintf(text, sizeof text, "%d.%d.%d", VITHMORK_VERSION_MAJOR, VITHMORK_VERSION_MINOR,
             VITHMORK_VERSION_PATCH);
    expect("the version's text against its numbers", (uint64_t)strcmp(text, VITHMORK_VERSION), 0);
}

static void fill(void)
{
    vithmork_put_belt(belts, 0, 1, 2, 600);
    vithmork_put_belt(belts, 1, 1, 3, 400);
    vithmork_put_belt(belts, 2, 2, 3, 250);
    vithmork_put_belt(belts, 3, 2, 4, 500);
    vithmork_put_belt(belts, 4, 3, 4, 450);
    vithmork_put_reversible_belt(belts, 5, 3, 1, 100);
    vithmork_put_pair(pairs, 0, 1, 4);
    vithmork_put_pair(pairs, 1, 2, 3);
    vithmork_put_pair(pairs, 2, 3, 1);
    vithmork_put_limit(limits, 2, 450);
    vithmork_put_limit(limits, 3, 700);
}

/* A number of the flow table, the amount that it stands for, and its size. */
static void sign(uint64_t number, int64_t amount, uint64_t size)
{
    vithmork_put(flow, 0, number);
    expect("an amount against its own", vithmork_get_signed(flow, 0) == amount, 1);
    expect("a size", vithmork_size(vithmork_get_signed(flow, 0)), size);
}

static void signs(void)
{
    sign(0, 0, 0);
    sign(5, 5, 5);
    sign(INT64_MAX, INT64_MAX, INT64_MAX);
    sign(UINT64_MAX, -1, 1);
    sign(UINT64_MAX - 4, -5, 5);
    sign((uint64_t)INT64_MAX + 1, INT64_MIN, (uint64_t)INT64_MAX + 1);
}

static void marks(void)
{
    expect("the mark of a belt", vithmork_get(belts, 4 * VITHMORK_BELT_NUMBERS + 3), 0);
    expect("that of a reversible one", vithmork_get(belts, 5 * VITHMORK_BELT_NUMBERS + 3), 1);
}

/* Two of four stations, the second the last of them; none past the slice's end. */
static void limited(void)
{
    expect("a limit", vithmork_get(limits, 1), 450);
    expect("limits of four", vithmork_limited(limits, sizeof limits, STATIONS), LIMITED);
    expect("limits of two", vithmork_limited(limits, sizeof limits, 2), 1);
    expect("limits of a shorter slice", vithmork_limited(limits, VITHMORK_LIMITS_BYTES(3) - 1, STATIONS), 1);
}

/* A count for each of offices 1 to 8, and no byte beside. All but one are left full. */
static void counted(void)
{
    expect("the offices", VITHMORK_MAX_OFFICE - VITHMORK_MIN_OFFICE + 1, VITHMORK_COUNTS_NUMBERS);
    expect("the bytes of their counts", sizeof counts, 64);
    for (size_t office = VITHMORK_MIN_OFFICE; office <= VITHMORK_MAX_OFFICE; office++)
        vithmork_put_count(counts, office, UINT64_MAX - office);
    for (size_t office = VITHMORK_MIN_OFFICE; office <= VITHMORK_MAX_OFFICE; office++) {
        expect("a count as set", vithmork_count(counts, office), UINT64_MAX - office);
        expect("its place", vithmork_get(counts, office - 1), UINT64_MAX - office);
    }
    vithmork_put_count(counts, OFFICE, 7);
    expect("the count before", vithmork_count(counts, OFFICE - 1), UINT64_MAX - (OFFICE - 1));
    expect("the count after", vithmork_count(counts, OFFICE + 1), UINT64_MAX - (OFFICE + 1));
}

/* Two numbers for each pair, the whole totes first. */
static void toted(void)
{
    expect("the numbers of three pairs' totes", VITHMORK_TOTES_NUMBERS(PAIRS), 6);
    expect("their bytes", sizeof totes, 48);
    for (size_t place = 0; place < VITHMORK_TOTES_NUMBERS(PAIRS); place++)
        vithmork_put(totes, place, UINT64_MAX - place);
    for (size_t p = 0; p < PAIRS; p++) {
        expect("a pair's whole totes", vithmork_pair_whole(totes, p), UINT64_MAX - 2 * p);
        expect("its remainder", vithmork_pair_remainder(totes, p), UINT64_MAX - 2 * p - 1);
    }
}

/* Seven numbers for each floor, each of them at its own place, and eight answers. */
static void listed(void)
{
    expect("the bytes of three floors", sizeof floors, 168);
    expect("the bytes of their answers", sizeof answers, 192);
    for (size_t f = 0; f < FLOORS; f++)
        vithmork_put_floor(floors, f, 10 * f, 10 * f + 1, 10 * f + 2, 10 * f + 3, 10 * f + 4,
                           10 * f + 5, 10 * f + 6);
    for (size_t f = 0; f < FLOORS; f++)
        for (size_t place = 0; place < VITHMORK_FLOOR_NUMBERS; place++)
            expect("a number of a floor",
                   vithmork_get(floors, f * VITHMORK_FLOOR_NUMBERS + place), 10 * f + place);
    expect("the first belts", vithmork_floor_begin(floors, 0, VITHMORK_FLOOR_BELTS), 0);
    expect("the second belts", vithmork_floor_begin(floors, 1, VITHMORK_FLOOR_BELTS), 8 * 2);
    expect("the third belts", vithmork_floor_begin(floors, 2, VITHMORK_FLOOR_BELTS), 8 * 14);
    expect("the third flow", vithmork_floor_begin(floors, 2, VITHMORK_FLOOR_FLOW), 8 * 20);
    for (size_t place = 0; place < FLOORS * VITHMORK_FLOOR_ANSWER_NUMBERS; place++)
        vithmork_put(answers, place, UINT64_MAX - place);
    for (size_t f = 0; f < FLOORS; f++) {
        expect("what a floor returned", vithmork_floor_returned(answers, f), UINT64_MAX - 8 * f);
        expect("what a floor's answer begins with",
               vithmork_get(vithmork_floor_answer(answers, f), 0), UINT64_MAX - 8 * f - 1);
        expect("what it ends with",
               vithmork_get(vithmork_floor_answer(answers, f), VITHMORK_BOUND_CHOICE),
               UINT64_MAX - 8 * f - 7);
    }
}

/* Scaled by 3 over 4, with its sign. */
static void scaled(void)
{
    vithmork_put(answer, VITHMORK_SCALE_CAPACITY, 3);
    vithmork_put(answer, VITHMORK_SCALE_LOAD, 4);
    expect("8 scaled", vithmork_scaled_signed(answer, 8) == 6.0, 1);
    expect("-8 scaled", vithmork_scaled_signed(answer, -8) == -6.0, 1);
}

/* An amount, alone and as all that was drawn, and with either sign. */
static void carried(uint64_t amount, uint64_t capacity, uint64_t load, uint64_t due)
{
    vithmork_put(answer, VITHMORK_DRAWN, amount);
    vithmork_put(answer, VITHMORK_SCALE_CAPACITY, capacity);
    vithmork_put(answer, VITHMORK_SCALE_LOAD, load);
    expect("an amount in thousandths", vithmork_thousandths(answer, amount), due);
    expect("the total in thousandths", vithmork_total_thousandths(answer), due);
    if (amount > INT64_MAX)
        return;
    expect("an amount ahead in thousandths",
           vithmork_thousandths_signed(answer, (int64_t)amount) == (int64_t)due, 1);
    expect("an amount back in thousandths",
           vithmork_thousandths_signed(answer, -(int64_t)amount) == -(int64_t)due, 1);
}

/* Rounded down, and an exact thousandth kept: small, with a load of 2,000,000, of which a
 * thousandth is 2,000, with the product near 2^64 and the load near 2^21, and the total of
 * examples/two_docks.csv. */
static void amounts_down(void)
{
    carried(0, 1, 1, 0);
    carried(7, 1, 1, 7000);
    carried(8, 3, 4, 6000);
    carried(1, 3, 4, 750);
    carried(1, 2, 3, 666);
    carried(2000000, 1, 2000000, 1000);
    carried(1999999, 1, 2000000, 999);
    carried(2000, 1, 2000000, 1);
    carried(1999, 1, 2000000, 0);
    carried(2097150, 1, 2097151, 999);
    carried(UINT64_C(18446744073709551), 1000, 2097151, UINT64_C(8796097216513999));
    carried(UINT64_MAX, 1, 2097151, UINT64_C(8796097216514000));
    carried(14780000, 1, 17900, 825698);
    carried(INT64_MAX, 1, 2097151, UINT64_C(4398048608257000));
    expect("the greatest amount back",
           vithmork_thousandths_signed(answer, INT64_MIN) == -INT64_C(4398048608257000), 1);
}

static void bounded(uint64_t d, uint64_t alpha, uint64_t due)
{
    vithmork_put(answer, VITHMORK_BOUND_D, d);
    vithmork_put(answer, VITHMORK_BOUND_ALPHA, alpha);
    expect("the bound in thousandths", vithmork_bound_thousandths(answer), due);
}

/* Rounded up, and an exact thousandth kept: small, with either number near 2^58 and as
 * little as can be above or below a thousandth, and the bound of examples/two_docks.csv. */
static void bound_up(void)
{
    const uint64_t most = (UINT64_C(1) << 58) - 1;
    bounded(0, 1, 0);
    bounded(5, 1, 5000);
    bounded(6, 4, 1500);
    bounded(2, 3, 667);
    bounded(1001, 1000, 1001);
    bounded(10010, 10000, 1001);
    bounded(10001, 10000, 1001);
    bounded(12345, 10000, 1235);
    bounded(most, most, 1000);
    bounded(most - 1, most, 1000);
    bounded(most, most - 1, 1001);
    bounded(1, most, 1);
    bounded(most, UINT64_C(1) << 39, UINT64_C(524288000));
    bounded(most + 1 - (UINT64_C(1) << 39), UINT64_C(1) << 39, UINT64_C(524287000));
    bounded(UINT64_C(1525282853522600), UINT64_C(1715768773288), 888980);
}

/* A double of thousandths is printed with the digits of the whole number. */
static void printed(void)
{
    char by_double[40], by_digits[40];
    for (uint64_t thousandths = 0; thousandths < UINT64_C(1) << 40;
         thousandths += 1 + thousandths / 999) {
        snprintf(by_double, sizeof by_double, "%.3f", thousandths / 1000.0);
        snprintf(by_digits, sizeof by_digits, "%llu.%03llu",
                 (unsigned long long)(thousandths / 1000),
                 (unsigned long long)(thousandths % 1000));
        expect("a printed number", (uint64_t)(strcmp(by_double, by_digits) != 0), 0);
    }
}

/* Amounts by hand: pair 1 sends 7 + 2 from station 1 and has 3 of them come back;
 * on the reversible belt from 3 to 1 pair 3 has 1 that runs from 1 to 3. */
static void by_hand(void)
{
    static const uint64_t amounts[PAIRS][BELTS] = {
        {7, 2, 1, 6, 0, 3}, {0, 0, 5, 0, 0, 0}, {0, 0, 0, 0, 0, UINT64_MAX}};
    for (size_t p = 0; p < PAIRS; p++)
        for (size_t e = 0; e < BELTS; e++)
            vithmork_put(flow, p * BELTS + e, amounts[p][e]);
    expect("pair 1 by hand", vithmork_pair_total(belts, BELTS, pairs, 0, flow), 6);
    expect("pair 2 by hand", vithmork_pair_total(belts, BELTS, pairs, 1, flow), 5);
    expect("station 1 by hand", vithmork_station_use(belts, BELTS, 0, flow, 1), 9);
    expect("station 3 by hand", vithmork_station_use(belts, BELTS, 0, flow, 3), 3);
    expect("station 3 of pair 3", vithmork_station_use(belts, BELTS, 2, flow, 3), 1);
    vithmork_put_pair(pairs, 2, 1, 3);
    expect("pair 3 by hand", vithmork_pair_total(belts, BELTS, pairs, 2, flow), 1);
    vithmork_put_pair(pairs, 2, 3, 1);
}

/* Use times scale, against the limit: use * c <= limit * Y. */
static void within_limit(uint64_t station)
{
    uint64_t limit = vithmork_get(limits, station - 1), together = 0;
    for (size_t p = 0; p < PAIRS; p++)
        together += vithmork_station_use(belts, BELTS, p, flow, station);
    expect("a station within its limit",
           limit == 0 || together * vithmork_get(answer, VITHMORK_SCALE_CAPACITY) <=
                             limit * vithmork_get(answer, VITHMORK_SCALE_LOAD),
           1);
}

/* Of the library's own plan the pairs' totals make the drawn total. */
static void of_a_plan(void)
{
    uint64_t sum = 0, before = vithmork_count(counts, OFFICE);
    expect("the call", vithmork_solve(STATIONS, PRECISION, OFFICE, belts, sizeof belts, pairs,
                                      sizeof pairs, limits, sizeof limits, flow, sizeof flow,
                                      lengths, sizeof lengths, answer, sizeof answer, counts,
                                      sizeof counts),
           VITHMORK_ACCEPTED);
    for (size_t p = 0; p < PAIRS; p++)
        sum += vithmork_pair_total(belts, BELTS, pairs, p, flow);
    expect("the sum over pairs", sum, vithmork_get(answer, VITHMORK_DRAWN));
    expect("the office's count", vithmork_count(counts, OFFICE),
           before + vithmork_get(answer, VITHMORK_CHOICES));
    for (uint64_t station = 1; station <= STATIONS; station++)
        within_limit(station);
}

/* The whole totes of the same plan. */
static void in_whole_totes(void)
{
    uint64_t capacity, load;
    expect("the call for totes",
           vithmork_whole(STATIONS, PRECISION, OFFICE, belts, sizeof belts, pairs, sizeof pairs,
                          limits, sizeof limits, flow, sizeof flow, lengths, sizeof lengths,
                          answer, sizeof answer, counts, sizeof counts, totes, sizeof totes),
           VITHMORK_ACCEPTED);
    capacity = vithmork_get(answer, VITHMORK_SCALE_CAPACITY);
    load = vithmork_get(answer, VITHMORK_SCALE_LOAD);
    for (size_t p = 0; p < PAIRS; p++) {
        uint64_t parts = vithmork_pair_total(belts, BELTS, pairs, p, flow) * capacity;
        expect("whole totes of a plan", vithmork_pair_whole(totes, p), parts / load);
        expect("their remainder", vithmork_pair_remainder(totes, p), parts % load);
    }
}

/* The same plan as a site's second floor, behind one that has no parts, and a third as
 * large for which nothing is left. */
static void of_a_site(void)
{
    static uint8_t again[sizeof flow], lengths_again[sizeof lengths];
    uint64_t before = vithmork_count(counts, OFFICE);
    vithmork_put_floor(floors, 0, STATIONS, PRECISION, 0, 0, 0, 0, 0);
    for (size_t f = 1; f < FLOORS; f++)
        vithmork_put_fitted_floor(floors, f, STATIONS, PRECISION, BELTS, PAIRS, STATIONS,
                                  BELTS + LIMITED);
    expect("the call for a site",
           vithmork_site(OFFICE, floors, sizeof floors, belts, sizeof belts, pairs, sizeof pairs,
                         limits, sizeof limits, again, sizeof again, lengths_again,
                         sizeof lengths_again, answers, sizeof answers, counts, sizeof counts),
           VITHMORK_ACCEPTED);
    expect("a floor of no parts", vithmork_refused(vithmork_floor_returned(answers, 0)).number,
           VITHMORK_REFUSED_BELTS);
    expect("the floor behind it", vithmork_floor_returned(answers, 1), VITHMORK_ACCEPTED);
    expect("its flow", memcmp(again, flow, sizeof flow) == 0, 1);
    expect("its lengths", memcmp(lengths_again, lengths, sizeof lengths) == 0, 1);
    expect("its answer", memcmp(vithmork_floor_answer(answers, 1), answer, sizeof answer) == 0, 1);
    expect("the end of its flow", vithmork_floor_begin(floors, 2, VITHMORK_FLOOR_FLOW),
           sizeof flow);
    expect("the end of its belts", vithmork_floor_begin(floors, 2, VITHMORK_FLOOR_BELTS),
           sizeof belts);
    expect("a floor behind the slices' ends",
           vithmork_refused(vithmork_floor_returned(answers, 2)).number, VITHMORK_REFUSED_BELTS);
    expect("the count of the site's office", vithmork_count(counts, OFFICE),
           before + vithmork_get(answer, VITHMORK_CHOICES));
}

static void absent(void)
{
    uint8_t *none = VITHMORK_ABSENT;
    uint64_t of_belts = vithmork_solve(STATIONS, PRECISION, OFFICE, none, 0, pairs, sizeof pairs,
                                       none, 0, flow, sizeof flow, lengths, sizeof lengths,
                                       answer, sizeof answer, counts, sizeof counts);
    uint64_t of_tables = vithmork_solve(STATIONS, PRECISION, OFFICE, belts, sizeof belts, pairs,
                                        sizeof pairs, none, 0, none, 0, none, 0, none, 0, none,
                                        0);
    uint64_t of_totes = vithmork_whole(STATIONS, PRECISION, OFFICE, belts, sizeof belts, pairs,
                                       sizeof pairs, none, 0, flow, sizeof flow, lengths,
                                       sizeof lengths, answer, sizeof answer, counts,
                                       sizeof counts, none, 0);
    uint64_t of_floors = vithmork_site(OFFICE, none, 0, belts, sizeof belts, pairs, sizeof pairs,
                                       none, 0, flow, sizeof flow, lengths, sizeof lengths,
                                       answers, sizeof answers, counts, sizeof counts);
    uint64_t of_parts = vithmork_site(OFFICE, floors, sizeof floors, none, 0, none, 0, none, 0,
                                      none, 0, none, 0, answers, sizeof answers, none, 0);
    expect("an absent slice's pointer", none != NULL, 1);
    expect("no belts", vithmork_refused(of_belts).number, VITHMORK_REFUSED_BELTS);
    expect("no tables", vithmork_refused(of_tables).number, VITHMORK_REFUSED_SHORT_TABLE);
    expect("no totes", vithmork_refused(of_totes).number, VITHMORK_REFUSED_SHORT_TABLE);
    expect("no floors", vithmork_refused(of_floors).number, VITHMORK_REFUSED_FLOORS);
    expect("floors of nothing", of_parts, VITHMORK_ACCEPTED);
}

int main(void)
{
    versions();
    fill();
    signs();
    marks();
    limited();
    counted();
    toted();
    listed();
    scaled();
    amounts_down();
    bound_up();
    printed();
    by_hand();
    of_a_plan();
    in_whole_totes();
    of_a_site();
    absent();
    return failed;
}
