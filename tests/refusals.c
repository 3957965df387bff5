/* Every refusal that the calls know, as a C program meets it: number, place and
 * word, and no byte changed; and of the counts, what an accepted call changes. Each
 * case is tried on all three calls, by the last as a site's only floor, and once more
 * with too few totes, which shows where 5 stands in the order. Exits with 1 if one is
 * otherwise. */
#include "vithmork.h"

#include <stdio.h>
#include <string.h>

enum { STATIONS = 3, BELTS = 2, LIMITED = 1, PAIRS = 2, PRECISION = 4, OFFICE = 3 };

/* The greatest count that an office may run with. */
static const uint64_t most = (uint64_t)1 << 63;

/* All that is lent, sound at first: each case spoils one part. The counts have room for
 * an office 9, whose count nothing may read or write. */
typedef struct {
    uint64_t n, q, office;
    size_t belts_len, pairs_len, limits_len, flow_len, lengths_len, answer_len, counts_len;
    size_t totes_len;
    uint8_t belts[VITHMORK_BELTS_BYTES(VITHMORK_MAX_BELTS + 1)];
    uint8_t pairs[VITHMORK_PAIRS_BYTES(VITHMORK_MAX_PAIRS + 1)];
    uint8_t limits[VITHMORK_LIMITS_BYTES(STATIONS)];
    uint8_t flow[VITHMORK_FLOW_BYTES(PAIRS, BELTS)];
    uint8_t lengths[VITHMORK_LENGTH_BYTES(BELTS + LIMITED)];
    uint8_t answer[VITHMORK_ANSWER_BYTES];
    uint8_t counts[VITHMORK_COUNTS_BYTES + VITHMORK_NUMBER_BYTES];
    uint8_t totes[VITHMORK_TOTES_BYTES(PAIRS)];
} lent;

static lent sound(void)
{
    lent l;
    memset(&l, 9, sizeof l);
    l.n = STATIONS;
    l.q = PRECISION;
    l.office = OFFICE;
    l.belts_len = VITHMORK_BELTS_BYTES(BELTS);
    l.pairs_len = VITHMORK_PAIRS_BYTES(PAIRS);
    l.limits_len = sizeof l.limits;
    l.flow_len = sizeof l.flow;
    l.lengths_len = sizeof l.lengths;
    l.answer_len = sizeof l.answer;
    l.counts_len = VITHMORK_COUNTS_BYTES;
    l.totes_len = sizeof l.totes;
    vithmork_put_belt(l.belts, 0, 1, 2, 600);
    vithmork_put_belt(l.belts, 1, 2, 3, 400);
    vithmork_put_pair(l.pairs, 0, 1, 3);
    vithmork_put_pair(l.pairs, 1, 2, 3);
    vithmork_put_limit(l.limits, 1, 0);
    vithmork_put_limit(l.limits, 2, 500);
    vithmork_put_limit(l.limits, 3, 0);
    vithmork_put_count(l.counts, OFFICE, 0);
    return l;
}

static uint64_t solve(lent *l)
{
    return vithmork_solve(l->n, l->q, l->office, l->belts, l->belts_len, l->pairs, l->pairs_len,
                          l->limits, l->limits_len, l->flow, l->flow_len, l->lengths,
                          l->lengths_len, l->answer, l->answer_len, l->counts, l->counts_len);
}

static uint64_t whole(lent *l)
{
    return vithmork_whole(l->n, l->q, l->office, l->belts, l->belts_len, l->pairs, l->pairs_len,
                          l->limits, l->limits_len, l->flow, l->flow_len, l->lengths,
                          l->lengths_len, l->answer, l->answer_len, l->counts, l->counts_len,
                          l->totes_len == 0 ? VITHMORK_ABSENT : l->totes, l->totes_len);
}

/* As a site of so many floors. The first has all of each slice; what it returned is
 * returned, unless the site was turned down itself. */
static uint64_t site_of(lent *l, size_t floors_len)
{
    uint8_t floors[VITHMORK_FLOORS_BYTES(VITHMORK_MAX_FLOORS + 1)];
    uint8_t answers[VITHMORK_ANSWERS_BYTES(1)];
    uint8_t *answer = answers + VITHMORK_NUMBER_BYTES;
    uint64_t returned;
    memset(floors, 9, sizeof floors);
    memset(answers, 9, sizeof answers);
    memcpy(answer, l->answer, sizeof l->answer);
    vithmork_put_floor(floors, 0, l->n, l->q, UINT64_MAX, UINT64_MAX, UINT64_MAX, UINT64_MAX,
                       UINT64_MAX);
    returned = vithmork_site(l->office, floors, floors_len, l->belts, l->belts_len, l->pairs,
                             l->pairs_len, l->limits, l->limits_len, l->flow, l->flow_len,
                             l->lengths, l->lengths_len, answers,
                             VITHMORK_NUMBER_BYTES + l->answer_len, l->counts, l->counts_len);
    memcpy(l->answer, answer, sizeof l->answer);
    return returned != VITHMORK_ACCEPTED ? returned : vithmork_floor_returned(answers, 0);
}

static uint64_t site(lent *l)
{
    return site_of(l, VITHMORK_FLOORS_BYTES(1));
}

/* The greatest list that has no floor yet, and the least that has too many. */
static uint64_t site_of_none(lent *l)
{
    return site_of(l, VITHMORK_FLOORS_BYTES(1) - 1);
}

static uint64_t site_of_many(lent *l)
{
    return site_of(l, VITHMORK_FLOORS_BYTES(VITHMORK_MAX_FLOORS + 1));
}

typedef uint64_t call(lent *l);

static const char *name(call *made)
{
    return made == solve ? "vithmork_solve" : made == whole ? "vithmork_whole" : "vithmork_site";
}

static int failed;

static void meet(call *made, lent l, unsigned number, unsigned place, const char *word)
{
    lent before = l;
    vithmork_refusal refusal = vithmork_refused(made(&l));
    if (refusal.number != number || refusal.place != place ||
        strcmp(vithmork_word(refusal.number), word) != 0 || memcmp(&l, &before, sizeof l) != 0) {
        printf("refusals: %s: %u (%s), place %u, where %u (%s), place %u is due\n", name(made),
               refusal.number, vithmork_word(refusal.number), refusal.place, number, word, place);
        failed = 1;
    }
}

/* The totes a byte short, a number short, with one number a pair, and absent: 5, if
 * nothing is refused before it. */
static void short_totes(lent l, unsigned number)
{
    static const size_t sizes[] = {VITHMORK_TOTES_BYTES(PAIRS) - 1,
                                   VITHMORK_TOTES_BYTES(PAIRS) - VITHMORK_NUMBER_BYTES,
                                   VITHMORK_TOTES_BYTES(PAIRS) / 2, 0};
    for (size_t i = 0; i < sizeof sizes / sizeof *sizes; i++) {
        l.totes_len = sizes[i];
        meet(whole, l, number, 0, vithmork_word(number));
    }
}

/* 1, 2, 15, 3 and 4 are looked for before the tables, all others after them. */
static int before_tables(unsigned number)
{
    return number <= VITHMORK_REFUSED_PRECISION || number == VITHMORK_REFUSED_BELTS_AND_LIMITS;
}

static void expect(lent l, unsigned number, unsigned place, const char *word)
{
    meet(solve, l, number, place, word);
    meet(whole, l, number, place, word);
    meet(site, l, number, place, word);
    short_totes(l, before_tables(number) ? number : VITHMORK_REFUSED_SHORT_TABLE);
}

/* Of all counts only the office's own is another, by the choices. */
static void meet_raised(call *made, lent l)
{
    lent before = l;
    uint64_t returned = made(&l), choices = vithmork_get(l.answer, VITHMORK_CHOICES);
    uint64_t count = vithmork_count(before.counts, before.office);
    vithmork_put_count(before.counts, before.office, count + choices);
    if (returned != VITHMORK_ACCEPTED || choices == 0 ||
        memcmp(l.counts, before.counts, sizeof l.counts) != 0) {
        printf("refusals: %s: a call by office %u is refused or raises other counts\n",
               name(made), (unsigned)before.office);
        failed = 1;
    }
}

static void expect_raised(lent l)
{
    meet_raised(solve, l);
    meet_raised(whole, l);
    meet_raised(site, l);
}

/* Every count is this, and what stands where an office 9 would have its own. */
static lent with_counts(uint64_t count)
{
    lent l = sound();
    for (size_t office = VITHMORK_MIN_OFFICE; office <= VITHMORK_MAX_OFFICE + 1; office++)
        vithmork_put_count(l.counts, office, count);
    return l;
}

/* Each office by itself: its own count is looked at and raised, and no other, nor what
 * follows the eighth in a longer table. */
static void each_office(void)
{
    for (size_t office = VITHMORK_MIN_OFFICE; office <= VITHMORK_MAX_OFFICE; office++) {
        lent l = with_counts(most + 1);
        l.office = office;
        expect(l, VITHMORK_REFUSED_FULL_COUNT, 0, "full count");
        vithmork_put_count(l.counts, office, most);
        expect_raised(l);
        l = with_counts(0);
        l.office = office;
        l.counts_len = sizeof l.counts;
        expect_raised(l);
        vithmork_put_count(l.counts, office, most + 1);
        expect(l, VITHMORK_REFUSED_FULL_COUNT, 0, "full count");
    }
}

/* A number that no office has: refused after a short table, before full counts and
 * loose belts. */
static void no_office(uint64_t office)
{
    lent l = sound();
    l.office = office;
    expect(l, VITHMORK_REFUSED_OFFICE, 0, "office");
    l.counts_len = sizeof l.counts;
    expect(l, VITHMORK_REFUSED_OFFICE, 0, "office");
    l.counts_len = VITHMORK_COUNTS_BYTES - 1;
    expect(l, VITHMORK_REFUSED_SHORT_TABLE, 0, "short table");
    l = with_counts(most + 1);
    l.office = office;
    l.counts_len = sizeof l.counts;
    vithmork_put_belt(l.belts, 0, 1, 1, 600);
    expect(l, VITHMORK_REFUSED_OFFICE, 0, "office");
}

/* A list of no floors or too many, whatever else is lent: refused before short answers,
 * which come before all that is wrong with a floor. */
static void no_site(void)
{
    lent l = sound();
    meet(site_of_none, l, VITHMORK_REFUSED_FLOORS, 0, "floors");
    meet(site_of_many, l, VITHMORK_REFUSED_FLOORS, 0, "floors");
    l.answer_len--;
    meet(site_of_none, l, VITHMORK_REFUSED_FLOORS, 0, "floors");
    meet(site_of_many, l, VITHMORK_REFUSED_FLOORS, 0, "floors");
    l.n = VITHMORK_MAX_STATIONS + 1;
    meet(site, l, VITHMORK_REFUSED_SHORT_TABLE, 0, "short table");
}

int main(void)
{
    lent l = sound();
    if (solve(&l) != VITHMORK_ACCEPTED || strcmp(vithmork_word(VITHMORK_ACCEPTED), "accepted") != 0)
        failed = 1;
    l = sound();
    if (whole(&l) != VITHMORK_ACCEPTED)
        failed = 1;
    l = sound();
    if (site(&l) != VITHMORK_ACCEPTED)
        failed = 1;
    no_site();
    short_totes(sound(), VITHMORK_REFUSED_SHORT_TABLE);
    l = sound();
    l.n = VITHMORK_MAX_STATIONS + 1;
    expect(l, VITHMORK_REFUSED_STATIONS, 0, "stations");
    l = sound();
    l.belts_len = VITHMORK_BELTS_BYTES(1) - 1;
    expect(l, VITHMORK_REFUSED_BELTS, 0, "belts");
    l = sound();
    l.belts_len = sizeof l.belts;
    expect(l, VITHMORK_REFUSED_BELTS, 0, "belts");
    l = sound();
    l.belts_len = VITHMORK_BELTS_BYTES(VITHMORK_MAX_BELTS);
    expect(l, VITHMORK_REFUSED_BELTS_AND_LIMITS, 0, "belts and limits");
    l = sound();
    l.pairs_len = sizeof l.pairs;
    expect(l, VITHMORK_REFUSED_PAIRS, 0, "pairs");
    l = sound();
    l.q = VITHMORK_MIN_PRECISION - 1;
    expect(l, VITHMORK_REFUSED_PRECISION, 0, "precision");
    l = sound();
    l.flow_len--;
    expect(l, VITHMORK_REFUSED_SHORT_TABLE, 0, "short table");
    l = sound();
    l.lengths_len--;
    expect(l, VITHMORK_REFUSED_SHORT_TABLE, 0, "short table");
    l = sound();
    l.answer_len--;
    expect(l, VITHMORK_REFUSED_SHORT_TABLE, 0, "short table");
    l = sound();
    l.counts_len--;
    expect(l, VITHMORK_REFUSED_SHORT_TABLE, 0, "short table");
    l = sound();
    vithmork_put_belt(l.belts, 1, 3, 3, VITHMORK_MAX_CAPACITY + 1);
    expect(l, VITHMORK_REFUSED_LOOSE_BELT, 2, "loose belt");
    l = sound();
    vithmork_put_belt(l.belts, 1, 2, 3, VITHMORK_MAX_CAPACITY + 1);
    expect(l, VITHMORK_REFUSED_CAPACITY, 2, "capacity");
    l = sound();
    vithmork_put_limit(l.limits, 2, VITHMORK_MAX_LIMIT + 1);
    expect(l, VITHMORK_REFUSED_LIMIT, 2, "limit");
    l = sound();
    vithmork_put_pair(l.pairs, 0, 1, 4);
    expect(l, VITHMORK_REFUSED_LOOSE_PAIR, 1, "loose pair");
    l = sound();
    vithmork_put_count(l.counts, OFFICE, most + 1);
    vithmork_put_belt(l.belts, 0, 1, 1, 600);
    expect(l, VITHMORK_REFUSED_FULL_COUNT, 0, "full count");
    each_office();
    no_office(VITHMORK_MIN_OFFICE - 1);
    no_office(VITHMORK_MAX_OFFICE + 1);
    no_office(((uint64_t)1 << 32) + OFFICE);
    no_office(UINT64_MAX);
    return failed;
}
