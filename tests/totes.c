/* vithmork_whole beside vithmork_solve on floors drawn at random: result and tables
 * are the same, and the totes are those of the amounts in the flow table, in their own
 * places alone. Says how many floors there were; exits with 1 if one is otherwise, or
 * if no floor shows a slip that is looked for. */
#include "drawn.h"

#include <stdio.h>

enum { SMALL_FLOORS = 600, LARGE_FLOORS = 8, TOLD = 10 };

/* Floors and pairs on which some slip would show. */
static unsigned unjoined_floors, idle_pairs, backward_pairs, nearly_whole, unequal_pairs;

static unsigned failures;

/* A library that is wrong is so on most floors: the first of them are told. */
static void expect(int holds, const char *what)
{
    if (!holds && failures++ < TOLD)
        printf("totes: %s\n", what);
}

/* Does the pair leave its source from the head of a reversible belt? */
static int backward(const floor_lent *f, size_t p, const outcome *o)
{
    uint64_t source = vithmork_get(f->pairs, p * VITHMORK_PAIR_NUMBERS);
    for (size_t e = 0; e < f->m; e++)
        if (vithmork_get(f->belts, e * VITHMORK_BELT_NUMBERS + 1) == source &&
            vithmork_get_signed(o->flow, p * f->m + e) < 0)
            return 1;
    return 0;
}

/* The scale is at most 1: with no more whole totes than the amount no product wraps. */
static void look_at_pair(const floor_lent *f, size_t p, const outcome *o)
{
    uint64_t capacity = vithmork_get(o->answer, VITHMORK_SCALE_CAPACITY);
    uint64_t load = vithmork_get(o->answer, VITHMORK_SCALE_LOAD);
    uint64_t amount = vithmork_pair_total(f->belts, f->m, f->pairs, p, o->flow);
    uint64_t whole = vithmork_pair_whole(o->totes, p);
    uint64_t remainder = vithmork_pair_remainder(o->totes, p);
    expect(whole <= amount && amount * capacity == whole * load + remainder,
           "whole totes and remainder are not the pair's amount");
    expect(remainder < load, "a remainder has a whole tote in it");
    idle_pairs += amount == 0 && vithmork_get(o->answer, VITHMORK_CHOICES) > 0;
    backward_pairs += backward(f, p, o);
    nearly_whole += 2 * remainder > load;
    unequal_pairs += p > 0 && whole != vithmork_pair_whole(o->totes, p - 1);
}

/* Together at most the total, and less than a tote a pair below it. */
static void look_at_sum(const floor_lent *f, const outcome *o)
{
    uint64_t load = vithmork_get(o->answer, VITHMORK_SCALE_LOAD), sum = 0;
    uint64_t carried = vithmork_get(o->answer, VITHMORK_DRAWN) *
                       vithmork_get(o->answer, VITHMORK_SCALE_CAPACITY);
    for (size_t p = 0; p < f->k; p++)
        sum += vithmork_pair_whole(o->totes, p);
    expect(sum * load <= carried && carried < (sum + f->k) * load,
           "the whole totes are not within k of the total");
}

/* All bytes but those of the totes' own numbers are as vithmork_solve leaves them. */
static void look_at_rest(const floor_lent *f, const outcome *o)
{
    outcome solved;
    by_solve(f, &solved);
    memcpy(solved.totes, o->totes, VITHMORK_TOTES_BYTES(f->k));
    expect(memcmp(&solved, o, sizeof solved) == 0, "vithmork_solve leaves other bytes");
}

/* With so many bytes of totes the call leaves every byte so. */
static void look_at_size(const floor_lent *f, size_t totes_len, const outcome *due)
{
    outcome o;
    by_whole(f, totes_len, &o);
    expect(memcmp(&o, due, sizeof o) == 0, "totes of another size are treated otherwise");
}

/* Later numbers and an incomplete last one are not written; with less room than for
 * two numbers a pair nothing is. */
static void look_at_sizes(const floor_lent *f, const outcome *o)
{
    size_t least = VITHMORK_TOTES_BYTES(f->k);
    outcome refused;
    for (size_t more = 1; more < 2 * VITHMORK_NUMBER_BYTES; more += 2)
        look_at_size(f, least + more, o);
    look_at_size(f, least + VITHMORK_NUMBER_BYTES, o);
    lend(f, &refused);
    vithmork_put(refused.returned, 0, VITHMORK_REFUSED_SHORT_TABLE * 1000);
    look_at_size(f, least - 1, &refused);
    look_at_size(f, least - VITHMORK_NUMBER_BYTES, &refused);
    look_at_size(f, 0, &refused);
}

static void look_at_floor(const floor_lent *f)
{
    outcome o;
    by_whole(f, VITHMORK_TOTES_BYTES(f->k), &o);
    expect(vithmork_get(o.returned, 0) == VITHMORK_ACCEPTED, "a floor is refused");
    unjoined_floors += vithmork_get(o.answer, VITHMORK_CHOICES) == 0;
    look_at_rest(f, &o);
    for (size_t p = 0; p < f->k; p++)
        look_at_pair(f, p, &o);
    look_at_sum(f, &o);
    look_at_sizes(f, &o);
}

int main(void)
{
    floor_lent f;
    for (size_t i = 0; i < SMALL_FLOORS + LARGE_FLOORS; i++) {
        uint64_t office = i % VITHMORK_MAX_OFFICE + 1;
        if (i < SMALL_FLOORS)
            draw_floor(&f, SMALL_STATIONS, SMALL_BELTS, SMALL_PAIRS, office);
        else
            draw_floor(&f, STATIONS, BELTS, PAIRS, office);
        look_at_floor(&f);
    }
    expect(unjoined_floors > 0, "no floor is unjoined");
    expect(idle_pairs > 0, "no pair of a joined floor carries nothing");
    expect(backward_pairs > 0, "no pair leaves its source by a negative amount");
    expect(nearly_whole > 0, "no remainder is above one half");
    expect(unequal_pairs > 0, "no two pairs of a floor have different totes");
    printf("totes: %d floors, %u unjoined, %u remainders above one half; %u faults\n",
           SMALL_FLOORS + LARGE_FLOORS, unjoined_floors, nearly_whole, failures);
    return failures != 0;
}
