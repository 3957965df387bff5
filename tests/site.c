/* vithmork_site beside vithmork_solve on copies of the floors' parts, one floor after the
 * other, on sites drawn at random and then cut, stretched and spoilt: result and every byte
 * lent are the same, those around the slices too. Says how many sites there were; exits
 * with 1 if one is otherwise, or if no site shows a slip that is looked for. */
#include "drawn.h"

#include <stdio.h>

/* The slices of a call. Those that floors have parts of stand at the places that their
 * sizes have in an item of the list. */
enum { LIST = 0, COUNTS = 1, PARTS = VITHMORK_FLOOR_BELTS, ANSWERS = 7, SLICES = 8 };

enum { ROOM = 1 << 14, SITES = 160, LARGE_FLOORS = 2, OFFICE = 3, TOLD = 10 };

/* The greatest count that an office may run with. */
static const uint64_t most = (uint64_t)1 << 63;

/* Each slice stands somewhere in its room, at any address. */
typedef struct {
    uint64_t office;
    size_t begin[SLICES], len[SLICES];
    uint8_t room[SLICES][ROOM];
} lent;

/* Sites and floors on which some slip would show. */
static unsigned sites, accepted_behind_refused, full_behind_accepted, ended_parts, loose_parts;

static unsigned failures;

/* A library that is wrong is so on most sites: the first of them are told. */
static void expect(int holds, const char *what)
{
    if (!holds && failures++ < TOLD)
        printf("site: %s\n", what);
}

static uint8_t *slice(lent *l, size_t which)
{
    return l->room[which] + l->begin[which];
}

static uint8_t *given(lent *l, size_t which)
{
    return l->len[which] == 0 ? VITHMORK_ABSENT : slice(l, which);
}

static size_t floors_of(const lent *l)
{
    return l->len[LIST] / VITHMORK_FLOORS_BYTES(1);
}

static uint8_t *item(lent *l, size_t f)
{
    return slice(l, LIST) + VITHMORK_FLOORS_BYTES(f);
}

static uint64_t together(lent *l)
{
    return vithmork_site(l->office, given(l, LIST), l->len[LIST], given(l, VITHMORK_FLOOR_BELTS),
                         l->len[VITHMORK_FLOOR_BELTS], given(l, VITHMORK_FLOOR_PAIRS),
                         l->len[VITHMORK_FLOOR_PAIRS], given(l, VITHMORK_FLOOR_LIMITS),
                         l->len[VITHMORK_FLOOR_LIMITS], given(l, VITHMORK_FLOOR_FLOW),
                         l->len[VITHMORK_FLOOR_FLOW], given(l, VITHMORK_FLOOR_LENGTHS),
                         l->len[VITHMORK_FLOOR_LENGTHS], given(l, ANSWERS), l->len[ANSWERS],
                         given(l, COUNTS), l->len[COUNTS]);
}

/* A floor's parts, each in memory of its own. */
typedef struct {
    size_t len[SLICES];
    uint8_t bytes[SLICES][ROOM];
} parts;

static uint64_t solve_alone(const lent *l, const uint8_t *floor_item, parts *own)
{
    return vithmork_solve(
        vithmork_get(floor_item, VITHMORK_FLOOR_STATIONS),
        vithmork_get(floor_item, VITHMORK_FLOOR_PRECISION), l->office,
        own->bytes[VITHMORK_FLOOR_BELTS], own->len[VITHMORK_FLOOR_BELTS],
        own->bytes[VITHMORK_FLOOR_PAIRS], own->len[VITHMORK_FLOOR_PAIRS],
        own->bytes[VITHMORK_FLOOR_LIMITS], own->len[VITHMORK_FLOOR_LIMITS],
        own->bytes[VITHMORK_FLOOR_FLOW], own->len[VITHMORK_FLOOR_FLOW],
        own->bytes[VITHMORK_FLOOR_LENGTHS], own->len[VITHMORK_FLOOR_LENGTHS],
        own->bytes[ANSWERS], own->len[ANSWERS], own->bytes[COUNTS], own->len[COUNTS]);
}

/* Where the parts of a floor begin in their slices. */
typedef size_t begins[SLICES];

/* What is left of a slice has so many whole numbers, of which a floor has no more. */
static void size_parts(lent *l, size_t f, const begins at, parts *own)
{
    for (size_t which = PARTS; which < ANSWERS; which++) {
        uint64_t left = (l->len[which] - at[which]) / VITHMORK_NUMBER_BYTES;
        uint64_t size = vithmork_get(item(l, f), which);
        own->len[which] = (size_t)(size < left ? size : left) * VITHMORK_NUMBER_BYTES;
        ended_parts += size > left;
    }
    loose_parts += own->len[VITHMORK_FLOOR_BELTS] % VITHMORK_BELTS_BYTES(1) != 0;
    own->len[ANSWERS] = VITHMORK_ANSWER_BYTES;
    own->len[COUNTS] = l->len[COUNTS];
}

/* What the site is to come to: each floor sent by itself. */
static void singly(lent *l)
{
    static parts own;
    begins at = {0};
    uint64_t returned = VITHMORK_ACCEPTED, before;
    for (size_t f = 0; f < floors_of(l); f++) {
        at[ANSWERS] = VITHMORK_ANSWERS_BYTES(f) + VITHMORK_NUMBER_BYTES;
        size_parts(l, f, at, &own);
        for (size_t which = COUNTS; which < SLICES; which++)
            memcpy(own.bytes[which], slice(l, which) + at[which], own.len[which]);
        before = returned;
        returned = solve_alone(l, item(l, f), &own);
        for (size_t which = COUNTS; which < SLICES; which++)
            memcpy(slice(l, which) + at[which], own.bytes[which], own.len[which]);
        vithmork_put(slice(l, ANSWERS), f * VITHMORK_FLOOR_ANSWER_NUMBERS, returned);
        for (size_t which = PARTS; which < ANSWERS; which++)
            at[which] += own.len[which];
        accepted_behind_refused += before != VITHMORK_ACCEPTED && returned == VITHMORK_ACCEPTED;
        full_behind_accepted += f > 0 && before == VITHMORK_ACCEPTED &&
                                returned == VITHMORK_REFUSED_FULL_COUNT * 1000;
    }
}

/* The call returns this, with every floor as if it were sent singly, or, if that is a
 * refusal of the site itself, with no byte changed. */
static void look(const lent *l, uint64_t due, const char *what)
{
    static lent one, other;
    one = other = *l;
    sites++;
    if (due == VITHMORK_ACCEPTED)
        singly(&other);
    expect(together(&one) == due, what);
    expect(memcmp(&one, &other, sizeof one) == 0, what);
}

/* Numbers behind the last of a slice. */
static void append(lent *l, size_t which, const uint8_t *table, size_t numbers)
{
    uint8_t *end = l->room[which] + l->begin[which] + l->len[which];
    size_t bytes = numbers * VITHMORK_NUMBER_BYTES;
    if (table != NULL)
        memcpy(end, table, bytes);
    l->len[which] += bytes;
}

/* Something of the floor is out of bounds; stations and precision are so by their upper
 * bytes alone. */
static void spoil(floor_lent *d)
{
    switch (up_to(6)) {
    case 1: d->n += (uint64_t)1 << 32; break;
    case 2: d->q += (uint64_t)1 << 32; break;
    case 3: vithmork_put_belt(d->belts, 0, 1, 1, 1); break;
    case 4: vithmork_put_belt(d->belts, 0, 1, 2, 0); break;
    case 5: vithmork_put_pair(d->pairs, 0, 1, 1); break;
    default: vithmork_put_limit(d->limits, 1, VITHMORK_MAX_LIMIT + 1);
    }
}

/* A floor more, whose parts have up to three numbers that belong to no item or entry; if
 * it may be spoilt, it is so now and then, or lacks a number of flow. */
static void add_floor(lent *l, int large, int spoilt)
{
    floor_lent d;
    size_t n = large ? STATIONS : up_to(SMALL_STATIONS - 1) + 1;
    size_t m = large ? BELTS : up_to(SMALL_BELTS), k = large ? PAIRS : up_to(SMALL_PAIRS);
    size_t loose = large ? 0 : up_to(4) - 1, f = floors_of(l), limits, flow, lengths;
    memset(&d, 9, sizeof d);
    draw_floor(&d, n, m, k, l->office);
    limits = up_to(n + 1) - 1;
    flow = k * m + loose;
    lengths = m + vithmork_limited(d.limits, VITHMORK_LIMITS_BYTES(limits), n) + loose;
    if (spoilt && up_to(4) == 1)
        spoil(&d);
    if (spoilt && up_to(8) == 1)
        flow = k * m - 1;
    append(l, VITHMORK_FLOOR_BELTS, d.belts, m * VITHMORK_BELT_NUMBERS + loose);
    append(l, VITHMORK_FLOOR_PAIRS, d.pairs, k * VITHMORK_PAIR_NUMBERS + loose % 2);
    append(l, VITHMORK_FLOOR_LIMITS, d.limits, limits);
    append(l, VITHMORK_FLOOR_FLOW, NULL, flow);
    append(l, VITHMORK_FLOOR_LENGTHS, NULL, lengths);
    append(l, ANSWERS, NULL, VITHMORK_FLOOR_ANSWER_NUMBERS);
    append(l, LIST, NULL, VITHMORK_FLOOR_NUMBERS);
    vithmork_put_floor(slice(l, LIST), f, d.n, d.q, m * VITHMORK_BELT_NUMBERS + loose,
                       k * VITHMORK_PAIR_NUMBERS + loose % 2, limits, flow, lengths);
}

static void draw_site(lent *l, size_t floors, int large, int spoilt)
{
    memset(l, 9, sizeof *l);
    l->office = OFFICE;
    for (size_t which = 0; which < SLICES; which++) {
        l->begin[which] = up_to(2 * VITHMORK_NUMBER_BYTES) - 1;
        l->len[which] = 0;
    }
    append(l, COUNTS, NULL, VITHMORK_COUNTS_NUMBERS);
    vithmork_put_count(slice(l, COUNTS), OFFICE, 0);
    for (size_t f = 0; f < floors; f++)
        add_floor(l, large && f < LARGE_FLOORS, spoilt);
}

/* The answers a byte short, a number short, with seven numbers a floor, and absent. */
static void look_at_answers(lent l, uint64_t due)
{
    size_t least = VITHMORK_ANSWERS_BYTES(floors_of(&l));
    size_t sizes[] = {least - 1, least - VITHMORK_NUMBER_BYTES,
                      floors_of(&l) * VITHMORK_ANSWER_BYTES, 0};
    for (size_t i = 0; i < sizeof sizes / sizeof *sizes; i++) {
        l.len[ANSWERS] = sizes[i];
        look(&l, due, "a site with too few answers");
    }
}

/* Complete items are counted, and too few or too many refused before short answers. */
static void look_at_list(lent l)
{
    static lent none, one;
    size_t floors_len = l.len[LIST];
    none = one = l;
    for (size_t more = 1; more < VITHMORK_FLOORS_BYTES(1); more += 18) {
        l.len[LIST] = floors_len + more;
        look(&l, VITHMORK_ACCEPTED, "a list with an incomplete last item");
    }
    look_at_answers(l, VITHMORK_REFUSED_SHORT_TABLE * 1000);
    for (size_t bytes = 0; bytes < VITHMORK_FLOORS_BYTES(1); bytes += 11) {
        none.len[LIST] = bytes;
        look(&none, VITHMORK_REFUSED_FLOORS * 1000, "a list of no floors");
    }
    none.len[ANSWERS] = 0;
    look(&none, VITHMORK_REFUSED_FLOORS * 1000, "a list of no floors and no answers");
    one.len[LIST] = VITHMORK_FLOORS_BYTES(1);
    look(&one, VITHMORK_ACCEPTED, "the first floor of a list by itself");
    one.len[ANSWERS] = VITHMORK_ANSWERS_BYTES(1);
    look(&one, VITHMORK_ACCEPTED, "a floor by itself with its own answers alone");
}

static void look_at_too_many(void)
{
    static lent l;
    for (size_t floors = VITHMORK_MAX_FLOORS; floors < VITHMORK_MAX_FLOORS + 3; floors++) {
        int taken = floors <= VITHMORK_MAX_FLOORS;
        draw_site(&l, floors, 0, 1);
        look(&l, taken ? VITHMORK_ACCEPTED : VITHMORK_REFUSED_FLOORS * 1000, "so many floors");
        look_at_answers(l, (taken ? VITHMORK_REFUSED_SHORT_TABLE : VITHMORK_REFUSED_FLOORS) * 1000);
    }
}

/* Every slice that floors have parts of, or the counts, shorter and longer by some bytes;
 * each of them absent; and all of them. */
static void look_at_ends(const lent *sound)
{
    static lent l, nothing;
    nothing = *sound;
    for (size_t which = COUNTS; which < ANSWERS; which++) {
        for (size_t bytes = 1; bytes < 2 * VITHMORK_NUMBER_BYTES; bytes++) {
            l = *sound;
            l.len[which] += bytes;
            look(&l, VITHMORK_ACCEPTED, "a longer slice");
            l.len[which] = sound->len[which] < bytes ? 0 : sound->len[which] - bytes;
            look(&l, VITHMORK_ACCEPTED, "a shorter slice");
        }
        l.len[which] = nothing.len[which] = 0;
        look(&l, VITHMORK_ACCEPTED, "an absent slice");
        look(&nothing, VITHMORK_ACCEPTED, "absent slices");
    }
}

/* One size of one floor is another, up to the greatest: sums and bytes of such wrap. */
static void look_at_sizes(const lent *sound)
{
    static lent l;
    static const uint64_t larger[] = {1, 2, 4, 5, 1000};
    static const uint64_t huge[] = {(uint64_t)1 << 32, (uint64_t)1 << 60, (uint64_t)1 << 61,
                                    (uint64_t)1 << 63, UINT64_MAX - 15, UINT64_MAX - 3, UINT64_MAX};
    l = *sound;
    for (size_t f = 0; f < floors_of(&l); f++)
        for (size_t which = PARTS; which < ANSWERS; which++) {
            uint64_t size = vithmork_get(item(&l, f), which);
            for (size_t i = 0; i < sizeof larger / sizeof *larger; i++) {
                vithmork_put(item(&l, f), which, size + larger[i]);
                look(&l, VITHMORK_ACCEPTED, "a larger part");
                vithmork_put(item(&l, f), which, size < larger[i] ? 0 : size - larger[i]);
                look(&l, VITHMORK_ACCEPTED, "a smaller part");
            }
            for (size_t i = 0; i < sizeof huge / sizeof *huge; i++) {
                vithmork_put(item(&l, f), which, huge[i]);
                look(&l, VITHMORK_ACCEPTED, "a huge part");
                vithmork_put(item(&l, f), which, huge[i] + size);
                look(&l, VITHMORK_ACCEPTED, "a huge part and its own numbers");
            }
            vithmork_put(item(&l, f), which, size);
        }
}

/* Counts that are full at once, behind the first floor, and behind some. */
static void look_at_counts(lent l)
{
    for (uint64_t below = 0; below < 400; below = 2 * below + 1) {
        vithmork_put_count(slice(&l, COUNTS), OFFICE, most - below);
        look(&l, VITHMORK_ACCEPTED, "a count that passes 2^63");
    }
    vithmork_put_count(slice(&l, COUNTS), OFFICE, most + 1);
    look(&l, VITHMORK_ACCEPTED, "a full count");
}

/* Each floor says so by itself, behind its own earlier refusals. */
static void look_at_offices(lent l)
{
    static const uint64_t office[] = {VITHMORK_MIN_OFFICE, VITHMORK_MAX_OFFICE,
                                      VITHMORK_MIN_OFFICE - 1, VITHMORK_MAX_OFFICE + 1,
                                      ((uint64_t)1 << 32) + OFFICE, UINT64_MAX};
    for (size_t i = 0; i < sizeof office / sizeof *office; i++) {
        l.office = office[i];
        look(&l, VITHMORK_ACCEPTED, "an office that is out of bounds, or whose count is high");
    }
}

int main(void)
{
    static lent l;
    for (size_t i = 0; i < SITES; i++) {
        draw_site(&l, i % VITHMORK_MAX_FLOORS + 1, i < VITHMORK_MAX_FLOORS, i % 4 != 0);
        look(&l, VITHMORK_ACCEPTED, "a site as drawn");
        look_at_answers(l, VITHMORK_REFUSED_SHORT_TABLE * 1000);
        look_at_counts(l);
    }
    look_at_too_many();
    for (size_t i = 0; i < 2 * VITHMORK_MAX_FLOORS; i++) {
        draw_site(&l, i % 4 + 1, 0, i % 2);
        look_at_list(l);
        look_at_ends(&l);
        look_at_sizes(&l);
        look_at_offices(l);
    }
    expect(accepted_behind_refused > 0, "no floor is accepted behind one that is turned down");
    expect(full_behind_accepted > 0, "no count is full behind a floor");
    expect(ended_parts > 0, "no part ends with its slice");
    expect(loose_parts > 0, "no part has belt numbers that are no belt");
    printf("site: %u sites, %u floors accepted behind a refused one; %u faults\n", sites,
           accepted_behind_refused, failures);
    return failures != 0;
}
