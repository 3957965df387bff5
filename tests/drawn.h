/* Floors drawn at random, the same on every machine, with all that a call on one
 * writes: for tests that hold one call's bytes to another's. */
#include "vithmork.h"

#include <string.h>

enum { STATIONS = 24, BELTS = 96, PAIRS = 8, SMALL_STATIONS = 4, SMALL_BELTS = 6, SMALL_PAIRS = 2 };

typedef struct {
    uint64_t n, q, office;
    size_t m, k;
    uint8_t belts[VITHMORK_BELTS_BYTES(BELTS)];
    uint8_t pairs[VITHMORK_PAIRS_BYTES(PAIRS)];
    uint8_t limits[VITHMORK_LIMITS_BYTES(STATIONS)];
} floor_lent;

/* All bytes, so that two outcomes compare as memory does. The totes have room for a
 * pair more, the answers for the floor and one behind it. */
typedef struct {
    uint8_t returned[VITHMORK_NUMBER_BYTES];
    uint8_t flow[VITHMORK_FLOW_BYTES(PAIRS, BELTS)];
    uint8_t lengths[VITHMORK_LENGTH_BYTES(BELTS + STATIONS)];
    uint8_t answer[VITHMORK_ANSWER_BYTES];
    uint8_t counts[VITHMORK_COUNTS_BYTES];
    uint8_t totes[VITHMORK_TOTES_BYTES(PAIRS + 1)];
    uint8_t answers[VITHMORK_ANSWERS_BYTES(2)];
} outcome;

/* Numbers from 1 to most. */
static inline uint64_t up_to(uint64_t most)
{
    static uint64_t state = 1;
    state = state * 6364136223846793005u + 1442695040888963407u;
    return (state >> 33) % most + 1;
}

static inline uint64_t other_than(uint64_t station, uint64_t n)
{
    return (station - 1 + up_to(n - 1)) % n + 1;
}

static inline void draw_floor(floor_lent *f, uint64_t n, size_t m, size_t k, uint64_t office)
{
    f->n = n;
    f->q = VITHMORK_MIN_PRECISION + up_to(4);
    f->office = office;
    f->m = m;
    f->k = k;
    for (size_t e = 0; e < m; e++) {
        uint64_t tail = up_to(n);
        uint64_t head = other_than(tail, n), capacity = up_to(VITHMORK_MAX_CAPACITY);
        vithmork_put_marked_belt(f->belts, e, tail, head, capacity, up_to(2) - 1);
    }
    for (size_t p = 0; p < k; p++) {
        uint64_t source = up_to(n);
        vithmork_put_pair(f->pairs, p, source, other_than(source, n));
    }
    for (uint64_t station = 1; station <= n; station++)
        vithmork_put_limit(f->limits, station, up_to(2) == 1 ? 0 : up_to(VITHMORK_MAX_LIMIT));
}

/* What stands in the tables before a call. */
static inline void lend(const floor_lent *f, outcome *o)
{
    memset(o, 9, sizeof *o);
    vithmork_put_count(o->counts, f->office, f->n);
}

static inline void by_solve(const floor_lent *f, outcome *o)
{
    lend(f, o);
    vithmork_put(o->returned, 0,
                 vithmork_solve(f->n, f->q, f->office, f->belts, VITHMORK_BELTS_BYTES(f->m),
                                f->pairs, VITHMORK_PAIRS_BYTES(f->k), f->limits,
                                VITHMORK_LIMITS_BYTES(f->n), o->flow, sizeof o->flow,
                                o->lengths, sizeof o->lengths, o->answer, sizeof o->answer,
                                o->counts, sizeof o->counts));
}

static inline void by_whole(const floor_lent *f, size_t totes_len, outcome *o)
{
    lend(f, o);
    vithmork_put(o->returned, 0,
                 vithmork_whole(f->n, f->q, f->office, f->belts, VITHMORK_BELTS_BYTES(f->m),
                                f->pairs, VITHMORK_PAIRS_BYTES(f->k), f->limits,
                                VITHMORK_LIMITS_BYTES(f->n), o->flow, sizeof o->flow,
                                o->lengths, sizeof o->lengths, o->answer, sizeof o->answer,
                                o->counts, sizeof o->counts, o->totes, totes_len));
}

/* A site of two floors: this one, and behind it one that nothing is left for, which is
 * turned down. The floor's own answer is put where the other calls have it. */
static inline void by_site(const floor_lent *f, outcome *o)
{
    uint8_t floors[VITHMORK_FLOORS_BYTES(2)];
    lend(f, o);
    for (size_t i = 0; i < 2; i++)
        vithmork_put_floor(floors, i, f->n, f->q, f->m * VITHMORK_BELT_NUMBERS,
                           f->k * VITHMORK_PAIR_NUMBERS, f->n, f->k * f->m, f->m + f->n);
    vithmork_put(o->returned, 0,
                 vithmork_site(f->office, floors, sizeof floors, f->belts,
                               VITHMORK_BELTS_BYTES(f->m), f->pairs, VITHMORK_PAIRS_BYTES(f->k),
                               f->limits, VITHMORK_LIMITS_BYTES(f->n), o->flow, sizeof o->flow,
                               o->lengths, sizeof o->lengths, o->answers, sizeof o->answers,
                               o->counts, sizeof o->counts));
    memcpy(o->answer, vithmork_floor_answer(o->answers, 0), sizeof o->answer);
}
