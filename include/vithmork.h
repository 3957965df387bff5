/* Vithmork: the most totes a mezzanine floor can carry between its pairs of
 * stations, as a plan in exact whole numbers and a bound that no plan exceeds.
 *
 * A number in a table takes eight bytes, lowest first, at any address. A
 * call allocates nothing, keeps nothing between calls and needs less than
 * 256 KiB of stack. The header is C99 and C++17; the archive is built for
 * x86-64 Linux.
 */
#ifndef VITHMORK_H
#define VITHMORK_H

#include <stddef.h>
#include <stdint.h>

#ifdef __cplusplus
extern "C" {
#endif

/* The first number rises with every change of a call, in what it takes, writes
 * or returns: a host then has to be looked at anew. The second rises with what
 * is new beside that, the third with what is put right. */
#define VITHMORK_VERSION_MAJOR 4
#define VITHMORK_VERSION_MINOR 3
#define VITHMORK_VERSION_PATCH 0
#define VITHMORK_VERSION "4.3.0"

/* Bounds. What lies outside them is refused, so a host need not test first. */
enum {
    VITHMORK_MIN_STATIONS = 2,
    VITHMORK_MAX_STATIONS = 64,
    VITHMORK_MIN_BELTS = 1,
    VITHMORK_MAX_BELTS = 256,
    VITHMORK_MIN_PAIRS = 1,
    VITHMORK_MAX_PAIRS = 32,
    VITHMORK_MIN_CAPACITY = 1,
    VITHMORK_MAX_CAPACITY = 1000,
    VITHMORK_MIN_LIMIT = 1,
    VITHMORK_MAX_LIMIT = 1000,
    VITHMORK_MAX_BELTS_AND_LIMITS = 256,
    VITHMORK_MIN_PRECISION = 4,
    VITHMORK_MAX_PRECISION = 16,
    VITHMORK_MIN_OFFICE = 1,
    VITHMORK_MAX_OFFICE = 8,
    VITHMORK_MIN_FLOORS = 1,
    VITHMORK_MAX_FLOORS = 16
};

/* Sizes in bytes. m and k are the whole items in the slices of belts and pairs, r
 * is m and as many more as stations have a limit (vithmork_limited counts them); an
 * incomplete last item is not read. The tables to write may be longer than is asked:
 * their later bytes keep their contents. */
#define VITHMORK_NUMBER_BYTES ((size_t)8)
#define VITHMORK_BELT_NUMBERS ((size_t)4)
#define VITHMORK_PAIR_NUMBERS ((size_t)2)
#define VITHMORK_ANSWER_NUMBERS ((size_t)7)
#define VITHMORK_COUNTS_NUMBERS ((size_t)VITHMORK_MAX_OFFICE)
#define VITHMORK_TOTES_NUMBERS(k) ((size_t)(k) * (size_t)2)
#define VITHMORK_FLOOR_NUMBERS ((size_t)7)
#define VITHMORK_FLOOR_ANSWER_NUMBERS (VITHMORK_ANSWER_NUMBERS + (size_t)1)
#define VITHMORK_BELTS_BYTES(m) ((size_t)(m) * VITHMORK_BELT_NUMBERS * VITHMORK_NUMBER_BYTES)
#define VITHMORK_PAIRS_BYTES(k) ((size_t)(k) * VITHMORK_PAIR_NUMBERS * VITHMORK_NUMBER_BYTES)
#define VITHMORK_LIMITS_BYTES(n) ((size_t)(n) * VITHMORK_NUMBER_BYTES)
#define VITHMORK_FLOW_BYTES(k, m) ((size_t)(k) * (size_t)(m) * VITHMORK_NUMBER_BYTES)
#define VITHMORK_LENGTH_BYTES(r) ((size_t)(r) * VITHMORK_NUMBER_BYTES)
#define VITHMORK_ANSWER_BYTES (VITHMORK_ANSWER_NUMBERS * VITHMORK_NUMBER_BYTES)
#define VITHMORK_COUNTS_BYTES (VITHMORK_COUNTS_NUMBERS * VITHMORK_NUMBER_BYTES)
#define VITHMORK_TOTES_BYTES(k) (VITHMORK_TOTES_NUMBERS(k) * VITHMORK_NUMBER_BYTES)
#define VITHMORK_FLOORS_BYTES(f) ((size_t)(f) * VITHMORK_FLOOR_NUMBERS * VITHMORK_NUMBER_BYTES)
#define VITHMORK_ANSWERS_BYTES(f) \
    ((size_t)(f) * VITHMORK_FLOOR_ANSWER_NUMBERS * VITHMORK_NUMBER_BYTES)

/* Places of the answer table, from 0. The scale is CAPACITY / LOAD: the total
 * carried is DRAWN times the scale, and what a pair sends over a belt is its
 * amount in the flow table times the scale. The bound is D / ALPHA. Nothing is
 * reduced or rounded, and DRAWN * CAPACITY is below 2^64. */
enum {
    VITHMORK_DRAWN = 0,          /* F, the sum of all draws */
    VITHMORK_SCALE_CAPACITY = 1, /* c(b) of the fullest b, a belt or a limited station */
    VITHMORK_SCALE_LOAD = 2,     /* Y(b), what was drawn over it, either way */
    VITHMORK_BOUND_D = 3,        /* capacity * length, summed over belts and limited stations */
    VITHMORK_BOUND_ALPHA = 4,    /* the shortest route under the same lengths */
    VITHMORK_CHOICES = 5,        /* routes chosen; 0 says that no pair is joined */
    VITHMORK_BOUND_CHOICE = 6    /* which of them, from 1, gave the bound; 0 if none */
};

/* Places of an item of the list of floors, from 0. Behind the first two stands how many
 * numbers, not items or bytes, of each lent slice are the floor's own. */
enum {
    VITHMORK_FLOOR_STATIONS = 0,  /* n */
    VITHMORK_FLOOR_PRECISION = 1, /* q */
    VITHMORK_FLOOR_BELTS = 2,     /* 4m */
    VITHMORK_FLOOR_PAIRS = 3,     /* 2k */
    VITHMORK_FLOOR_LIMITS = 4,    /* n, or fewer where the last have none */
    VITHMORK_FLOOR_FLOW = 5,      /* k * m, or more */
    VITHMORK_FLOOR_LENGTHS = 6    /* r, or more */
};

/* Refusals. 9 and 10 speak of files, and these calls never return them. */
enum {
    VITHMORK_ACCEPTED = 0,
    VITHMORK_REFUSED_STATIONS = 1,    /* n out of bounds */
    VITHMORK_REFUSED_BELTS = 2,       /* too few or too many complete belts */
    VITHMORK_REFUSED_PAIRS = 3,       /* likewise pairs */
    VITHMORK_REFUSED_PRECISION = 4,   /* q out of bounds */
    VITHMORK_REFUSED_SHORT_TABLE = 5, /* a table to write is too small, totes and a site's
                                         answers among them */
    VITHMORK_REFUSED_LOOSE_BELT = 6,  /* an end outside 1 to n, or both equal; place: the belt */
    VITHMORK_REFUSED_CAPACITY = 7,    /* out of bounds; place: the belt */
    VITHMORK_REFUSED_LOOSE_PAIR = 8,  /* as 6; place: the pair */
    VITHMORK_REFUSED_FULL_COUNT = 11, /* the office's running count above 2^63 */
    VITHMORK_REFUSED_FLOORS = 13,     /* too few or too many complete floors of a site */
    VITHMORK_REFUSED_LIMIT = 14,      /* above VITHMORK_MAX_LIMIT; place: the station */
    VITHMORK_REFUSED_BELTS_AND_LIMITS = 15, /* more than 256 of them together */
    VITHMORK_REFUSED_OFFICE = 16      /* office out of bounds */
};

/* Solves one floor.
 *
 *   n       stations, numbered from 1
 *   q       precision: the total is at least 1 - 7/(4q) of the bound, 0.56 of it at
 *           q = 4, 0.78 at 8 and 0.89 at 16. A higher q takes longer (below)
 *   office  which of the eight offices, numbered from 1, pays for the run
 *   belts   m items: tail, head, capacity, mark. The mark is 0, or anything else
 *           if the belt is reversible: then routes take it either way, and one
 *           capacity holds what goes both ways together
 *   pairs   k items: source, sink. A pair may be listed twice
 *   limits  a number for each station, from the first on: how many totes an hour
 *           may start, end or pass there, all pairs together. 0 is no limit, and so
 *           is a number that is not there; those past the n-th are not read. A
 *           pair's use of a station is the larger of what it brings in and what it
 *           takes out
 *   flow    written: m amounts for each pair, pair by pair, to be scaled (above).
 *           They are signed, in two's complement: a negative one runs from head
 *           to tail, which only reversible belts have. It is what is left where
 *           a pair's draws went both ways and cancelled
 *   lengths written: r lengths that give the bound, those of the belts and then
 *           those of the limited stations in order
 *   answer  written: seven numbers (above)
 *   counts  read and written: a running count for each office, office 1's first.
 *           That of this office is raised by the choices made; the others are not
 *           looked at and keep their contents. The table is the host's own, for as
 *           many calls as it likes, and must be set before the first of them: each
 *           count to 0, or where the host likes up to 2^63
 *
 * Returns 0, or for a refusal number * 1000 + place; a refusal changes no byte.
 * An unjoined floor is no refusal: its answer is 0, 1, 1, 0, 1, 0, 0.
 *
 * The slices must not overlap: the proof takes each to be memory of its own.
 * Nothing notices overlap; the call returns as ever, and what it wrote means
 * nothing. No pointer may be null, not that of a slice of no bytes either:
 * VITHMORK_ABSENT is one for that, since data() of an empty C++ vector may be
 * null.
 *
 * Threads may call at once if no two lend the same slice to write. That goes for
 * the counts too, and an office for each thread is no remedy: the table is one
 * slice, and the proof takes each slice that is written to be the call's own while
 * it runs. So each thread lends a table of counts of its own, and the host adds
 * them up. Belts, pairs and limits may be shared.
 *
 * A call cannot be interrupted; it always ends. Of eleven floors of 64 stations,
 * 256 belts and 32 pairs the slowest took 15 ms at q = 4 and 0.3 s at q = 16, on
 * one core of an Intel Xeon, and two to three times that with every belt
 * reversible (docs/SPEED.md of the sources has them all). The archive that was
 * timed so was built by an older kit, rattle-kit-5b-plain. */
uint64_t vithmork_solve(uint64_t n, uint64_t q, uint64_t office,
                        const uint8_t *belts, size_t belts_len,
                        const uint8_t *pairs, size_t pairs_len,
                        const uint8_t *limits, size_t limits_len,
                        uint8_t *flow, size_t flow_len,
                        uint8_t *lengths, size_t lengths_len,
                        uint8_t *answer, size_t answer_len,
                        uint8_t *counts, size_t counts_len);

/* Solves one floor as vithmork_solve does, and says for contracts how many whole totes
 * an hour each pair carries. All that is said above holds of this call too: what it
 * takes, writes, refuses and returns, and of threads. Beside that:
 *
 *   totes   written: two numbers for each pair, in order: the whole totes an hour in
 *           its scaled amount, and the exact remainder, in parts of a tote of which
 *           LOAD make one. A pair's amount is what leaves its source less what
 *           enters it (vithmork_pair_total), before the scale:
 *
 *               amount * CAPACITY = whole * LOAD + remainder, remainder < LOAD
 *
 *           Both are 0 for a pair that carries nothing, so for each pair of an
 *           unjoined floor. Room for fewer than 2k numbers is refusal 5
 *
 * The whole totes of all pairs are together at most the total carried, and more than
 * the total less k: each pair loses less than one. What belts carry is not rounded,
 * since rounded belts no longer balance at the stations. */
uint64_t vithmork_whole(uint64_t n, uint64_t q, uint64_t office,
                        const uint8_t *belts, size_t belts_len,
                        const uint8_t *pairs, size_t pairs_len,
                        const uint8_t *limits, size_t limits_len,
                        uint8_t *flow, size_t flow_len,
                        uint8_t *lengths, size_t lengths_len,
                        uint8_t *answer, size_t answer_len,
                        uint8_t *counts, size_t counts_len,
                        uint8_t *totes, size_t totes_len);

/* Solves the floors of a site as if each were sent by vithmork_solve, one after the other
 * in the list's order: every table and count is left as those calls would leave it. All
 * that is said there holds of each floor and its parts, and of threads. The arguments:
 *
 *   office  pays for all floors
 *   floors  1 to 16 items: n, q, and how many numbers of belts, pairs, limits, flow and
 *           lengths are the floor's own (places above). Parts follow each other in floor
 *           order: one begins where that of the floor before ended, turned down or not,
 *           and stops at the last whole number of its slice. A size beyond that,
 *           however large, takes what is left, and later floors have none of the slice
 *   belts, pairs, limits, flow, lengths
 *           those of all floors, in each part as for one. An incomplete last item of a
 *           part is not read, and the next floor's part begins behind it
 *   answers written: eight numbers for each floor, what its own call would return and
 *           its answer's seven
 *   counts  one table for all floors: the office's count goes on from floor to floor,
 *           and where it passes 2^63 the later floors are refused for it
 *
 * Returns 0, also where floors were turned down: such a floor has its refusal as the
 * first of its eight numbers, keeps the other seven and its parts of flow and lengths,
 * and the rest go on. The call itself refuses a list of no floors or more than 16 as 13,
 * and then room for fewer than eight numbers a floor as 5, before it looks at any of
 * them; this changes no byte. A short table of counts and a bad office are no refusal of
 * the site: each floor's own answer says so.
 *
 * No two floors share a byte of what is written; the counts table is shared, and goes on
 * from floor to floor. The slices must not overlap here either. The call takes as long
 * as those of its floors together. */
uint64_t vithmork_site(uint64_t office, const uint8_t *floors, size_t floors_len,
                       const uint8_t *belts, size_t belts_len,
                       const uint8_t *pairs, size_t pairs_len,
                       const uint8_t *limits, size_t limits_len,
                       uint8_t *flow, size_t flow_len,
                       uint8_t *lengths, size_t lengths_len,
                       uint8_t *answers, size_t answers_len,
                       uint8_t *counts, size_t counts_len);

/* The pointer to lend with a length of 0: not null, and never read or written. */
#define VITHMORK_ABSENT ((uint8_t *)"")

/* What a call returned, taken apart. Places count from 1; 0 where none is meant. */
typedef struct {
    unsigned number;
    unsigned place;
} vithmork_refusal;

static inline vithmork_refusal vithmork_refused(uint64_t returned)
{
    vithmork_refusal refusal;
    refusal.number = (unsigned)(returned / 1000);
    refusal.place = (unsigned)(returned % 1000);
    return refusal;
}

/* The trade's word for a refusal's number, to print beside it. */
static inline const char *vithmork_word(unsigned number)
{
    switch (number) {
    case VITHMORK_ACCEPTED: return "accepted";
    case VITHMORK_REFUSED_STATIONS: return "stations";
    case VITHMORK_REFUSED_BELTS: return "belts";
    case VITHMORK_REFUSED_PAIRS: return "pairs";
    case VITHMORK_REFUSED_PRECISION: return "precision";
    case VITHMORK_REFUSED_SHORT_TABLE: return "short table";
    case VITHMORK_REFUSED_LOOSE_BELT: return "loose belt";
    case VITHMORK_REFUSED_CAPACITY: return "capacity";
    case VITHMORK_REFUSED_LOOSE_PAIR: return "loose pair";
    case VITHMORK_REFUSED_FULL_COUNT: return "full count";
    case VITHMORK_REFUSED_FLOORS: return "floors";
    case VITHMORK_REFUSED_LIMIT: return "limit";
    case VITHMORK_REFUSED_BELTS_AND_LIMITS: return "belts and limits";
    case VITHMORK_REFUSED_OFFICE: return "office";
    default: return "unknown";
    }
}

/* The number at a place, from 0, of a table: right whatever the host's byte order. */
static inline uint64_t vithmork_get(const uint8_t *table, size_t place)
{
    uint64_t number = 0;
    for (size_t i = VITHMORK_NUMBER_BYTES; i > 0; i--)
        number = number << 8 | table[place * VITHMORK_NUMBER_BYTES + i - 1];
    return number;
}

/* The same of the flow table, whose amounts are signed. */
static inline int64_t vithmork_get_signed(const uint8_t *table, size_t place)
{
    uint64_t number = vithmork_get(table, place);
    return number <= INT64_MAX ? (int64_t)number : -(int64_t)(UINT64_MAX - number) - 1;
}

/* How much an amount is, whichever way it runs: the sizes of all pairs' amounts
 * on a belt, scaled, are together within its capacity. */
static inline uint64_t vithmork_size(int64_t amount)
{
    return amount < 0 ? (uint64_t)-(amount + 1) + 1 : (uint64_t)amount;
}

static inline void vithmork_put(uint8_t *table, size_t place, uint64_t number)
{
    for (size_t i = 0; i < VITHMORK_NUMBER_BYTES; i++)
        table[place * VITHMORK_NUMBER_BYTES + i] = (uint8_t)(number >> 8 * i);
}

/* Belt e, from 0, written into its slice: with any mark, from tail to head alone,
 * and reversible. */
static inline void vithmork_put_marked_belt(uint8_t *belts, size_t e, uint64_t tail,
                                            uint64_t head, uint64_t capacity, uint64_t mark)
{
    uint8_t *item = belts + VITHMORK_BELTS_BYTES(e);
    vithmork_put(item, 0, tail);
    vithmork_put(item, 1, head);
    vithmork_put(item, 2, capacity);
    vithmork_put(item, 3, mark);
}

static inline void vithmork_put_belt(uint8_t *belts, size_t e, uint64_t tail, uint64_t head,
                                     uint64_t capacity)
{
    vithmork_put_marked_belt(belts, e, tail, head, capacity, 0);
}

static inline void vithmork_put_reversible_belt(uint8_t *belts, size_t e, uint64_t tail,
                                                uint64_t head, uint64_t capacity)
{
    vithmork_put_marked_belt(belts, e, tail, head, capacity, 1);
}

/* Pair p, from 0. */
static inline void vithmork_put_pair(uint8_t *pairs, size_t p, uint64_t source, uint64_t sink)
{
    uint8_t *item = pairs + VITHMORK_PAIRS_BYTES(p);
    vithmork_put(item, 0, source);
    vithmork_put(item, 1, sink);
}

/* The limit of a station, which is numbered from 1. */
static inline void vithmork_put_limit(uint8_t *limits, size_t station, uint64_t limit)
{
    vithmork_put(limits, station - 1, limit);
}

/* How many of n stations have a limit: r is m and so many. */
static inline size_t vithmork_limited(const uint8_t *limits, size_t limits_len, size_t n)
{
    size_t limited = 0;
    for (size_t i = 0; i < n && i < limits_len / VITHMORK_NUMBER_BYTES; i++)
        if (vithmork_get(limits, i) != 0)
            limited++;
    return limited;
}

/* Floor f, from 0, of a site's list, with the sizes of its parts in numbers. */
static inline void vithmork_put_floor(uint8_t *floors, size_t f, uint64_t n, uint64_t q,
                                      uint64_t belts, uint64_t pairs, uint64_t limits,
                                      uint64_t flow, uint64_t lengths)
{
    uint8_t *item = floors + VITHMORK_FLOORS_BYTES(f);
    vithmork_put(item, VITHMORK_FLOOR_STATIONS, n);
    vithmork_put(item, VITHMORK_FLOOR_PRECISION, q);
    vithmork_put(item, VITHMORK_FLOOR_BELTS, belts);
    vithmork_put(item, VITHMORK_FLOOR_PAIRS, pairs);
    vithmork_put(item, VITHMORK_FLOOR_LIMITS, limits);
    vithmork_put(item, VITHMORK_FLOOR_FLOW, flow);
    vithmork_put(item, VITHMORK_FLOOR_LENGTHS, lengths);
}

/* The same for a floor of m belts, k pairs, so many numbers of limits and r lengths,
 * each of whose parts is just large enough. */
static inline void vithmork_put_fitted_floor(uint8_t *floors, size_t f, uint64_t n, uint64_t q,
                                             uint64_t m, uint64_t k, uint64_t limits,
                                             uint64_t r)
{
    vithmork_put_floor(floors, f, n, q, m * VITHMORK_BELT_NUMBERS, k * VITHMORK_PAIR_NUMBERS,
                       limits, k * m, r);
}

/* How many bytes of a slice stand before floor f's part of it; the slice is named by its
 * place in an item. flow + vithmork_floor_begin(floors, f, VITHMORK_FLOOR_FLOW) is the
 * floor's own flow, for all that reads one. Parts before it must lie in the slice: sizes
 * beyond its end are added up here, and not cut. */
static inline size_t vithmork_floor_begin(const uint8_t *floors, size_t f, size_t place)
{
    size_t numbers = 0;
    for (size_t i = 0; i < f; i++)
        numbers += (size_t)vithmork_get(floors, i * VITHMORK_FLOOR_NUMBERS + place);
    return numbers * VITHMORK_NUMBER_BYTES;
}

/* What vithmork_site wrote of floor f: what its own call would return; and its answer, for
 * all that reads one. Unless that is 0, the answer is what stood there before. */
static inline uint64_t vithmork_floor_returned(const uint8_t *answers, size_t f)
{
    return vithmork_get(answers, f * VITHMORK_FLOOR_ANSWER_NUMBERS);
}

static inline const uint8_t *vithmork_floor_answer(const uint8_t *answers, size_t f)
{
    return answers + VITHMORK_ANSWERS_BYTES(f) + VITHMORK_NUMBER_BYTES;
}

/* The running count of an office, which is numbered from 1: read, and set. */
static inline uint64_t vithmork_count(const uint8_t *counts, size_t office)
{
    return vithmork_get(counts, office - 1);
}

static inline void vithmork_put_count(uint8_t *counts, size_t office, uint64_t number)
{
    vithmork_put(counts, office - 1, number);
}

/* What pair p, from 0, of a floor of m belts carries by itself: what leaves its
 * source less what enters it, which is never negative. To be scaled, as an
 * amount of the flow table is. Unsigned sums wrap, so negative amounts count
 * right. */
static inline uint64_t vithmork_pair_total(const uint8_t *belts, size_t m, const uint8_t *pairs,
                                           size_t p, const uint8_t *flow)
{
    uint64_t source = vithmork_get(pairs, p * VITHMORK_PAIR_NUMBERS);
    uint64_t total = 0;
    for (size_t e = 0; e < m; e++) {
        uint64_t amount = vithmork_get(flow, p * m + e);
        if (vithmork_get(belts, e * VITHMORK_BELT_NUMBERS) == source)
            total += amount;
        if (vithmork_get(belts, e * VITHMORK_BELT_NUMBERS + 1) == source)
            total -= amount;
    }
    return total;
}

/* What vithmork_whole wrote of pair p, from 0: its whole totes an hour, and the
 * remainder over LOAD. */
static inline uint64_t vithmork_pair_whole(const uint8_t *totes, size_t p)
{
    return vithmork_get(totes, VITHMORK_TOTES_NUMBERS(p));
}

static inline uint64_t vithmork_pair_remainder(const uint8_t *totes, size_t p)
{
    return vithmork_get(totes, VITHMORK_TOTES_NUMBERS(p) + 1);
}

/* What pair p, from 0, of a floor of m belts uses of a station: the larger of what
 * it brings in and what it takes out. Scaled, the uses of all pairs are together
 * within the station's limit. */
static inline uint64_t vithmork_station_use(const uint8_t *belts, size_t m, size_t p,
                                            const uint8_t *flow, uint64_t station)
{
    uint64_t in = 0, out = 0;
    for (size_t e = 0; e < m; e++) {
        int64_t amount = vithmork_get_signed(flow, p * m + e);
        uint64_t tail = vithmork_get(belts, e * VITHMORK_BELT_NUMBERS);
        uint64_t head = vithmork_get(belts, e * VITHMORK_BELT_NUMBERS + 1);
        if (station == (amount < 0 ? head : tail))
            out += vithmork_size(amount);
        if (station == (amount < 0 ? tail : head))
            in += vithmork_size(amount);
    }
    return in < out ? out : in;
}

/* The next four functions are for printing. They give thousandths of a tote an hour as
 * whole numbers, exactly: 1138425 is 1138.425. Amounts and the total are rounded down, since
 * a total rounded up promises what the plan does not carry. The bound is rounded up, since
 * rounded down it is no bound. printf("%.3f", thousandths / 1000.0) prints the same digits. */

/* The size of an amount of the flow table, or of a sum that is at most DRAWN, times the
 * scale and rounded down. The product with CAPACITY is below 2^64, but 1000 times that need
 * not be: so the whole totes and the remainder are multiplied apart. */
static inline uint64_t vithmork_thousandths(const uint8_t *answer, uint64_t amount)
{
    uint64_t parts = amount * vithmork_get(answer, VITHMORK_SCALE_CAPACITY);
    uint64_t load = vithmork_get(answer, VITHMORK_SCALE_LOAD);
    return parts / load * 1000 + parts % load * 1000 / load;
}

/* The same of an amount with its sign: its size is rounded down. */
static inline int64_t vithmork_thousandths_signed(const uint8_t *answer, int64_t amount)
{
    int64_t size = (int64_t)vithmork_thousandths(answer, vithmork_size(amount));
    return amount < 0 ? -size : size;
}

/* The total carried, rounded down. */
static inline uint64_t vithmork_total_thousandths(const uint8_t *answer)
{
    return vithmork_thousandths(answer, vithmork_get(answer, VITHMORK_DRAWN));
}

/* The bound, rounded up. D and ALPHA are below 2^58, so ten times a remainder fits, and
 * the three digits are found one by one. */
static inline uint64_t vithmork_bound_thousandths(const uint8_t *answer)
{
    uint64_t alpha = vithmork_get(answer, VITHMORK_BOUND_ALPHA);
    uint64_t quotient = vithmork_get(answer, VITHMORK_BOUND_D) / alpha;
    uint64_t remainder = vithmork_get(answer, VITHMORK_BOUND_D) % alpha;
    for (int digit = 0; digit < 3; digit++) {
        quotient = quotient * 10 + remainder * 10 / alpha;
        remainder = remainder * 10 % alpha;
    }
    return remainder == 0 ? quotient : quotient + 1;
}

/* The size of an amount of the flow table, or the sum of some, in totes an hour:
 * times the scale, and rounded as a double is, which may be up. The exact fraction is
 * in the answer. */
static inline double vithmork_scaled(const uint8_t *answer, uint64_t amount)
{
    return (double)(amount * vithmork_get(answer, VITHMORK_SCALE_CAPACITY)) /
           (double)vithmork_get(answer, VITHMORK_SCALE_LOAD);
}

/* The same of an amount with its sign. */
static inline double vithmork_scaled_signed(const uint8_t *answer, int64_t amount)
{
    double size = vithmork_scaled(answer, vithmork_size(amount));
    return amount < 0 ? -size : size;
}

/* The bound in totes an hour, rounded as a double is, which may be down. */
static inline double vithmork_bound(const uint8_t *answer)
{
    return (double)vithmork_get(answer, VITHMORK_BOUND_D) /
           (double)vithmork_get(answer, VITHMORK_BOUND_ALPHA);
}

#ifdef __cplusplus
}
#endif

#endif
