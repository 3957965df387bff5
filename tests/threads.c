/* Calls from several threads at once, each with tables of its own, that of the
 * counts among them, beside the same calls one after the other: every byte written
 * must be the same. Belts, pairs and limits are lent to all threads. Exits with 1 if
 * not. */
#define _POSIX_C_SOURCE 200112L
#include "drawn.h"

#include <pthread.h>
#include <stdio.h>

/* Large floors keep threads inside a call for long, small ones, each solved many
 * times, have calls begin and end beside each other often. */
enum { THREADS = 8, FLOORS = 16, OFTEN = 300 };

typedef struct {
    pthread_t thread;
    size_t first;
    outcome own;
    unsigned calls, differences;
} worker;

static floor_lent floors[FLOORS];
static outcome serial[FLOORS];
static worker workers[THREADS];
static pthread_barrier_t start;

static int large(size_t f)
{
    return f % 2 == 0;
}

/* By the three calls in turn, so that each runs beside the others. */
static void solve_one(size_t f, outcome *o)
{
    if (f / 2 % 3 == 0)
        by_solve(&floors[f], o);
    else if (f / 2 % 3 == 1)
        by_whole(&floors[f], sizeof o->totes, o);
    else
        by_site(&floors[f], o);
}

/* Draws the floors and solves each once; returns how many have a plan. The last
 * is refused, so that refusals too run beside plans. */
static unsigned alone(void)
{
    unsigned planned = 0;
    for (size_t f = 0; f < FLOORS; f++) {
        uint64_t office = f % VITHMORK_MAX_OFFICE + 1;
        if (large(f))
            draw_floor(&floors[f], STATIONS, BELTS, PAIRS, office);
        else
            draw_floor(&floors[f], SMALL_STATIONS, SMALL_BELTS, SMALL_PAIRS, office);
    }
    vithmork_put_belt(floors[FLOORS - 1].belts, 1, 2, 2, 1);
    for (size_t f = 0; f < FLOORS; f++) {
        solve_one(f, &serial[f]);
        planned += vithmork_get(serial[f].returned, 0) == VITHMORK_ACCEPTED &&
                   vithmork_get(serial[f].answer, VITHMORK_CHOICES) > 0;
    }
    return planned;
}

static void *work(void *given)
{
    worker *w = (worker *)given;
    pthread_barrier_wait(&start);
    for (size_t i = 0; i < FLOORS; i++) {
        size_t f = (w->first + i) % FLOORS, times = large(f) ? 1 : OFTEN;
        for (size_t t = 0; t < times; t++) {
            solve_one(f, &w->own);
            w->calls++;
            w->differences += memcmp(&w->own, &serial[f], sizeof w->own) != 0;
        }
    }
    return NULL;
}

int main(void)
{
    unsigned calls = 0, differences = 0;
    if (alone() != FLOORS - 1 || pthread_barrier_init(&start, NULL, THREADS) != 0) {
        printf("threads: the floors or the threads are not as they should be\n");
        return 1;
    }
    for (size_t t = 0; t < THREADS; t++) {
        workers[t].first = t / 2;
        if (pthread_create(&workers[t].thread, NULL, work, &workers[t]) != 0)
            return 1;
    }
    for (size_t t = 0; t < THREADS; t++) {
        pthread_join(workers[t].thread, NULL);
        calls += workers[t].calls;
        differences += workers[t].differences;
    }
    printf("threads: %u calls from %d threads, %u of them otherwise than alone\n", calls, THREADS,
           differences);
    return differences != 0;
}
