/* Timing by turns: a slow spell of the machine hits both sides alike, and the median leaves it out. */
#define _POSIX_C_SOURCE 200809L
#include "measure.h"

#include <stdlib.h>
#include <time.h>

enum { FEWEST = 5, MOST = 1001 };

/* Long enough that reading the clock does not count. */
static const double BATCH_SECONDS = 200e-6;

__attribute__((noinline)) uint64_t measured(enum side side, enum operation operation, const struct input *input,
                                            struct lent *lent)
{
    return call(side, operation, input, lent);
}

/* The time that this process was on a processor. */
static double now(void)
{
    struct timespec t;
    clock_gettime(CLOCK_PROCESS_CPUTIME_ID, &t);
    return (double)t.tv_sec + (double)t.tv_nsec * 1e-9;
}

/* The seconds that so many calls take. */
static double batch(enum side side, enum operation operation, const struct input *input, size_t repeats)
{
    static struct lent lent;
    lend(&lent, input);
    measured(side, operation, input, &lent);
    double start = now();
    for (size_t i = 0; i < repeats; i++)
        measured(side, operation, input, &lent);
    return now() - start;
}

static int rising(const void *a, const void *b)
{
    double x = *(const double *)a, y = *(const double *)b;
    return (x > y) - (x < y);
}

/* How many calls make a batch; *once gets the seconds that it takes. */
static size_t batch_size(enum operation operation, const struct input *input, double *once)
{
    size_t repeats = 1;
    while ((*once = batch(PLAIN_C, operation, input, repeats)) < BATCH_SECONDS)
        repeats *= 2;
    return repeats;
}

void measure(enum operation operation, const struct input *inputs, size_t count, double seconds,
             double medians[][PAIRWISE])
{
    static double times[SERIES][PAIRWISE][MOST];
    size_t repeats[SERIES];
    double turn = 0, once;
    for (size_t k = 0; k < count; k++) {
        repeats[k] = batch_size(operation, &inputs[k], &once);
        turn += PAIRWISE * once;
    }
    double wanted = seconds / turn;
    size_t rounds = wanted < FEWEST ? FEWEST : wanted > MOST ? MOST : (size_t)wanted;
    for (size_t i = 0; i < rounds; i++)
        for (size_t k = 0; k < count; k++)
            for (enum side side = 0; side < PAIRWISE; side++)
                times[k][side][i] = batch(side, operation, &inputs[k], repeats[k]);
    for (size_t k = 0; k < count; k++)
        for (enum side side = 0; side < PAIRWISE; side++) {
            qsort(times[k][side], rounds, sizeof(double), rising);
            medians[k][side] = times[k][side][rounds / 2] / (double)repeats[k] * 1e9;
        }
}

double measure_pairwise(enum operation operation, const struct input *input)
{
    double times[FEWEST];
    for (size_t i = 0; i < FEWEST; i++)
        times[i] = batch(PAIRWISE, operation, input, 1);
    qsort(times, FEWEST, sizeof(double), rising);
    return times[FEWEST / 2] * 1e9;
}
