/* The measuring program that ./bench runs and whose lines benchmark/report.py reads.
 *
 *   agree ROUNDS     compares both sides; the exit status is 1 if they differ
 *   facts            INPUT shape columns pieces bounds route: the size of each input and what the library answers,
 *                    number and value
 *   time SECONDS     TIME operation shape columns nanoseconds of Rattle, of C and, where there is one, of the pairwise
 *                    version, else 0; about so many seconds each; then GROWTH, with the same fields, on 64 to 512
 *                    columns
 *   count            COUNT operation shape side, in the order of the calls of `measured`: one call each, for
 *                    valgrind to count
 *   one SIDE OPERATION SHAPE REPEATS
 *                    calls one operation and prints nothing, for a profiler
 */
#include <inttypes.h>
#include <stdio.h>
#include <stdlib.h>
#include <string.h>

#include "agree.h"
#include "inputs.h"
#include "measure.h"

static struct input input;
static struct lent lent;

static void print_answer(uint64_t answer)
{
    printf(" %" PRIu64 " %" PRIu64, answer >> 32, answer & UINT32_MAX);
}

static int facts(void)
{
    for (enum shape shape = 0; shape < SHAPES; shape++) {
        make_input(shape, 512, &input);
        printf("INPUT %s %zu %zu", shape_names[shape], input.top_length, pieces_of(&input));
        lend(&lent, &input);
        print_answer(call(RATTLE, BOUNDS, &input, &lent));
        print_answer(call(RATTLE, ROUTE, &input, &lent));
        putchar('\n');
    }
    return 0;
}

static void print_time(const char *word, enum operation operation, enum shape shape, size_t columns,
                       const double medians[PAIRWISE], double pairwise)
{
    printf("%s %s %s %zu %.1f %.1f %.1f\n", word, operation_names[operation], shape_names[shape], columns,
           medians[RATTLE], medians[PLAIN_C], pairwise);
}

/* Times an operation on four widths by turns. */
static void time_growth(enum operation operation, enum shape shape, double seconds)
{
    static struct input inputs[SERIES];
    double medians[SERIES][PAIRWISE];
    for (size_t k = 0; k < SERIES; k++)
        make_input(shape, (size_t)64 << k, &inputs[k]);
    measure(operation, inputs, SERIES, seconds, medians);
    for (size_t k = 0; k < SERIES; k++)
        print_time("GROWTH", operation, shape, inputs[k].top_length, medians[k],
                   sides_of(operation) > PAIRWISE ? measure_pairwise(operation, &inputs[k]) : 0);
}

static int time_all(double seconds)
{
    for (enum operation operation = 0; operation < MEASURED; operation++)
        for (enum shape shape = 0; shape < SHAPES; shape++)
            if (measured_on(operation, shape)) {
                double medians[1][PAIRWISE];
                make_input(shape, 512, &input);
                measure(operation, &input, 1, seconds, medians);
                print_time("TIME", operation, shape, input.top_length, medians[0],
                           sides_of(operation) > PAIRWISE ? measure_pairwise(operation, &input) : 0);
            }
    for (enum operation operation = BOUNDS; operation < MEASURED; operation++) {
        time_growth(operation, DENSE, SERIES * seconds);
        time_growth(operation, FULLEST, SERIES * seconds);
    }
    return 0;
}

static int count_all(void)
{
    for (enum operation operation = 0; operation < MEASURED; operation++)
        for (enum shape shape = 0; shape < SHAPES; shape++)
            if (measured_on(operation, shape)) {
                make_input(shape, 512, &input);
                for (enum side side = 0; side < PAIRWISE; side++) {
                    lend(&lent, &input);
                    call(side, operation, &input, &lent); /* so that finding the C library's functions is not counted */
                    measured(side, operation, &input, &lent);
                    printf("COUNT %s %s %s\n", operation_names[operation], shape_names[shape], side_names[side]);
                }
            }
    return 0;
}

/* The place of a name in a list, or its length. */
static int named(const char *name, const char *const *names, int length)
{
    int i = 0;
    while (i < length && strcmp(name, names[i]) != 0)
        i++;
    return i;
}

static int repeat_one(char **words)
{
    int side = named(words[0], side_names, SIDES), operation = named(words[1], operation_names, OPERATIONS);
    int shape = named(words[2], shape_names, SHAPES);
    if (side == SIDES || operation == OPERATIONS || shape == SHAPES) {
        fprintf(stderr, "measure: no such side, operation or shape\n");
        return 2;
    }
    if (side >= (int)sides_of((enum operation)operation)) {
        fprintf(stderr, "measure: that side has no such operation\n");
        return 2;
    }
    make_input((enum shape)shape, 512, &input);
    lend(&lent, &input);
    for (unsigned long i = strtoul(words[3], NULL, 10); i > 0; i--)
        measured((enum side)side, (enum operation)operation, &input, &lent);
    return 0;
}

int main(int argc, char **argv)
{
    if (argc == 3 && strcmp(argv[1], "agree") == 0)
        return agree(strtoul(argv[2], NULL, 10)) ? 0 : 1;
    if (argc == 2 && strcmp(argv[1], "facts") == 0)
        return facts();
    if (argc == 3 && strcmp(argv[1], "time") == 0)
        return time_all(strtod(argv[2], NULL));
    if (argc == 2 && strcmp(argv[1], "count") == 0)
        return count_all();
    if (argc == 6 && strcmp(argv[1], "one") == 0)
        return repeat_one(argv + 2);
    fprintf(stderr, "usage: measure agree ROUNDS | facts | time SECONDS | count | one SIDE OPERATION SHAPE REPEATS\n");
    return 2;
}
