/* All sides on the same inputs: the answers and all lent memory but the scratch must be the same. */
#include "agree.h"

#include <inttypes.h>
#include <stdio.h>
#include <string.h>

#include "inputs.h"
#include "text.h"

static unsigned long calls, accepted, differing;
static struct lent lents[SIDES];

/* Compares one operation; `shorten` makes one of the lent buffers a place too short. */
static void compare(const char *name, enum operation operation, const struct input *in, bool shorten)
{
    uint64_t answers[SIDES];
    uint32_t which = shorten ? below(6) : 6;
    for (enum side side = 0; side < sides_of(operation); side++) {
        struct lent *lent = &lents[side];
        size_t *lengths[] = {&lent->top_length, &lent->bot_length, &lent->ring_length, &lent->board_length,
                             &lent->scratch_length, &lent->words_length};
        lend(lent, in);
        if (which < 6)
            --*lengths[which];
        answers[side] = call(side, operation, in, lent);
        memset(lent->scratch, 0, sizeof lent->scratch);
    }
    calls++;
    accepted += answers[RATTLE] >> 32 == 0;
    for (enum side side = PLAIN_C; side < sides_of(operation); side++) {
        if (answers[RATTLE] == answers[side] && memcmp(&lents[RATTLE], &lents[side], sizeof lents[RATTLE]) == 0)
            continue;
        differing++;
        printf("differs: %s of %s: rattle %" PRIx64 ", %s %" PRIx64 "\n", operation_names[operation], name,
               answers[RATTLE], side_names[side], answers[side]);
    }
}

static void compare_all(const char *name, const struct input *in, bool shorten)
{
    for (enum operation operation = 0; operation < OPERATIONS; operation++)
        compare(name, operation, in, shorten);
}

/* The measured shapes on fewer columns, so that numbers are left for parked pins: with the board of the shape, which
 * joins those pins to nets, and with the router's own. */
static void compare_parked(enum shape shape, struct input *in)
{
    char name[40];
    snprintf(name, sizeof name, "%s with parked pins", shape_names[shape]);
    for (uint32_t count = 1; count <= 64; count *= 4) {
        make_input(shape, 400, in);
        seed(count);
        park_pins(in, count);
        compare_all(name, in, false);
        write_shape(shape, in);
        draw_file(in);
        compare_all(name, in, false);
    }
}

/* 511 parked pins, the most that there can be, and no other. */
static void compare_only_parked(struct input *in)
{
    memset(in->top, 0, sizeof in->top);
    memset(in->bot, 0, sizeof in->bot);
    in->top_length = in->bot_length = ROW;
    for (uint32_t net = 1; net < 512; net++)
        (net % 2 ? in->top : in->bot)[net] = net;
    write_text(in);
    draw_file(in);
    compare_all("parked pins alone", in, false);
}

bool agree(unsigned long rounds)
{
    static struct input input;
    for (enum shape shape = 0; shape < SHAPES; shape++) {
        make_input(shape, 512, &input);
        compare_all(shape_names[shape], &input, false);
    }
    for (enum shape shape = 0; shape < SHAPES; shape++)
        compare_parked(shape, &input);
    compare_only_parked(&input);
    seed(2024);
    for (unsigned long i = 0; i < rounds; i++) {
        char name[40];
        snprintf(name, sizeof name, "random input %lu", i + 1);
        random_input(&input);
        compare_all(name, &input, below(30) == 0);
        crowd_file(&input);
        compare(name, JUDGE, &input, false);
        garble(&input);
        compare(name, READ, &input, false);
        damage_table(&input);
        compare(name, OWN_BLANK, &input, false);
        random_second(&input);
        compare(name, JOIN, &input, false);
        random_draft(&input);
        compare(name, DRAFT_ARRIVE, &input, false);
        compare(name, DRAFT_LEAVE, &input, false);
    }
    printf("%lu calls on the inputs below, with and without parked pins, and %lu random ones with second lists, "
           "tables of blanks and drafts, %lu of them accepted: %lu differ\n", calls, rounds, accepted, differing);
    return differing == 0;
}
