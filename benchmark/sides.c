/* One call site for each entry of either side. */
#include "sides.h"

#include <string.h>

#include "channel.h"
#include "plain.h"

const char *const operation_names[OPERATIONS] = {
    "read", "join", "draft-wide", "draft-short", "draft-count", "draft-greatest", "bounds", "route", "judge",
    "fewest-ring", "looks", "ceiling", "own-blank", "draft-clear", "draft-arrive", "draft-leave",
};
const char *const side_names[SIDES] = {"rattle", "c", "pairwise"};

static const struct {
    uint64_t (*read)(const uint8_t *, size_t, uint32_t *, size_t, uint32_t *, size_t);
    uint64_t (*join)(const uint32_t *, size_t, const uint32_t *, size_t, const uint32_t *, size_t, const uint32_t *,
                     size_t, uint32_t *, size_t, uint32_t *, size_t);
    uint64_t (*bounds)(const uint32_t *, size_t, const uint32_t *, size_t);
    uint64_t (*route)(const uint32_t *, size_t, const uint32_t *, size_t, uint32_t *, size_t, uint8_t *, size_t);
    uint64_t (*judge)(const uint32_t *, size_t, const uint32_t *, size_t, const uint8_t *, size_t, uint32_t *, size_t);
    uint64_t (*fewest_ring)(const uint32_t *, size_t, const uint32_t *, size_t, uint32_t *, size_t);
    uint64_t (*looks)(const uint32_t *, size_t, const uint32_t *, size_t);
    uint64_t (*ceiling)(const uint32_t *, size_t, const uint32_t *, size_t);
    uint64_t (*own_blank)(const uint32_t *, size_t, uint32_t);
    uint64_t (*draft_clear)(uint64_t *, size_t);
    uint64_t (*draft_arrive)(uint64_t *, size_t, uint32_t, uint32_t, uint32_t);
    uint64_t (*draft_leave)(uint64_t *, size_t, uint32_t);
    uint64_t (*draft_count)(const uint64_t *, size_t, uint32_t);
    uint64_t (*draft_greatest)(const uint64_t *, size_t);
} entries[SIDES] = {
    {cabjirt_read, cabjirt_join, cabjirt_bounds, cabjirt_route, cabjirt_judge, cabjirt_fewest_ring, cabjirt_looks,
     cabjirt_ceiling, cabjirt_own_blank, cabjirt_draft_clear, cabjirt_draft_arrive, cabjirt_draft_leave,
     cabjirt_draft_count, cabjirt_draft_greatest},
    {plain_read, plain_join, plain_bounds, plain_route, plain_judge, plain_fewest_ring, plain_looks, plain_ceiling,
     plain_own_blank, plain_draft_clear, plain_draft_arrive, plain_draft_leave, plain_draft_count,
     plain_draft_greatest},
    {.judge = plain_pairwise},
};

enum side sides_of(enum operation operation)
{
    return operation == JUDGE ? SIDES : PAIRWISE;
}

void lend(struct lent *lent, const struct input *in)
{
    memset(lent, 0xA5, sizeof *lent);
    memcpy(lent->words, in->draft, sizeof in->draft);
    lent->top_length = lent->bot_length = ROW;
    lent->ring_length = RING;
    lent->board_length = BOARD;
    lent->scratch_length = SCRATCH;
    lent->words_length = DRAFT;
}

/* A net leaves the draft and arrives again; the first refusal, or 0. */
static uint64_t go_and_come(enum side side, struct lent *lent, uint32_t number, uint32_t first, uint32_t last)
{
    uint64_t gone = entries[side].draft_leave(lent->words, lent->words_length, number);
    uint64_t come = entries[side].draft_arrive(lent->words, lent->words_length, number, first, last);
    return gone != 0 ? gone : come;
}

static uint64_t call_draft(enum side side, enum operation operation, const struct input *in, struct lent *lent)
{
    switch (operation) {
    case DRAFT_WIDE:
        return go_and_come(side, lent, 1, 1, ROW);
    case DRAFT_SHORT:
        return go_and_come(side, lent, 256, 256, 257);
    case DRAFT_COUNT:
        return entries[side].draft_count(lent->words, lent->words_length, in->first);
    case DRAFT_GREATEST:
        return entries[side].draft_greatest(lent->words, lent->words_length);
    case DRAFT_CLEAR:
        return entries[side].draft_clear(lent->words, lent->words_length);
    case DRAFT_ARRIVE:
        return entries[side].draft_arrive(lent->words, lent->words_length, in->number, in->first, in->last);
    default:
        return entries[side].draft_leave(lent->words, lent->words_length, in->number);
    }
}

uint64_t call(enum side side, enum operation operation, const struct input *in, struct lent *lent)
{
    switch (operation) {
    case READ:
        return entries[side].read(in->text, in->text_length, lent->top, lent->top_length, lent->bot, lent->bot_length);
    case JOIN:
        return entries[side].join(in->top, in->top_length, in->bot, in->bot_length, in->top2, in->top2_length, in->bot2,
                                  in->bot2_length, lent->top, lent->top_length, lent->bot, lent->bot_length);
    case BOUNDS:
        return entries[side].bounds(in->top, in->top_length, in->bot, in->bot_length);
    case ROUTE:
        return entries[side].route(in->top, in->top_length, in->bot, in->bot_length, lent->ring, lent->ring_length,
                                   lent->board, lent->board_length);
    case JUDGE:
        return entries[side].judge(in->top, in->top_length, in->bot, in->bot_length, in->file, in->file_length,
                                   lent->scratch, lent->scratch_length);
    case FEWEST_RING:
        return entries[side].fewest_ring(in->top, in->top_length, in->bot, in->bot_length, lent->ring,
                                         lent->ring_length);
    case LOOKS:
        return entries[side].looks(in->top, in->top_length, in->bot, in->bot_length);
    case CEILING:
        return entries[side].ceiling(in->top, in->top_length, in->bot, in->bot_length);
    case OWN_BLANK:
        return entries[side].own_blank(in->table, in->table_length, in->tracks);
    default:
        return call_draft(side, operation, in, lent);
    }
}
