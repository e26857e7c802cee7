/* Calls each entry of channel.h with good, short and empty buffers, and says what differs. */
#include <stdio.h>
#include <string.h>

#include "channel.h"

static int failed, passed;

static void expect(const char *what, uint64_t got, uint32_t number, uint32_t value)
{
    uint64_t due = (uint64_t)number << 32 | value;
    if (got == due) {
        passed++;
        return;
    }
    failed++;
    printf("%s: got %u %u, due %u %u\n", what, cabjirt_number(got), cabjirt_value(got), number, value);
}

static void expect_same(const char *what, const void *a, const void *b, size_t n)
{
    if (memcmp(a, b, n) == 0) {
        passed++;
        return;
    }
    failed++;
    printf("%s: differs\n", what);
}

static uint32_t top[CABJIRT_ROW], bot[CABJIRT_ROW], ring[CABJIRT_RING + 2], scratch[CABJIRT_SCRATCH];
static uint32_t before[CABJIRT_RING + 2];
static uint8_t board[CABJIRT_BOARD + 2], untouched[CABJIRT_BOARD + 2];

static uint64_t read_text(const char *text)
{
    return cabjirt_read((const uint8_t *)text, strlen(text), top, CABJIRT_ROW, bot, CABJIRT_ROW);
}

static void reading(void)
{
    uint32_t same[CABJIRT_ROW];
    memset(top, 0xAA, sizeof top);
    memset(bot, 0xAA, sizeof bot);
    memcpy(same, top, sizeof same);
    expect("garbled", read_text("TOP 01"), 2, 5);
    expect("garbled, a carriage return alone", read_text("TOP 1\rBOT 1\r"), 2, 6);
    expect("garbled, spaces before a line end", read_text("TOP 1  \r\nBOT 1\r\n"), 2, 7);
    expect("garbled, a tab", read_text("TOP\t1\nBOT 1\n"), 2, 3);
    expect("garbled, empty", cabjirt_read(NULL, 0, top, CABJIRT_ROW, bot, CABJIRT_ROW), 2, 0);
    expect("short row", cabjirt_read((const uint8_t *)"TOP 0\nBOT 0\n", 12, top, 511, bot, CABJIRT_ROW), 1, 512);
    expect("no rows", cabjirt_read((const uint8_t *)"TOP 0\nBOT 0\n", 12, NULL, 0, NULL, 0), 1, 512);
    expect("high net", read_text("TOP 1 0\nBOT 0 512\n"), 5, 4);
    expect_same("rows after a refusal", top, same, sizeof same);
    expect("a padded list", read_text("TOP   3   2   1   0\r\nBOT  3 0 2   1\n"), 0, 4);
    expect_same("TOP of the padded list", top, (const uint32_t[]){3, 2, 1, 0}, 4 * sizeof *top);
    expect_same("BOT of the padded list", bot, (const uint32_t[]){3, 0, 2, 1}, 4 * sizeof *bot);
    expect("example A", read_text("TOP 0 1 2 3\nBOT 1 2 0 3\n"), 0, 4);
    expect_same("TOP of A", top, (const uint32_t[]){0, 1, 2, 3}, 4 * sizeof *top);
    expect_same("BOT of A", bot, (const uint32_t[]){1, 2, 0, 3}, 4 * sizeof *bot);
    expect_same("the rest of TOP", top + 4, same + 4, sizeof same - 4 * sizeof *same);
}

static void routing(void)
{
    static const uint8_t begins[] = {0x01, 0x00, 0x40, 0x16, 0x00, 0x20, 0x04, 0x02};
    static const uint32_t over[] = {1, 2}, under[] = {2, 1}, pairs[] = {1, 1, 2, 2};
    memset(board, 0x55, sizeof board);
    memset(untouched, 0x55, sizeof untouched);
    memset(ring, 0x55, sizeof ring);
    memset(before, 0x55, sizeof before);
    expect("bounds of A", cabjirt_bounds(top, 4, bot, 4), 0, 2 * 65536 + 2);
    expect("bounds, empty", cabjirt_bounds(NULL, 0, NULL, 0), 4, 1);
    expect("short ring", cabjirt_route(top, 4, bot, 4, ring, CABJIRT_RING - 1, board, CABJIRT_BOARD), 1, CABJIRT_RING);
    expect("no ring", cabjirt_route(top, 4, bot, 4, NULL, 0, NULL, 0), 1, CABJIRT_RING);
    expect("short board", cabjirt_route(top, 4, bot, 4, ring, CABJIRT_RING, board, CABJIRT_BOARD - 1), 1,
           CABJIRT_BOARD);
    expect("uneven", cabjirt_route(top, 4, bot, 3, ring, CABJIRT_RING, board, CABJIRT_BOARD), 4, 4);
    expect("tangled", cabjirt_route(over, 2, under, 2, ring, CABJIRT_RING, board, CABJIRT_BOARD), 7, 2);
    expect_same("the ring of C", ring, pairs, sizeof pairs);
    expect_same("the rest of the ring", ring + 4, before + 4, sizeof before - 4 * sizeof *before);
    expect_same("board after refusals", board, untouched, sizeof board);
    memset(ring, 0x55, sizeof ring);
    expect("route A", cabjirt_route(top, 4, bot, 4, ring, CABJIRT_RING, board, CABJIRT_BOARD), 0, 11 * 65536 + 2);
    expect_same("the file of A", board, begins, sizeof begins);
    expect_same("the rest of the board", board + 48, untouched + 48, sizeof board - 48);
    expect_same("the ring after a success", ring, before, sizeof ring);
    expect("bounds of C", cabjirt_bounds(over, 2, under, 2), 0, 2 * 65536);
}

static void judging(void)
{
    uint8_t file[48];
    memcpy(file, board, sizeof file);
    expect("judge A", cabjirt_judge(top, 4, bot, 4, file, 48, scratch, CABJIRT_SCRATCH), 0, 2);
    expect("short scratch", cabjirt_judge(top, 4, bot, 4, file, 48, scratch, CABJIRT_SCRATCH - 1), 1, CABJIRT_SCRATCH);
    expect("no scratch", cabjirt_judge(top, 4, bot, 4, file, 48, NULL, 0), 1, CABJIRT_SCRATCH);
    expect("torn", cabjirt_judge(top, 4, bot, 4, file, 47, scratch, CABJIRT_SCRATCH), 8, 48);
    expect("no file", cabjirt_judge(top, 4, bot, 4, NULL, 0, scratch, CABJIRT_SCRATCH), 8, 4);
    expect("wrong board", cabjirt_judge(top, 1, top, 1, file, 48, scratch, CABJIRT_SCRATCH), 10, 4);
    memmove(file + 32, file + 36, 12); /* example H: the 8th piece is left out */
    file[3] = 20;
    expect("open", cabjirt_judge(top, 4, bot, 4, file, 44, scratch, CABJIRT_SCRATCH), 12, 6);
}

static uint64_t route_rows(const uint32_t *over, const uint32_t *under, size_t width)
{
    return cabjirt_route(over, width, under, width, ring, CABJIRT_RING, board, CABJIRT_BOARD);
}

static uint64_t judge_file(const uint32_t *over, const uint32_t *under, size_t width, const uint8_t *file,
                           size_t pieces)
{
    return cabjirt_judge(over, width, under, width, file, 4 + 4 * pieces, scratch, CABJIRT_SCRATCH);
}

/* A pin whose number stands nowhere else gets no copper; to the judge it is a net of its own. */
static void parking(void)
{
    static const uint32_t over[] = {1, 1, 3}, under[] = {2, 0, 0}, ringed[] = {1, 2, 3}, below[] = {2, 1, 0};
    static const uint8_t bare[] = {0x00, 0x80, 0x00, 0x00};
    static const uint8_t alone[] = {0x00, 0x80, 0x00, 0x02, 0x40, 0x10, 0x00, 0x01}; /* a branch in column 1 */
    expect("read L", read_text("TOP 1 0\nBOT 0 0\n"), 0, 2);
    expect("bounds of L", cabjirt_bounds(top, 2, bot, 2), 0, 0);
    expect("route L", route_rows(top, bot, 2), 0, 0);
    expect_same("the file of L", board, bare, sizeof bare);
    expect("judge L", judge_file(top, bot, 2, board, 0), 0, 0);
    expect("copper joined to a parked pin alone", judge_file(top, bot, 2, alone, 1), 0, 0);
    expect("bounds, parked opposite a net", cabjirt_bounds(over, 3, under, 3), 0, 65536 + 1);
    expect("route, parked opposite a net", route_rows(over, under, 3), 0, 5 * 65536 + 1);
    expect("judge, parked opposite a net", judge_file(over, under, 3, board, 5), 0, 1);
    board[10] = 0; /* piece 2, the branch of column 1 in rows 1 to 2, now begins in row 0, at the parked pin */
    expect("short to a parked pin", judge_file(over, under, 3, board, 5), 11, 4);
    expect("tangled, one pin parked", route_rows(ringed, below, 3), 7, 2);
    expect_same("its ring", ring, (const uint32_t[]){1, 1, 2, 2}, 4 * sizeof *ring);
}

static void expect_looks(const char *what, const char *text, uint32_t looks, uint32_t ceiling)
{
    size_t width = cabjirt_value(read_text(text));
    expect(what, cabjirt_looks(top, width, bot, width), 0, looks);
    expect(what, cabjirt_ceiling(top, width, bot, width), 0, ceiling);
}

/* Looks and ceiling of rows of these lengths, BOT with a high number in column 2. */
static void expect_no_looks(const char *what, size_t top_length, size_t bot_length, uint32_t number, uint32_t place)
{
    static const uint32_t over[CABJIRT_ROW + 1], under[CABJIRT_ROW + 1] = {0, 512};
    expect(what, cabjirt_looks(over, top_length, under, bot_length), number, place);
    expect(what, cabjirt_ceiling(over, top_length, under, bot_length), number, place);
}

/* The chain of 511 nets, each above the next, takes the most looks that there are. */
static void looking_down_a_chain(void)
{
    uint32_t over[CABJIRT_ROW] = {1}, under[CABJIRT_ROW] = {0};
    for (uint32_t i = 1; i < CABJIRT_ROW; i++) {
        over[i] = i < 511 ? i : 0;
        under[i] = i < 511 ? i + 1 : 511;
    }
    expect("looks of a chain", cabjirt_looks(over, CABJIRT_ROW, under, CABJIRT_ROW), 0, 130816);
    expect("ceiling of a chain", cabjirt_ceiling(over, CABJIRT_ROW, under, CABJIRT_ROW), 0, 130816);
}

static void looking(void)
{
    expect_looks("looks and ceiling of B", "TOP 0 1 6 1 2 3 5\nBOT 6 3 5 4 0 2 4\n", 18, 21);
    expect_looks("looks and ceiling of C", "TOP 1 2\nBOT 2 1\n", 2, 3);
    expect_looks("looks and ceiling of D", "TOP 1 2 3 1\nBOT 2 3 2 0\n", 3, 6);
    expect_looks("looks and ceiling of E", "TOP 1 0 1 2 0 2\nBOT 0 3 0 0 3 0\n", 4, 6);
    expect_looks("looks, no net spans", "TOP 5 0 7\nBOT 5 0 0\n", 0, 0);
    expect_looks("looks, a ring above a track", "TOP 1 2 3 3\nBOT 2 1 0 0\n", 5, 6);
    expect_looks("looks, parked pins beside it", "TOP 4 1 2 3 3\nBOT 1 2 1 5 0\n", 5, 6);
    expect_no_looks("looks, too wide", CABJIRT_ROW + 1, 0, 3, CABJIRT_ROW + 1);
    expect_no_looks("looks, uneven", 3, 2, 4, 3);
    expect_no_looks("looks, high net", 2, 2, 5, 4);
    expect("looks, empty", cabjirt_looks(NULL, 0, NULL, 0), 4, 1);
    expect("ceiling, empty", cabjirt_ceiling(NULL, 0, NULL, 0), 4, 1);
    looking_down_a_chain();
}

/* The ring with the fewest nets of a list: its pairs, and what it leaves of the ring. */
static void expect_ring(const char *what, const char *text, const uint32_t *pairs, uint32_t count)
{
    uint32_t width = cabjirt_value(read_text(text));
    memset(ring, 0x55, sizeof ring);
    memset(before, 0x55, sizeof before);
    if (count != 0)
        memcpy(before, pairs, 2 * count * sizeof *pairs);
    expect(what, cabjirt_fewest_ring(top, width, bot, width, ring, CABJIRT_RING), 0, count);
    expect_same(what, ring, before, sizeof ring);
}

static void finding_rings(void)
{
    static const uint32_t over[] = {1, 2, 600}, under[] = {2, 1, 0};
    expect_ring("no ring in A", "TOP 0 1 2 3\nBOT 1 2 0 3\n", NULL, 0);
    expect_ring("the fewest of C", "TOP 1 2\nBOT 2 1\n", (const uint32_t[]){1, 1, 2, 2}, 2);
    expect_ring("the fewest of D", "TOP 1 2 3 1\nBOT 2 3 2 0\n", (const uint32_t[]){2, 2, 3, 3}, 2);
    expect_ring("fewer than the walk", "TOP 1 2 3 4 2\nBOT 2 3 4 1 1\n", (const uint32_t[]){1, 1, 2, 5}, 2);
    expect_ring("a tie by column", "TOP 1 1 2 2\nBOT 2 2 1 1\n", (const uint32_t[]){1, 1, 2, 3}, 2);
    expect_ring("a tie by net", "TOP 3 4 1 2\nBOT 4 3 2 1\n", (const uint32_t[]){1, 3, 2, 4}, 2);
    expect_ring("parked pins are on none", "TOP 1 2 3\nBOT 2 3 4\n", NULL, 0);
    memset(ring, 0x55, sizeof ring);
    memset(before, 0x55, sizeof before);
    expect("a short ring", cabjirt_fewest_ring(over, 2, under, 2, ring, CABJIRT_RING - 1), 1, CABJIRT_RING);
    expect("a short ring, high net", cabjirt_fewest_ring(over, 3, under, 3, NULL, 0), 1, CABJIRT_RING);
    expect("uneven", cabjirt_fewest_ring(over, 2, under, 1, ring, CABJIRT_RING), 4, 2);
    expect("high net", cabjirt_fewest_ring(over, 3, under, 3, ring, CABJIRT_RING), 5, 3);
    expect("no rows", cabjirt_fewest_ring(NULL, 0, NULL, 0, ring, CABJIRT_RING), 4, 1);
    expect_same("the ring after refusals", ring, before, sizeof ring);
}

/* The largest ring, of 511 nets. */
static void finding_the_largest(void)
{
    uint32_t over[511], under[511], pairs[CABJIRT_RING];
    for (uint32_t i = 0; i < 511; i++) {
        over[i] = pairs[2 * i] = pairs[2 * i + 1] = i + 1;
        under[i] = i < 510 ? i + 2 : 1;
    }
    expect("a ring of 511", cabjirt_fewest_ring(over, 511, under, 511, ring, CABJIRT_RING), 0, 511);
    expect_same("its pairs", ring, pairs, sizeof pairs);
}

/* A list for a panel; its rows may differ in length. */
struct list {
    const uint32_t *top, *bot;
    size_t top_length, bot_length;
};

static uint64_t join_into(struct list first, struct list second, uint32_t *over, size_t over_length, uint32_t *under,
                          size_t under_length)
{
    return cabjirt_join(first.top, first.top_length, first.bot, first.bot_length, second.top, second.top_length,
                        second.bot, second.bot_length, over, over_length, under, under_length);
}

/* Joins two lists into rows of one number more than is needed, all 0x55 before, and compares the whole of both. */
static void expect_join(const char *what, struct list first, struct list second, struct list due)
{
    uint32_t over[CABJIRT_ROW + 1], under[CABJIRT_ROW + 1], same[CABJIRT_ROW + 1];
    memset(over, 0x55, sizeof over);
    memset(under, 0x55, sizeof under);
    memset(same, 0x55, sizeof same);
    expect(what, join_into(first, second, over, CABJIRT_ROW + 1, under, CABJIRT_ROW + 1), 0, (uint32_t)due.top_length);
    expect_same(what, over, due.top, due.top_length * sizeof *over);
    expect_same(what, under, due.bot, due.bot_length * sizeof *under);
    expect_same(what, over + due.top_length, same, sizeof same - due.top_length * sizeof *over);
    expect_same(what, under + due.bot_length, same, sizeof same - due.bot_length * sizeof *under);
}

/* Joins two lists into rows that hold 0x55, which a refusal has to leave. */
static void expect_no_join(const char *what, struct list first, struct list second, uint32_t number, uint32_t place)
{
    uint32_t over[CABJIRT_ROW], under[CABJIRT_ROW], same[CABJIRT_ROW];
    memset(over, 0x55, sizeof over);
    memset(under, 0x55, sizeof under);
    memset(same, 0x55, sizeof same);
    expect(what, join_into(first, second, over, CABJIRT_ROW, under, CABJIRT_ROW), number, place);
    expect_same(what, over, same, sizeof same);
    expect_same(what, under, same, sizeof same);
}

/* A list of so many columns from two rows. */
static struct list list_of(const uint32_t *over, const uint32_t *under, size_t width)
{
    return (struct list){over, under, width, width};
}

static const uint32_t over_a[] = {0, 1, 2, 3}, under_a[] = {1, 2, 0, 3}, over_c[] = {1, 2}, under_c[] = {2, 1};
static const uint32_t none[CABJIRT_ROW + 1], five[] = {5}, far[] = {0, UINT32_MAX}, most[] = {511};

static void joining(void)
{
    struct list a = list_of(over_a, under_a, 4), c = list_of(over_c, under_c, 2), g = list_of(five, five, 1);
    struct list f = list_of(none, none, 1), high = list_of(most, most, 1);
    static const uint32_t parked[] = {1, 1, 9}, ten[] = {10};
    expect_join("A with A", a, a, list_of((const uint32_t[]){0, 1, 2, 3, 0, 4, 5, 6},
                                          (const uint32_t[]){1, 2, 0, 3, 4, 5, 0, 6}, 8));
    expect_join("A with C, which is tangled", a, c, list_of((const uint32_t[]){0, 1, 2, 3, 4, 5},
                                                            (const uint32_t[]){1, 2, 0, 3, 5, 4}, 6));
    expect_join("C with A", c, a, list_of((const uint32_t[]){1, 2, 0, 3, 4, 5},
                                          (const uint32_t[]){2, 1, 3, 4, 0, 5}, 6));
    expect_join("G with G, gaps", g, g, list_of((const uint32_t[]){5, 10}, (const uint32_t[]){5, 10}, 2));
    expect_join("no net in the first", f, c, list_of((const uint32_t[]){0, 1, 2}, (const uint32_t[]){0, 2, 1}, 3));
    expect_join("no net in the second", high, f, list_of((const uint32_t[]){511, 0}, (const uint32_t[]){511, 0}, 2));
    expect_join("the highest is parked", list_of(parked, none, 3), list_of(ten, ten, 1),
                list_of((const uint32_t[]){1, 1, 9, 19}, (const uint32_t[]){0, 0, 0, 19}, 4));
    expect_join("raised to 511", list_of((const uint32_t[]){501}, (const uint32_t[]){501}, 1), list_of(ten, none, 1),
                list_of((const uint32_t[]){501, 511}, (const uint32_t[]){501, 0}, 2));
    expect_join("512 columns", list_of(none, none, 512 - 4), list_of(none, none, 4), list_of(none, none, 512));
}

static void not_joining(void)
{
    static const uint32_t several[] = {9, 4, 1}, under[] = {7, 2, 3};
    struct list a = list_of(over_a, under_a, 4), c = list_of(over_c, under_c, 2), empty = {NULL, NULL, 0, 0};
    struct list high = list_of(most, most, 1), bad = list_of(none, far, 2), wide = list_of(none, none, 513);
    uint32_t over[CABJIRT_ROW], lower[CABJIRT_ROW], ones[CABJIRT_ROW];
    for (size_t i = 0; i < CABJIRT_ROW; i++)
        ones[i] = 1;
    expect("a short joined TOP", join_into(a, a, over, CABJIRT_ROW - 1, lower, CABJIRT_ROW), 1, CABJIRT_ROW);
    expect("a short joined BOT", join_into(a, a, over, CABJIRT_ROW, lower, CABJIRT_ROW - 1), 1, CABJIRT_ROW);
    expect("no joined rows", join_into(a, a, NULL, 0, NULL, 0), 1, CABJIRT_ROW);
    expect("no joined rows, and both refused", join_into(empty, wide, NULL, 0, NULL, 0), 1, CABJIRT_ROW);
    expect_no_join("an empty first", empty, a, 4, 1);
    expect_no_join("an empty second", a, empty, 4, 1);
    expect_no_join("both empty", empty, empty, 4, 1);
    expect_no_join("an uneven second", a, (struct list){over_a, under_a, 4, 3}, 4, 4);
    expect_no_join("no BOT in the second", a, (struct list){over_a, NULL, 4, 0}, 4, 1);
    expect_no_join("a high net in the first", bad, empty, 5, 4);
    expect_no_join("a high net in the second", high, bad, 5, 4);
    expect_no_join("a wide first", wide, bad, 3, 513);
    expect_no_join("a wide second", a, wide, 3, 513);
    expect_no_join("513 columns together", list_of(none, none, 511), c, 3, 513);
    expect_no_join("515 columns together", list_of(none, none, 511), a, 3, 513);
    expect_no_join("513 columns, and the second refused", list_of(none, none, 512), bad, 5, 4);
    expect_no_join("too wide and full", list_of(most, most, 1), list_of(ones, none, 512), 3, 513);
    expect_no_join("raised to 512", high, c, 18, 512);
    expect_no_join("raised to 1022", high, high, 18, 1022);
    expect_no_join("the lowest of several", list_of((const uint32_t[]){510}, none, 1), list_of(several, under, 3), 18,
                   512);
}

/* Two lists of 256 columns, each a chain of 255 nets with a pin in every place: the panel takes as many tracks as each
 * alone, and twice the pieces. */
static void joining_halves(void)
{
    uint32_t over[256], under[256], joined[2][CABJIRT_ROW];
    for (uint32_t i = 0; i < 256; i++) {
        over[i] = i == 0 || i == 255 ? 1 : i;
        under[i] = i == 0 || i == 255 ? 255 : i + 1;
    }
    struct list half = list_of(over, under, 256);
    uint32_t alone = cabjirt_value(route_rows(over, under, 256)), pieces = alone / 65536, tracks = alone % 65536;
    expect("two halves", join_into(half, half, joined[0], CABJIRT_ROW, joined[1], CABJIRT_ROW), 0, CABJIRT_ROW);
    expect("their board", route_rows(joined[0], joined[1], CABJIRT_ROW), 0, 2 * pieces * 65536 + tracks);
    expect("their bounds", cabjirt_bounds(joined[0], CABJIRT_ROW, joined[1], CABJIRT_ROW), 0,
           cabjirt_value(cabjirt_bounds(over, 256, under, 256)));
    expect_same("the last of their numbers", &joined[1][CABJIRT_ROW - 1], (const uint32_t[]){510}, sizeof **joined);
}

/* Joins three lists, the first two first or the last two first; the rows of both ways have to be the same. */
static void joining_three(void)
{
    uint32_t inner[2][CABJIRT_ROW], left[2][CABJIRT_ROW] = {{0}}, right[2][CABJIRT_ROW] = {{0}};
    struct list a = list_of(over_a, under_a, 4), c = list_of(over_c, under_c, 2), g = list_of(five, five, 1);
    expect("A with C", join_into(a, c, inner[0], CABJIRT_ROW, inner[1], CABJIRT_ROW), 0, 6);
    expect("then G", join_into(list_of(inner[0], inner[1], 6), g, left[0], CABJIRT_ROW, left[1], CABJIRT_ROW), 0, 7);
    expect("C with G", join_into(c, g, inner[0], CABJIRT_ROW, inner[1], CABJIRT_ROW), 0, 3);
    expect("A before", join_into(a, list_of(inner[0], inner[1], 3), right[0], CABJIRT_ROW, right[1], CABJIRT_ROW), 0,
           7);
    expect_same("either grouping", left, right, sizeof left);
    expect_same("TOP of three", left[0], (const uint32_t[]){0, 1, 2, 3, 4, 5, 10}, 7 * sizeof *left[0]);
}

static void blanks(void)
{
    expect("blank 0", cabjirt_blank(0), 0, 8);
    expect("blank 9", cabjirt_blank(9), 0, 12);
    expect("blank 512", cabjirt_blank(512), 0, 512);
    expect("blank 513", cabjirt_blank(513), 14, 513);
    expect("blank, largest", cabjirt_blank(UINT32_MAX), 14, UINT32_MAX);
}

static void own_blanks(void)
{
    static const uint32_t own[] = {4, 6, 16};
    expect("own blank 0", cabjirt_own_blank(own, 3, 0), 0, 4);
    expect("own blank 4", cabjirt_own_blank(own, 3, 4), 0, 4);
    expect("own blank 5", cabjirt_own_blank(own, 3, 5), 0, 6);
    expect("own blank 16", cabjirt_own_blank(own, 3, 16), 0, 16);
    expect("own blank 5, the first two entries alone", cabjirt_own_blank(own, 2, 5), 0, 6);
    expect("no stock", cabjirt_own_blank(own, 3, 17), 16, 17);
    expect("no stock, 512", cabjirt_own_blank(own, 3, 512), 16, 512);
    expect("own blank 513", cabjirt_own_blank(own, 3, 513), 14, 513);
    expect("own blank, largest", cabjirt_own_blank(own, 3, UINT32_MAX), 14, UINT32_MAX);
    expect("own blank 513, no table", cabjirt_own_blank(NULL, 0, 513), 14, 513);
    expect("no table", cabjirt_own_blank(NULL, 0, 0), 15, 0);
}

/* Tables of 64 entries and more, and ones with a bad entry: it is told also where one before it holds the tracks, and
 * where none does. */
static void bad_tables(void)
{
    uint32_t table[66], same[66];
    for (uint32_t i = 0; i < 66; i++)
        table[i] = same[i] = 448 + i;
    expect("64 entries, the first", cabjirt_own_blank(table + 1, 64, 0), 0, 449);
    expect("64 entries, the last", cabjirt_own_blank(table + 1, 64, 512), 0, 512);
    expect("65 entries, each good", cabjirt_own_blank(table, 65, 1), 15, 0);
    expect("66 entries, the last bad", cabjirt_own_blank(table, 66, 1), 15, 0);
    expect("the last of 64 is 513", cabjirt_own_blank(table + 2, 64, 1), 15, 64);
    expect("513 alone", cabjirt_own_blank(table + 65, 1, 1), 15, 1);
    expect_same("the table is only read", table, same, sizeof same);
    expect("an entry of 0", cabjirt_own_blank((const uint32_t[]){0, 5}, 2, 0), 15, 1);
    expect("an entry twice", cabjirt_own_blank((const uint32_t[]){5, 7, 7, 6}, 4, 1), 15, 3);
    expect("a falling entry, and no stock", cabjirt_own_blank((const uint32_t[]){5, 3}, 2, 9), 15, 2);
    expect("the largest number", cabjirt_own_blank((const uint32_t[]){5, UINT32_MAX}, 2, 1), 15, 2);
}

/* A draft with a column more behind it, and what both should hold. */
enum { EIGHT = CABJIRT_DRAFT / CABJIRT_ROW };
static uint64_t words[CABJIRT_DRAFT + EIGHT], words_due[CABJIRT_DRAFT + EIGHT];

/* All words of the draft and of its neighbour hold a byte again and again. */
static void fill_draft(int byte)
{
    memset(words, byte, sizeof words);
    memset(words_due, byte, sizeof words_due);
}

/* What the words should hold changes by the mark of a net in the columns from one to another. */
static void change_due(uint32_t net, uint32_t from, uint32_t to)
{
    for (uint32_t column = from; column <= to; column++)
        words_due[(column - 1) * EIGHT + net / 64] ^= (uint64_t)1 << net % 64;
}

static void expect_draft(const char *what, uint64_t got, uint32_t number, uint32_t value)
{
    expect(what, got, number, value);
    expect_same(what, words, words_due, sizeof words);
}

static uint64_t arrive(uint32_t number, uint32_t first, uint32_t last)
{
    return cabjirt_draft_arrive(words, CABJIRT_DRAFT, number, first, last);
}

static uint64_t leave(uint32_t number) { return cabjirt_draft_leave(words, CABJIRT_DRAFT, number); }

static uint64_t count(uint32_t column) { return cabjirt_draft_count(words, CABJIRT_DRAFT, column); }

static uint64_t greatest(void) { return cabjirt_draft_greatest(words, CABJIRT_DRAFT); }

/* Clears a draft and what should be in it; the column behind stays as it was. */
static void clear_draft(void)
{
    fill_draft(0x77);
    memset(words_due, 0, CABJIRT_DRAFT * sizeof *words);
    expect_draft("a clear draft", cabjirt_draft_clear(words, CABJIRT_DRAFT), 0, 0);
    expect_draft("no nets", greatest(), 0, 0);
}

static void drafting(void)
{
    static const uint32_t nets[] = {1, 31, 32, 63, 64, 127, 128, 448, 511};
    enum { NETS = sizeof nets / sizeof *nets };
    clear_draft();
    for (uint32_t i = 0; i < NETS; i++) {
        change_due(nets[i], 1 + i, 512 - i);
        expect_draft("a net arrives", arrive(nets[i], 1 + i, 512 - i), 0, 0);
        expect_draft("the greatest", greatest(), 0, i + 1);
        expect_draft("the first column", count(1), 0, 1);
        expect_draft("its first column", count(1 + i), 0, i + 1);
        expect_draft("its last column", count(512 - i), 0, i + 1);
        expect_draft("it arrives again", arrive(nets[i], 1, 2), 22, nets[i]);
    }
    for (uint32_t i = 0; i < NETS; i++) {
        change_due(nets[i], 1 + i, 512 - i);
        expect_draft("a net leaves", leave(nets[i]), 0, 0);
        expect_draft("the last column", count(512), 0, 0);
        expect_draft("its neighbour's first column", count(2 + i), 0, i + 1 < NETS);
        expect_draft("the fewer greatest", greatest(), 0, NETS - 1 - i);
        expect_draft("it leaves again", leave(nets[i]), 23, nets[i]);
    }
    change_due(511, 511, 512);
    expect_draft("a net comes elsewhere", arrive(511, 511, 512), 0, 0);
    expect_draft("column 510", count(510), 0, 0);
    expect_draft("column 512", count(512), 0, 1);
    clear_draft();
}

/* Numbers and columns that are none, on a draft where net 5 is in columns 10 to 20. */
static void not_drafting(void)
{
    static const uint32_t odd[] = {0, 512, 513, 600, 65541, 2147483653u, UINT32_MAX};
    static const uint32_t spans[][2] = {{0, 1}, {1, 1}, {10, 10}, {2, 1}, {512, 512}, {512, 513}, {1, 513}, {0, 512},
                                        {65546, 65547}, {1, 65546}, {1, UINT32_MAX}, {UINT32_MAX, 1}};
    clear_draft();
    change_due(5, 10, 20);
    expect_draft("net 5", arrive(5, 10, 20), 0, 0);
    for (size_t i = 0; i < sizeof odd / sizeof *odd; i++) {
        expect_draft("no net arrives", arrive(odd[i], 1, 2), 21, odd[i]);
        expect_draft("no net leaves", leave(odd[i]), 21, odd[i]);
        expect_draft("no column", count(odd[i]), 0, 0);
    }
    for (size_t i = 0; i < sizeof spans / sizeof *spans; i++) {
        expect_draft("a bad span", arrive(6, spans[i][0], spans[i][1]), 21, 6);
        expect_draft("a bad span of a net that is here", arrive(5, spans[i][0], spans[i][1]), 21, 5);
    }
    expect_draft("here, and away from the new span", arrive(5, 30, 40), 22, 5);
    expect_draft("here, and before it", arrive(5, 1, 9), 22, 5);
    expect_draft("here, and within it", arrive(5, 1, 512), 22, 5);
    expect_draft("not here", leave(69), 23, 69);
    expect_draft("the greatest is as it was", greatest(), 0, 1);
}

/* Every call refuses a draft that is a word short, or none, before all else. */
static void short_drafts(void)
{
    static const size_t lengths[] = {0, 1, CABJIRT_DRAFT - 1};
    fill_draft(0x33);
    for (size_t i = 0; i < sizeof lengths / sizeof *lengths; i++) {
        uint64_t *lent = lengths[i] == 0 ? NULL : words;
        expect_draft("clear", cabjirt_draft_clear(lent, lengths[i]), 1, CABJIRT_DRAFT);
        expect_draft("arrive", cabjirt_draft_arrive(lent, lengths[i], 1, 1, 2), 1, CABJIRT_DRAFT);
        expect_draft("arrive, bad", cabjirt_draft_arrive(lent, lengths[i], 0, 2, 1), 1, CABJIRT_DRAFT);
        expect_draft("leave", cabjirt_draft_leave(lent, lengths[i], 1), 1, CABJIRT_DRAFT);
        expect_draft("leave, bad", cabjirt_draft_leave(lent, lengths[i], 512), 1, CABJIRT_DRAFT);
        expect_draft("count", cabjirt_draft_count(lent, lengths[i], 1), 1, CABJIRT_DRAFT);
        expect_draft("count of none", cabjirt_draft_count(lent, lengths[i], 0), 1, CABJIRT_DRAFT);
        expect_draft("greatest", cabjirt_draft_greatest(lent, lengths[i]), 1, CABJIRT_DRAFT);
    }
}

/* Words that no calls make of an empty draft: all bits set, then single marks of net 9 in columns 1, 3, 400 and 512. */
static void damaged_drafts(void)
{
    fill_draft(0xFF);
    expect_draft("all bits", greatest(), 0, 512);
    expect_draft("all bits of a column", cabjirt_draft_count(words, CABJIRT_DRAFT + EIGHT, 512), 0, 512);
    expect_draft("no column behind", cabjirt_draft_count(words, CABJIRT_DRAFT + EIGHT, 513), 0, 0);
    expect_draft("net 5 is everywhere", arrive(5, 1, 2), 22, 5);
    change_due(5, 1, 512);
    expect_draft("and leaves", leave(5), 0, 0);
    change_due(5, 511, 512);
    expect_draft("and arrives", arrive(5, 511, 512), 0, 0);
    expect_draft("column 510 of all but one", count(510), 0, 511);
    memset(words_due, 0, CABJIRT_DRAFT * sizeof *words);
    expect_draft("clear", cabjirt_draft_clear(words, CABJIRT_DRAFT + EIGHT), 0, 0);
    words[EIGHT - 1] = words_due[EIGHT - 1] = 7;
    expect_draft("the greatest in column 1 alone", greatest(), 0, 3);
    words[EIGHT - 1] = 0;
    words[0] = words[2 * EIGHT] = words[399 * EIGHT] = 1 << 9;
    words[511 * EIGHT] = 1 << 9 | 1; /* number 0, which is no net, is marked there too */
    memcpy(words_due, words, sizeof words);
    expect_draft("single marks, and that of 0", greatest(), 0, 2);
    expect_draft("here in some columns", arrive(9, 100, 101), 22, 9);
    memset(words_due, 0, CABJIRT_DRAFT * sizeof *words);
    words_due[511 * EIGHT] = 1;
    expect_draft("leaves each of them", leave(9), 0, 0);
    expect_draft("0 is left", count(512), 0, 1);
    expect_draft("and can't leave", leave(0), 21, 0);
}

int main(void)
{
    reading();
    routing();
    judging();
    finding_rings();
    finding_the_largest();
    joining();
    not_joining();
    joining_halves();
    joining_three();
    parking();
    looking();
    blanks();
    own_blanks();
    bad_tables();
    drafting();
    not_drafting();
    short_drafts();
    damaged_drafts();
    printf("C entries: %d passed, %d failed\n", passed, failed);
    return failed != 0;
}
