#include "answer.h"

/* Splits the number that an entry answers; its value goes to *value where nothing is refused. */
static struct verdict verdict_of(uint64_t entry_answer, uint32_t *value)
{
    struct verdict verdict = {false, cabjirt_number(entry_answer), 0};
    if (verdict.number != 0) {
        verdict.refused = true;
        verdict.place = cabjirt_value(entry_answer);
    } else {
        *value = cabjirt_value(entry_answer);
    }
    return verdict;
}

static struct verdict read_text(const uint8_t *text, size_t length, uint32_t rows[ROWS][CABJIRT_ROW], uint32_t *width)
{
    if (length > INPUT_LIMIT)
        return (struct verdict){true, 0, INPUT_LIMIT};
    return verdict_of(cabjirt_read(text, length, rows[TOP_ROW], CABJIRT_ROW, rows[BOT_ROW], CABJIRT_ROW), width);
}

static struct verdict find_bounds(struct answer *answer)
{
    uint32_t value = 0;
    struct verdict verdict = verdict_of(
        cabjirt_bounds(answer->rows[TOP_ROW], answer->width, answer->rows[BOT_ROW], answer->width), &value);
    answer->density = value >> 16;
    answer->chain = value & 0xFFFF;
    return verdict;
}

static struct verdict count_looks(struct answer *answer)
{
    return verdict_of(cabjirt_looks(answer->rows[TOP_ROW], answer->width, answer->rows[BOT_ROW], answer->width),
                      &answer->looks);
}

static struct verdict find_ceiling(struct answer *answer)
{
    return verdict_of(cabjirt_ceiling(answer->rows[TOP_ROW], answer->width, answer->rows[BOT_ROW], answer->width),
                      &answer->ceiling);
}

static struct verdict route(struct answer *answer)
{
    uint32_t value = 0;
    struct verdict verdict = verdict_of(
        cabjirt_route(answer->rows[TOP_ROW], answer->width, answer->rows[BOT_ROW], answer->width,
                      answer->ring, CABJIRT_RING, answer->board, CABJIRT_BOARD), &value);
    answer->pieces = value >> 16;
    answer->tracks = value & 0xFFFF;
    return verdict;
}

/* Whether pairs are a ring of the rows: different nets from the lowest on, each at TOP of its column, where the next
 * one is at BOT. */
static bool is_ring(const struct answer *answer, const uint32_t *pairs, uint32_t count)
{
    bool met[CABJIRT_ROW] = {false}; /* by net, of which 511 is the highest */
    for (uint32_t i = 0; i < count; i++) {
        uint32_t net = pairs[2 * i], column = pairs[2 * i + 1], next = pairs[2 * (i + 1 < count ? i + 1 : 0)];
        if (net < pairs[0] || net < 1 || net >= CABJIRT_ROW || net == next || met[net])
            return false;
        if (column < 1 || column > answer->width)
            return false;
        if (answer->rows[TOP_ROW][column - 1] != net || answer->rows[BOT_ROW][column - 1] != next)
            return false;
        met[net] = true;
    }
    return count > 0;
}

static void find_fewest_ring(struct answer *answer)
{
    struct fewest_ring *fewest = &answer->fewest;
    uint64_t said = cabjirt_fewest_ring(answer->rows[TOP_ROW], answer->width, answer->rows[BOT_ROW], answer->width,
                                        fewest->ring, CABJIRT_RING);
    fewest->number = cabjirt_number(said);
    fewest->count = cabjirt_value(said);
    fewest->whole = fewest->number == 0 && fewest->count <= CABJIRT_RING / 2 &&
                    fewest->count <= answer->verdict.place && is_ring(answer, fewest->ring, fewest->count);
}

void answer_pins(const struct pin_text *pins, struct answer *answer)
{
    uint8_t text[TEXT_MOST];
    answer->verdict = read_text(text, pin_text_compose(pins, text), answer->rows, &answer->width);
    if (!answer->verdict.refused)
        answer->verdict = find_bounds(answer);
    if (!answer->verdict.refused)
        answer->verdict = count_looks(answer);
    if (!answer->verdict.refused)
        answer->verdict = find_ceiling(answer);
    if (!answer->verdict.refused)
        answer->verdict = route(answer);
    if (!answer->verdict.refused)
        answer->verdict = verdict_of(cabjirt_blank(answer->tracks), &answer->blank);
    else if (answer->verdict.number == 7)
        find_fewest_ring(answer);
}

bool answer_has_rows(const struct answer *answer)
{
    return !answer->verdict.refused || answer->verdict.number == 7;
}

bool answer_fewest_is_walk(const struct answer *answer)
{
    const struct fewest_ring *fewest = &answer->fewest;
    uint32_t count = answer->verdict.place, from = 0;
    if (!fewest->whole || fewest->count != count)
        return false;
    while (from < count && answer->ring[2 * from] != fewest->ring[0])
        from++;
    for (uint32_t i = 0; i < count; i++) {
        uint32_t at = (from + i) % count;
        if (answer->ring[2 * at] != fewest->ring[2 * i] || answer->ring[2 * at + 1] != fewest->ring[2 * i + 1])
            return false;
    }
    return true;
}

size_t answer_board_length(const struct answer *answer)
{
    return 4 + 4 * (size_t)answer->pieces;
}

struct verdict answer_own_blank(const struct answer *answer, const uint32_t *table, size_t count, uint32_t *entry)
{
    return verdict_of(cabjirt_own_blank(table, count, answer->tracks), entry);
}

struct verdict answer_text(const uint8_t *text, size_t length)
{
    uint32_t rows[ROWS][CABJIRT_ROW], width;
    return read_text(text, length, rows, &width);
}

struct verdict answer_judge(const struct answer *answer, const uint8_t *board, size_t length, uint32_t *tracks)
{
    uint32_t scratch[CABJIRT_SCRATCH];
    if (length > INPUT_LIMIT)
        return (struct verdict){true, 0, INPUT_LIMIT};
    return verdict_of(cabjirt_judge(answer->rows[TOP_ROW], answer->width, answer->rows[BOT_ROW], answer->width, board,
                                    length, scratch, CABJIRT_SCRATCH), tracks);
}
