/* Answers a batch of questions through the entries of channel.h, one line each, with what the lent buffers then hold.
 *
 * Usage: batch < questions > lines. A question is, its numbers most significant byte first:
 *
 *     kind      1 byte: 0 read, 1 bounds, 2 route, 3 judge, 4 blank, 5 looks, 6 ceiling, 7 own blank, 8 fewest ring,
 *               9 join, 10 draft
 *     fill      1 byte: what the lent buffers hold before; if it is odd, a buffer of length 0 is lent as NULL
 *     lent      2 numbers of 4 bytes: the lengths of the buffers that the entry writes (read and join: TOP, BOT; route:
 *               ring, board; judge: scratch, and one that is not used; fewest ring: ring, and one that is not used;
 *               blank and own blank: the tracks, and one that is not used; draft: its words, and what the first 4,096
 *               of them hold before: 0 all 0, 1 what other buffers hold, 2 all bits set)
 *     lengths   5 numbers of 4 bytes: of TOP (own blank: of the table; draft: of the calls), of BOT (draft: of words
 *               put in before), of TOP and BOT of the second list that is joined, of the text or board file
 *     data      the numbers of those four rows, 4 bytes each, then the text or board file
 *
 * A draft's calls are four numbers each: 0 clear, 1 arrive, 2 leave, 3 count or 4 greatest; the net number or column;
 * the first and the last column. A word put in is three: its place from 0, its upper and its lower half.
 *
 * A line is the number and value of the answer, then for each buffer that the entry writes: its name; its front, whose
 * length the answer tells; and `kept`, or `changed` with the offset of the first byte that changed outside the front,
 * guards before and after the buffer included. Scratch may hold anything, so only its guards are looked at. Last comes
 * whether the inputs were kept.
 *
 * The line of a draft has a part for each call, with commas between: the number and value of the answer, and the words
 * that the call has changed, as runs of words eight apart that were changed in the same bits: PLACE:COUNT:BITS, the
 * bits in hexadecimal. The front of its buffer is its first 4,096 words. */
#include <inttypes.h>
#include <stdio.h>
#include <stdlib.h>
#include <string.h>

#include "channel.h"

enum { READ, BOUNDS, ROUTE, JUDGE, BLANK, LOOKS, CEILING, OWN_BLANK, FEWEST_RING, JOIN, DRAFT };
enum { DRAFT_CLEAR, DRAFT_ARRIVE, DRAFT_LEAVE, DRAFT_COUNT, DRAFT_GREATEST };
enum { HOLDS_0, HOLDS_FILL, HOLDS_1, CALL_NUMBERS = 4, WORD_NUMBERS = 3 };
enum { LENT = 2, ROWS = 4, LENGTHS = ROWS + 1, HEADER = 2 + 4 * (LENT + LENGTHS), GUARD = 64, LONGEST = 1 << 20 };

struct question {
    uint8_t kind, fill;
    uint32_t lent[LENT];
    size_t top_length, bot_length, top2_length, bot2_length, bytes_length;
    const uint32_t *top, *bot, *top2, *bot2;
    const uint8_t *bytes;
};

/* A lent buffer: so many elements of so many bytes, between two guards. */
struct buffer {
    const char *name;
    size_t size, length;
    uint8_t fill, *memory;
};

static void fail(const char *what)
{
    fprintf(stderr, "batch: %s\n", what);
    exit(2);
}

static void *room(size_t bytes)
{
    void *memory = malloc(bytes + 1);
    if (!memory)
        fail("no memory");
    return memory;
}

static uint32_t number_at(const uint8_t *bytes)
{
    return (uint32_t)bytes[0] << 24 | (uint32_t)bytes[1] << 16 | (uint32_t)bytes[2] << 8 | bytes[3];
}

/* The byte that a buffer holds before the call; neighbours differ, and so do neighbouring runs of 256. */
static uint8_t filler(uint8_t fill, size_t i) { return (uint8_t)(fill + 167 * i + 59 * (i >> 8)); }

static struct buffer lend(const char *name, size_t size, size_t length, uint8_t fill)
{
    if (length > LONGEST)
        fail("a length is over 1048576");
    size_t bytes = size * length + 2 * GUARD;
    struct buffer b = {name, size, length, fill, room(bytes)};
    for (size_t i = 0; i < bytes; i++)
        b.memory[i] = filler(fill, i);
    return b;
}

static void *start_of(const struct buffer *b) { return b->length == 0 && b->fill % 2 ? NULL : b->memory + GUARD; }

static void put_numbers(const struct buffer *b, size_t front)
{
    const uint32_t *numbers = (const uint32_t *)(b->memory + GUARD);
    for (size_t i = 0; i < front && i < b->length; i++)
        printf(" %u", numbers[i]);
}

static void put_bytes(const struct buffer *b, size_t front)
{
    if (front)
        putchar(' ');
    for (size_t i = 0; i < front && i < b->length; i++)
        printf("%02x", b->memory[GUARD + i]);
}

static void put_kept(const struct buffer *b, size_t front)
{
    size_t bytes = b->size * b->length + 2 * GUARD, end = GUARD + b->size * (front < b->length ? front : b->length);
    for (size_t i = 0; i < bytes; i++)
        if ((i < GUARD || i >= end) && b->memory[i] != filler(b->fill, i)) {
            printf(" changed %ld", (long)i - GUARD);
            return;
        }
    fputs(" kept", stdout);
}

static void put_answer(uint64_t answer) { printf("%u %u", cabjirt_number(answer), cabjirt_value(answer)); }

/* A buffer's part of the line; the buffer goes back. */
static void give_back(struct buffer b, size_t front)
{
    printf(" %s", b.name);
    if (b.size == sizeof(uint32_t))
        put_numbers(&b, front);
    else
        put_bytes(&b, front);
    put_kept(&b, front);
    free(b.memory);
}

static void ask_read(const struct question *q)
{
    struct buffer top = lend("top", sizeof(uint32_t), q->lent[0], q->fill);
    struct buffer bot = lend("bot", sizeof(uint32_t), q->lent[1], q->fill ^ 2);
    uint64_t answer = cabjirt_read(q->bytes, q->bytes_length, start_of(&top), top.length, start_of(&bot), bot.length);
    size_t width = cabjirt_number(answer) == 0 ? cabjirt_value(answer) : 0;
    put_answer(answer);
    give_back(top, width);
    give_back(bot, width);
}

static void ask_route(const struct question *q)
{
    struct buffer ring = lend("ring", sizeof(uint32_t), q->lent[0], q->fill);
    struct buffer board = lend("board", sizeof(uint8_t), q->lent[1], q->fill ^ 2);
    uint64_t answer = cabjirt_route(q->top, q->top_length, q->bot, q->bot_length, start_of(&ring), ring.length,
                                    start_of(&board), board.length);
    uint32_t number = cabjirt_number(answer), value = cabjirt_value(answer);
    put_answer(answer);
    give_back(ring, number == 7 ? 2 * (size_t)value : 0);
    give_back(board, number == 0 ? 4 + 4 * (size_t)(value >> 16) : 0);
}

static void ask_fewest_ring(const struct question *q)
{
    struct buffer ring = lend("ring", sizeof(uint32_t), q->lent[0], q->fill);
    uint64_t answer = cabjirt_fewest_ring(q->top, q->top_length, q->bot, q->bot_length, start_of(&ring), ring.length);
    put_answer(answer);
    give_back(ring, cabjirt_number(answer) == 0 ? 2 * (size_t)cabjirt_value(answer) : 0);
}

static void ask_join(const struct question *q)
{
    struct buffer top = lend("top", sizeof(uint32_t), q->lent[0], q->fill);
    struct buffer bot = lend("bot", sizeof(uint32_t), q->lent[1], q->fill ^ 2);
    uint64_t answer = cabjirt_join(q->top, q->top_length, q->bot, q->bot_length, q->top2, q->top2_length, q->bot2,
                                   q->bot2_length, start_of(&top), top.length, start_of(&bot), bot.length);
    size_t width = cabjirt_number(answer) == 0 ? cabjirt_value(answer) : 0;
    put_answer(answer);
    give_back(top, width);
    give_back(bot, width);
}

static void ask_judge(const struct question *q)
{
    struct buffer scratch = lend("scratch", sizeof(uint32_t), q->lent[0], q->fill);
    put_answer(cabjirt_judge(q->top, q->top_length, q->bot, q->bot_length, q->bytes, q->bytes_length,
                             start_of(&scratch), scratch.length));
    printf(" %s", scratch.name);
    put_kept(&scratch, scratch.length);
    free(scratch.memory);
}

/* What a draft holds before its calls. */
static void hold(const struct question *q, uint64_t *words, size_t length)
{
    for (size_t i = 0; i < length && q->lent[1] != HOLDS_FILL; i++)
        words[i] = q->lent[1] == HOLDS_0 ? 0 : UINT64_MAX;
    for (size_t i = 0; i + WORD_NUMBERS <= q->bot_length; i += WORD_NUMBERS) {
        if (q->bot[i] >= length)
            fail("a word is put behind a draft");
        words[q->bot[i]] = (uint64_t)q->bot[i + 1] << 32 | q->bot[i + 2];
    }
}

static uint64_t call_draft(const uint32_t *call, uint64_t *words, size_t length)
{
    switch (call[0]) {
    case DRAFT_CLEAR:
        return cabjirt_draft_clear(words, length);
    case DRAFT_ARRIVE:
        return cabjirt_draft_arrive(words, length, call[1], call[2], call[3]);
    case DRAFT_LEAVE:
        return cabjirt_draft_leave(words, length, call[1]);
    case DRAFT_COUNT:
        return cabjirt_draft_count(words, length, call[1]);
    case DRAFT_GREATEST:
        return cabjirt_draft_greatest(words, length);
    default:
        fail("a draft has no such call");
        return 0;
    }
}

/* The words that a call has changed, in runs. */
static void put_changed(const uint64_t *words, const uint64_t *before, size_t length)
{
    static uint64_t changed[CABJIRT_DRAFT];
    for (size_t i = 0; i < length; i++)
        changed[i] = words[i] ^ before[i];
    for (size_t i = 0; i < length; i++) {
        uint64_t bits = changed[i];
        size_t count = 0;
        for (size_t j = i; bits != 0 && j < length && changed[j] == bits; j += CABJIRT_DRAFT / CABJIRT_ROW) {
            changed[j] = 0;
            count++;
        }
        if (count)
            printf(" %zu:%zu:%" PRIx64, i, count, bits);
    }
}

static void ask_draft(const struct question *q)
{
    static uint64_t before[CABJIRT_DRAFT];
    struct buffer draft = lend("draft", sizeof(uint64_t), q->lent[0], q->fill);
    uint64_t *words = (uint64_t *)(draft.memory + GUARD);
    size_t held = draft.length < CABJIRT_DRAFT ? draft.length : CABJIRT_DRAFT;
    hold(q, words, held);
    for (size_t i = 0; i + CALL_NUMBERS <= q->top_length; i += CALL_NUMBERS) {
        memcpy(before, words, held * sizeof *words);
        fputs(i ? ", " : "", stdout);
        put_answer(call_draft(q->top + i, start_of(&draft), draft.length));
        put_changed(words, before, held);
    }
    printf(" %s", draft.name);
    put_kept(&draft, held);
    free(draft.memory);
}

/* What the entries answer that take rows alone. */
static uint64_t answer_rows(const struct question *q)
{
    if (q->kind == BOUNDS)
        return cabjirt_bounds(q->top, q->top_length, q->bot, q->bot_length);
    if (q->kind == LOOKS)
        return cabjirt_looks(q->top, q->top_length, q->bot, q->bot_length);
    return cabjirt_ceiling(q->top, q->top_length, q->bot, q->bot_length);
}

static void ask(const struct question *q)
{
    switch (q->kind) {
    case READ:
        ask_read(q);
        break;
    case BOUNDS:
    case LOOKS:
    case CEILING:
        put_answer(answer_rows(q));
        break;
    case ROUTE:
        ask_route(q);
        break;
    case JUDGE:
        ask_judge(q);
        break;
    case BLANK:
        put_answer(cabjirt_blank(q->lent[0]));
        break;
    case OWN_BLANK:
        put_answer(cabjirt_own_blank(q->top, q->top_length, q->lent[0]));
        break;
    case FEWEST_RING:
        ask_fewest_ring(q);
        break;
    case JOIN:
        ask_join(q);
        break;
    case DRAFT:
        ask_draft(q);
        break;
    default:
        fail("a question is of no kind");
    }
}

/* Reads a question's data into memory of just its length: the numbers in the order of this machine, then the bytes. */
static uint8_t *data_of(size_t numbers, size_t bytes)
{
    size_t length = 4 * numbers + bytes;
    uint8_t *data = room(length);
    if (fread(data, 1, length, stdin) != length)
        fail("a question is cut");
    for (size_t i = 0; i < numbers; i++) {
        uint32_t number = number_at(data + 4 * i);
        memcpy(data + 4 * i, &number, sizeof number);
    }
    return data;
}

/* A pointer to so many elements, or NULL as the fill says. */
static const void *given(const uint8_t *start, size_t length, uint8_t fill)
{
    return length == 0 && fill % 2 ? NULL : start;
}

/* Points a question's rows and bytes into its data. */
static void place(struct question *q, const uint8_t *data)
{
    const uint8_t *bot = data + 4 * q->top_length, *top2 = bot + 4 * q->bot_length;
    const uint8_t *bot2 = top2 + 4 * q->top2_length, *bytes = bot2 + 4 * q->bot2_length;
    q->top = given(data, q->top_length, q->fill);
    q->bot = given(bot, q->bot_length, q->fill);
    q->top2 = given(top2, q->top2_length, q->fill);
    q->bot2 = given(bot2, q->bot2_length, q->fill);
    q->bytes = given(bytes, q->bytes_length, q->fill);
}

static void answer(const uint8_t *header)
{
    uint32_t numbers[LENT + LENGTHS], *lengths = numbers + LENT;
    for (size_t i = 0; i < LENT + LENGTHS; i++)
        numbers[i] = number_at(header + 2 + 4 * i);
    struct question q = {.kind = header[0], .fill = header[1], .top_length = lengths[0], .bot_length = lengths[1],
                         .top2_length = lengths[2], .bot2_length = lengths[3], .bytes_length = lengths[ROWS]};
    size_t rows = 0;
    for (size_t i = 0; i < LENGTHS; i++) {
        if (lengths[i] > LONGEST)
            fail("a length is over 1048576");
        rows += i < ROWS ? lengths[i] : 0;
    }
    memcpy(q.lent, numbers, sizeof q.lent);
    size_t length = 4 * rows + q.bytes_length;
    uint8_t *data = data_of(rows, q.bytes_length), *before = room(length);
    memcpy(before, data, length);
    place(&q, data);
    ask(&q);
    puts(memcmp(data, before, length) == 0 ? " inputs kept" : " inputs changed");
    free(data);
    free(before);
}

int main(void)
{
    uint8_t header[HEADER];
    size_t got;
    setvbuf(stdout, NULL, _IOLBF, 1 << 16); /* if an entry ends the program, the lines before it are out */
    while ((got = fread(header, 1, HEADER, stdin)) == HEADER)
        answer(header);
    if (got)
        fail("a question is cut");
    if (fflush(stdout) || ferror(stdout))
        fail("the lines could not be written");
    return 0;
}
