/* Measures how deep the stack of each entry goes: STACK entry bytes. Each runs in a thread whose stack was filled with
 * one byte; what a thread that does nothing uses is taken off. The inputs are as large as may be. */
#define _GNU_SOURCE
#include <pthread.h>
#include <stdio.h>
#include <stdlib.h>
#include <string.h>
#include <sys/mman.h>

#include <cabjirt.h>

enum { STACK = 8 << 20, FILL = 0xa5, NETS = 511, ENTRIES = 64, HALF = 254 };

static char text[65536];
static size_t text_length;
static uint32_t top[CABJIRT_ROW], bot[CABJIRT_ROW], ring[CABJIRT_RING], scratch[CABJIRT_SCRATCH];
static uint8_t board[CABJIRT_BOARD];
static uint32_t table[ENTRIES];
static uint64_t words[CABJIRT_DRAFT];
static uint64_t answer;

/* The chain of 511 nets with a pin in every place but one, the channel with the most pieces. */
static void make_text(void)
{
    text_length = (size_t)sprintf(text, "TOP");
    for (int c = 1; c <= CABJIRT_ROW; c++)
        text_length += (size_t)sprintf(text + text_length, " %d", c <= NETS ? c : 1);
    text_length += (size_t)sprintf(text + text_length, "\nBOT");
    for (int c = 1; c <= CABJIRT_ROW; c++)
        text_length += (size_t)sprintf(text + text_length, " %d", c < NETS ? c + 1 : 0);
    text_length += (size_t)sprintf(text + text_length, "\n");
}

/* The longest table of blanks, of which only the last holds 512 tracks. */
static void make_table(void)
{
    for (uint32_t i = 0; i < ENTRIES; i++)
        table[i] = 8 * (i + 1);
}

static void *nothing(void *unused) { return unused; }

static void *reading(void *unused)
{
    answer = cabjirt_read((const uint8_t *)text, text_length, top, CABJIRT_ROW, bot, CABJIRT_ROW);
    return unused;
}

static void *bounding(void *unused)
{
    answer = cabjirt_bounds(top, CABJIRT_ROW, bot, CABJIRT_ROW);
    return unused;
}

static void *routing(void *unused)
{
    answer = cabjirt_route(top, CABJIRT_ROW, bot, CABJIRT_ROW, ring, CABJIRT_RING, board, CABJIRT_BOARD);
    return unused;
}

static void *judging(void *unused)
{
    size_t pieces = (board[2] & 0x1f) << 7 | board[3] >> 1;
    answer = cabjirt_judge(top, CABJIRT_ROW, bot, CABJIRT_ROW, board, 4 + 4 * pieces, scratch, CABJIRT_SCRATCH);
    return unused;
}

static void *choosing(void *unused)
{
    answer = cabjirt_blank(512);
    return unused;
}

static void *choosing_own(void *unused)
{
    answer = cabjirt_own_blank(table, ENTRIES, 512);
    return unused;
}

static void *looking(void *unused)
{
    answer = cabjirt_looks(top, CABJIRT_ROW, bot, CABJIRT_ROW);
    return unused;
}

static void *capping(void *unused)
{
    answer = cabjirt_ceiling(top, CABJIRT_ROW, bot, CABJIRT_ROW);
    return unused;
}

/* In the chain closed to a ring: its last net is put above the first while the ring is looked for. */
static void *finding(void *unused)
{
    bot[NETS - 1] = 1;
    answer = cabjirt_fewest_ring(top, CABJIRT_ROW, bot, CABJIRT_ROW, ring, CABJIRT_RING);
    bot[NETS - 1] = 0;
    return unused;
}

/* The first columns of the chain twice: as many as have numbers up to 255, which raised once are at most 510. */
static void *joining(void *unused)
{
    static uint32_t top2[HALF], bot2[HALF], over[CABJIRT_ROW], under[CABJIRT_ROW];
    memcpy(top2, top, sizeof top2);
    memcpy(bot2, bot, sizeof bot2);
    answer = cabjirt_join(top, HALF, bot, HALF, top2, HALF, bot2, HALF, over, CABJIRT_ROW, under, CABJIRT_ROW);
    return unused;
}

/* A net over all columns comes to an empty draft and goes. */
static void *clearing(void *unused)
{
    answer = cabjirt_draft_clear(words, CABJIRT_DRAFT);
    return unused;
}

static void *arriving(void *unused)
{
    answer = cabjirt_draft_arrive(words, CABJIRT_DRAFT, NETS, 1, CABJIRT_ROW);
    return unused;
}

static void *counting(void *unused)
{
    answer = cabjirt_draft_count(words, CABJIRT_DRAFT, CABJIRT_ROW);
    return unused;
}

static void *comparing(void *unused)
{
    answer = cabjirt_draft_greatest(words, CABJIRT_DRAFT);
    return unused;
}

static void *leaving(void *unused)
{
    answer = cabjirt_draft_leave(words, CABJIRT_DRAFT, NETS);
    return unused;
}

/* How many bytes of its stack a thread changes. */
static size_t depth(void *(*entry)(void *))
{
    pthread_t thread;
    pthread_attr_t attributes;
    unsigned char *stack = mmap(NULL, STACK, PROT_READ | PROT_WRITE, MAP_PRIVATE | MAP_ANONYMOUS, -1, 0);
    if (stack == MAP_FAILED)
        exit(2);
    memset(stack, FILL, STACK);
    if (pthread_attr_init(&attributes) != 0 || pthread_attr_setstack(&attributes, stack, STACK) != 0 ||
        pthread_create(&thread, &attributes, entry, NULL) != 0 || pthread_join(thread, NULL) != 0)
        exit(2);
    size_t left = 0;
    while (left < STACK && stack[left] == FILL)
        left++;
    munmap(stack, STACK);
    return STACK - left;
}

int main(void)
{
    static const struct {
        const char *name;
        void *(*run)(void *);
    } entries[] = {{"cabjirt_read", reading},
                   {"cabjirt_bounds", bounding},
                   {"cabjirt_route", routing},
                   {"cabjirt_judge", judging},
                   {"cabjirt_blank", choosing},
                   {"cabjirt_own_blank", choosing_own},
                   {"cabjirt_looks", looking},
                   {"cabjirt_ceiling", capping},
                   {"cabjirt_fewest_ring", finding},
                   {"cabjirt_join", joining},
                   {"cabjirt_draft_clear", clearing},
                   {"cabjirt_draft_arrive", arriving},
                   {"cabjirt_draft_count", counting},
                   {"cabjirt_draft_greatest", comparing},
                   {"cabjirt_draft_leave", leaving}};
    make_text();
    make_table();
    size_t without = depth(nothing);
    for (size_t i = 0; i < sizeof entries / sizeof *entries; i++) {
        size_t bytes = depth(entries[i].run) - without;
        if (cabjirt_number(answer) != 0) {
            fprintf(stderr, "%s refuses: %u %u\n", entries[i].name, cabjirt_number(answer), cabjirt_value(answer));
            return 1;
        }
        printf("STACK %s %zu\n", entries[i].name, bytes);
    }
    return 0;
}
