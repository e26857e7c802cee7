/* Four threads call all entries at once, each with buffers and a channel of its own, and must get the answers that one
 * thread gets alone: the entries keep no state. Prints how many rounds were the same. */
#include <pthread.h>
#include <stdio.h>
#include <string.h>

#include <cabjirt.h>

enum { THREADS = 4, ROUNDS = 300 };

struct work {
    uint32_t top[CABJIRT_ROW], bot[CABJIRT_ROW], ring[CABJIRT_RING], scratch[CABJIRT_SCRATCH];
    uint32_t joined_top[CABJIRT_ROW], joined_bot[CABJIRT_ROW];
    uint8_t board[CABJIRT_BOARD];
    uint64_t draft[CABJIRT_DRAFT], answers[15];
};

static struct work due[THREADS], works[THREADS];
static int same[THREADS];

/* A draft on which all nets of the thread come and every second one goes. */
static void draft_through(struct work *work, size_t which)
{
    uint64_t *words = work->draft, *answers = work->answers + 10;
    answers[0] = cabjirt_draft_clear(words, CABJIRT_DRAFT);
    for (uint32_t net = 1; net <= 100 + which; net++)
        answers[1] += cabjirt_draft_arrive(words, CABJIRT_DRAFT, net, net, CABJIRT_ROW - net);
    for (uint32_t net = 2; net <= 100 + which; net += 2)
        answers[2] += cabjirt_draft_leave(words, CABJIRT_DRAFT, net);
    answers[3] = cabjirt_draft_count(words, CABJIRT_DRAFT, 50);
    answers[4] = cabjirt_draft_greatest(words, CABJIRT_DRAFT);
}

/* A chain whose length and places differ with the thread; at the end its last net is put above the first. */
static void work_through(struct work *work, size_t which)
{
    char text[4096];
    size_t width = 20 + 7 * which, length = (size_t)sprintf(text, "TOP");
    for (size_t c = 1; c <= width; c++)
        length += (size_t)sprintf(text + length, " %zu", c < width ? c + which : 1 + which);
    length += (size_t)sprintf(text + length, "\nBOT");
    for (size_t c = 1; c <= width; c++)
        length += (size_t)sprintf(text + length, " %zu", c + 1 < width ? c + 1 + which : 0);
    length += (size_t)sprintf(text + length, "\n");
    memset(work, 0, sizeof *work);
    work->answers[0] = cabjirt_read((const uint8_t *)text, length, work->top, CABJIRT_ROW, work->bot, CABJIRT_ROW);
    work->answers[1] = cabjirt_bounds(work->top, width, work->bot, width);
    work->answers[2] = cabjirt_route(work->top, width, work->bot, width, work->ring, CABJIRT_RING, work->board,
                                     CABJIRT_BOARD);
    work->answers[3] = cabjirt_judge(work->top, width, work->bot, width, work->board,
                                     4 + 4 * (cabjirt_value(work->answers[2]) / 65536), work->scratch, CABJIRT_SCRATCH);
    work->answers[4] = cabjirt_blank((uint32_t)width);
    work->answers[5] = cabjirt_looks(work->top, width, work->bot, width);
    work->answers[6] = cabjirt_ceiling(work->top, width, work->bot, width);
    work->answers[7] = cabjirt_own_blank((const uint32_t[]){16, 24, 36}, 3, (uint32_t)width);
    work->bot[width - 2] = (uint32_t)which + 1;
    work->answers[8] = cabjirt_fewest_ring(work->top, width, work->bot, width, work->ring, CABJIRT_RING);
    work->answers[9] = cabjirt_join(work->top, width, work->bot, width, (const uint32_t[]){1, 0, 2}, 3,
                                    (const uint32_t[]){0, 2, 1}, 3, work->joined_top, CABJIRT_ROW, work->joined_bot,
                                    CABJIRT_ROW);
    draft_through(work, which);
}

static void *repeat(void *number)
{
    size_t which = (size_t)((int *)number - same);
    for (int i = 0; i < ROUNDS; i++) {
        work_through(&works[which], which);
        same[which] += memcmp(&works[which], &due[which], sizeof due[which]) == 0;
    }
    return NULL;
}

int main(void)
{
    pthread_t threads[THREADS];
    int all = 0;
    for (size_t i = 0; i < THREADS; i++)
        work_through(&due[i], i);
    for (size_t i = 0; i < THREADS; i++)
        if (pthread_create(&threads[i], NULL, repeat, &same[i]) != 0)
            return 2;
    for (size_t i = 0; i < THREADS; i++)
        if (pthread_join(threads[i], NULL) != 0)
            return 2;
    for (size_t i = 0; i < THREADS; i++)
        all += same[i];
    printf("%d rounds the same, %u tracks judged, a ring of %u nets, %u columns joined, %u nets over a column\n", all,
           cabjirt_value(due[0].answers[3]), cabjirt_value(due[0].answers[8]), cabjirt_value(due[0].answers[9]),
           cabjirt_value(due[0].answers[14]));
    return all == THREADS * ROUNDS ? 0 : 1;
}
