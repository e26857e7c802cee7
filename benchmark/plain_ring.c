/* The ring with the fewest nets: a breadth-first search for each net finds where it begins. */
#include <string.h>

#include "plain.h"

/* For each net the fewest steps down, one or more, to net `to`; 0 if none lead there. */
static void search(const struct plain_rows *rows, const struct plain_steps *steps, uint32_t to,
                   uint16_t far[PLAIN_NETS])
{
    uint16_t queue[PLAIN_NETS];
    size_t queued = 0, done = 0;
    uint32_t n = to;
    uint16_t distance = 1;
    memset(far, 0, PLAIN_NETS * sizeof *far);
    for (;;) {
        for (uint16_t c = steps->head[n]; c != 0; c = steps->next[c]) {
            uint32_t a = rows->top[c - 1];
            if (far[a] == 0) {
                far[a] = distance;
                queue[queued++] = (uint16_t)a;
            }
        }
        if (done == queued)
            return;
        n = queue[done++];
        distance = (uint16_t)(far[n] + 1);
    }
}

/* Net b, directly below net a, is one step nearer to net `home`. */
static bool nearer(const uint16_t far[PLAIN_NETS], uint32_t home, uint32_t a, uint32_t b)
{
    if (b == home)
        return far[a] == 1;
    return far[b] != 0 && far[a] == far[b] + 1;
}

/* Puts the pairs of the ring of so many nets that begins at net `home` at the front of `ring`. */
static void show(const struct plain_rows *rows, const struct plain_steps *steps, uint32_t home, uint32_t nets,
                 uint32_t *ring)
{
    uint16_t far[PLAIN_NETS];
    uint32_t columns[PLAIN_NETS] = {0}, n = home;
    search(rows, steps, home, far);
    for (size_t i = rows->width; i-- > 0;) {
        uint32_t a = rows->top[i], b = rows->bot[i];
        if (a != 0 && b != 0 && a != b && nearer(far, home, a, b))
            columns[a] = (uint32_t)i + 1;
    }
    for (uint32_t i = 0; i < nets; i++) {
        ring[2 * i] = n;
        ring[2 * i + 1] = columns[n];
        n = rows->bot[columns[n] - 1];
    }
}

uint64_t plain_fewest_ring(const uint32_t *top, size_t top_length, const uint32_t *bot, size_t bot_length,
                           uint32_t *ring, size_t ring_length)
{
    if (ring_length < PLAIN_RING)
        return plain_refused(1, PLAIN_RING);
    uint64_t refusal = plain_check(top, top_length, bot, bot_length);
    if (refusal != 0)
        return refusal;
    struct plain_rows whole = {top, bot, top_length};
    struct plain_copy copy;
    struct plain_rows rows = plain_leave_parked(&whole, &copy);
    struct plain_steps steps;
    plain_link_steps(&rows, &steps);
    uint32_t home = 0, nets = 0, highest = 0;
    for (size_t i = 0; i < rows.width; i++)
        if (highest < rows.top[i])
            highest = rows.top[i];
    for (uint32_t n = 1; n <= highest; n++) {
        uint16_t far[PLAIN_NETS];
        search(&rows, &steps, n, far);
        if (far[n] != 0 && (nets == 0 || far[n] < nets)) {
            home = n;
            nets = far[n];
        }
    }
    if (nets != 0)
        show(&rows, &steps, home, nets, ring);
    return nets;
}
