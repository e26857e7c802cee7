/* Filling tracks by the constrained left-edge rule, and the ring that is shown where the fill is stuck. */
#include <string.h>

#include "plain.h"

/* Lowers the counts of the nets above net n, which is placed. */
static void lower_above(const struct plain_rows *rows, struct plain_steps *steps, uint32_t n)
{
    for (uint16_t c = steps->head[n]; c != 0; c = steps->next[c])
        steps->under[rows->top[c - 1]]--;
}

/* The nets that items are parts of; an item past the end of the table is a net of its own. */
struct parts {
    const uint32_t *nets;
    size_t count;
};

static inline uint32_t net_of(const struct parts *parts, uint32_t n)
{
    return n < parts->count ? parts->nets[n] : n;
}

/* The fill's own copy of the first and the last column of each net, in half the width: no column passes 512. */
struct columns {
    uint16_t first[PLAIN_NETS], last[PLAIN_NETS];
};

static inline void copy_net(const struct plain_spans *spans, struct columns *columns, uint32_t n)
{
    columns->first[n] = (uint16_t)spans->first[n];
    columns->last[n] = (uint16_t)spans->last[n];
}

static void copy_columns(const struct plain_rows *rows, const struct plain_spans *spans, struct columns *columns)
{
    memset(columns, 0, sizeof *columns);
    for (size_t i = 0; i < rows->width; i++) {
        copy_net(spans, columns, rows->top[i]);
        copy_net(spans, columns, rows->bot[i]);
    }
}

/* What a scan comes to: how many nets are left, and how many it looked at. */
struct scanned {
    size_t rest, looks;
};

/* One scan of the nets left for track k: those placed get the track, the others move to the front. */
static struct scanned scan_track(const struct plain_rows *rows, const struct columns *columns,
                                 const struct parts *parts, struct plain_steps *steps, uint32_t left[PLAIN_NETS],
                                 size_t count, uint32_t tracks[PLAIN_NETS], uint32_t k)
{
    uint16_t end = 0; /* the last column of the item placed before, and its net */
    uint32_t net = 0;
    struct scanned scanned = {0, 0};
    for (size_t i = 0; i < count; i++) {
        uint32_t n = left[i];
        uint16_t start = columns->first[n];
        if (steps->under[n] == 0 && (end < start || (end == start && net == net_of(parts, n)))) {
            tracks[n] = k;
            end = columns->last[n];
            net = net_of(parts, n);
            lower_above(rows, steps, n);
            scanned.looks++;
        } else {
            left[scanned.rest++] = n;
            scanned.looks++;
        }
    }
    return scanned;
}

/* For each net its lowest column that has a net without a track below it, 0 if there is none. */
static void lowest_drops(const struct plain_rows *rows, const uint32_t tracks[PLAIN_NETS], uint32_t columns[PLAIN_NETS])
{
    memset(columns, 0, PLAIN_NETS * sizeof *columns);
    for (size_t i = rows->width; i-- > 0;) {
        uint32_t a = rows->top[i], b = rows->bot[i];
        if (a != 0 && b != 0 && a != b && tracks[b] == 0)
            columns[a] = (uint32_t)i + 1;
    }
}

static uint32_t lowest_net(const uint32_t left[PLAIN_NETS], size_t count)
{
    uint32_t least = left[0];
    for (size_t i = 1; i < count; i++)
        if (left[i] < least)
            least = left[i];
    return least;
}

/* Walks down from the lowest net left until a net is met again, and once more from there; the ring's pairs go to the
 * front of `ring`. Answers their number. */
static int show_ring(const struct plain_rows *rows, const uint32_t tracks[PLAIN_NETS], const uint32_t left[PLAIN_NETS],
                     size_t count, uint32_t *ring)
{
    uint32_t columns[PLAIN_NETS];
    uint32_t visits[PLAIN_NETS] = {0}; /* 1 plus the steps to a net */
    uint32_t n = lowest_net(left, count), mark = 1;
    lowest_drops(rows, tracks, columns);
    while (visits[n] == 0) {
        visits[n] = mark++;
        n = rows->bot[columns[n] - 1];
    }
    uint32_t pairs = mark - visits[n];
    for (uint32_t i = 0; i < pairs; i++) {
        uint32_t c = columns[n];
        *ring++ = n;
        *ring++ = c;
        n = rows->bot[c - 1];
    }
    return (int)pairs;
}

int plain_fill(const struct plain_rows *rows, const struct plain_spans *spans, uint32_t tracks[PLAIN_NETS],
               uint32_t *ring, size_t *looks)
{
    uint32_t left[PLAIN_NETS];
    struct plain_steps steps;
    const struct parts none = {NULL, 0};
    int done = 0;
    memset(tracks, 0, PLAIN_NETS * sizeof *tracks);
    size_t count = plain_spanning(rows, spans, left);
    plain_sort(left, count, spans->first, rows->width, steps.next);
    struct columns columns;
    copy_columns(rows, spans, &columns);
    plain_link_steps(rows, &steps);
    *looks = 0;
    while (count != 0) {
        struct scanned scanned = scan_track(rows, &columns, &none, &steps, left, count, tracks, (uint32_t)done + 1);
        *looks += scanned.looks;
        if (scanned.rest == count)
            return -show_ring(rows, tracks, left, count, ring);
        count = scanned.rest;
        done++;
    }
    return done;
}
