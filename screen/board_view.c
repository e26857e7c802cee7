#include "board_view.h"

#include <stdio.h>
#include <string.h>

enum { TRUNK, BRANCH, CONTACT };
enum { HAS_TRUNK = 1, HAS_BRANCH = 2, HAS_CONTACT = 4, HAS_MARK = 8 };
enum { WIDEST = 512 };

struct piece {
    uint32_t kind, line, from, to;
};

static uint32_t word_at(const uint8_t *bytes)
{
    return (uint32_t)bytes[0] << 24 | (uint32_t)bytes[1] << 16 | (uint32_t)bytes[2] << 8 | bytes[3];
}

static struct piece piece_of(const struct board_view *view, uint32_t number)
{
    uint32_t word = word_at(view->bytes + 4 * (size_t)number);
    return (struct piece){word >> 30, word >> 20 & 0x3FF, word >> 10 & 0x3FF, word & 0x3FF};
}

static uint32_t digits_of(uint32_t number)
{
    uint32_t digits = 1;
    for (; number >= 10; number /= 10)
        digits++;
    return digits;
}

bool board_view_open(struct board_view *view, const uint8_t *bytes, size_t length)
{
    memset(view, 0, sizeof *view);
    if (length < 4)
        return false;
    uint32_t header = word_at(bytes);
    view->bytes = bytes;
    view->width = header >> 22;
    view->tracks = header >> 13 & 0x1FF;
    view->pieces = header >> 1 & 0xFFF;
    if (view->pieces > (length - 4) / 4)
        view->pieces = (uint32_t)((length - 4) / 4);
    board_view_pins(view, NULL, NULL);
    return view->width >= 1 && view->width <= WIDEST;
}

void board_view_pins(struct board_view *view, const uint32_t *top, const uint32_t *bot)
{
    uint32_t greatest = view->width;
    view->top = top;
    view->bot = bot;
    for (uint32_t c = 0; top != NULL && bot != NULL && c < view->width; c++) {
        greatest = top[c] > greatest ? top[c] : greatest;
        greatest = bot[c] > greatest ? bot[c] : greatest;
    }
    view->pitch = digits_of(greatest) + 1 < 3 ? 3 : digits_of(greatest) + 1;
}

void board_view_parked(struct board_view *view, const bool *top, const bool *bot)
{
    view->top_parked = top;
    view->bot_parked = bot;
}

size_t board_view_cells(const struct board_view *view)
{
    return board_view_cell_of(view, view->width) + 1;
}

size_t board_view_lines(const struct board_view *view)
{
    return 2 * ((size_t)view->tracks + 1) + 1;
}

size_t board_view_cell_of(const struct board_view *view, size_t column)
{
    return (view->edge == NULL ? column * view->pitch : view->edge[column]) - 1;
}

size_t board_view_column_at(const struct board_view *view, size_t cell)
{
    size_t column = 1;
    while (column < view->width && board_view_cell_of(view, column) < cell)
        column++;
    return column;
}

size_t board_view_line_of(const struct board_view *view, size_t row)
{
    return row > view->tracks + 1 ? 0 : 2 * (view->tracks + 1 - row);
}

/* The part of a piece that lies on a line: its first and last cell. False where it is elsewhere, or not on the grid. */
static bool cells_on_line(const struct board_view *view, const struct piece *piece, size_t line, size_t *first,
                          size_t *last)
{
    bool along = piece->kind == TRUNK;
    uint32_t left = along ? piece->from : piece->line, right = along ? piece->to : piece->line;
    uint32_t low = along ? piece->line : piece->from, high = along ? piece->line : piece->to;
    if (piece->kind > CONTACT || left < 1 || left > right || right > view->width)
        return false;
    if (low > high || high > view->tracks + 1)
        return false;
    *first = board_view_cell_of(view, left);
    *last = board_view_cell_of(view, right);
    return line >= board_view_line_of(view, high) && line <= board_view_line_of(view, low);
}

static void raster_line(const struct board_view *view, size_t line, size_t from, size_t count, uint8_t *flags)
{
    static const uint8_t flag_of[] = {HAS_TRUNK, HAS_BRANCH, HAS_CONTACT};
    memset(flags, 0, count);
    for (uint32_t n = 1; n <= view->pieces; n++) {
        struct piece piece = piece_of(view, n);
        size_t first, last;
        if (!cells_on_line(view, &piece, line, &first, &last))
            continue;
        uint8_t flag = flag_of[piece.kind] | (n == view->marked_piece ? HAS_MARK : 0);
        for (size_t x = first > from ? first : from; x <= last && x < from + count; x++)
            flags[x - from] |= flag;
    }
}

static struct board_cell copper(uint8_t flags)
{
    bool marked = flags & HAS_MARK;
    if (flags & HAS_CONTACT)
        return (struct board_cell){'o', LOOK_CONTACT, marked};
    if (flags & HAS_TRUNK && flags & HAS_BRANCH)
        return (struct board_cell){'+', LOOK_CROSSING, marked};
    if (flags & HAS_TRUNK)
        return (struct board_cell){'-', LOOK_TRUNK, marked};
    if (flags & HAS_BRANCH)
        return (struct board_cell){'|', LOOK_BRANCH, marked};
    return (struct board_cell){' ', LOOK_BLANK, false};
}

/* Writes a number so that its last digit stands in the last cell of its column, over what is there. */
static void put_number(const struct board_view *view, uint32_t number, struct board_cell cell, size_t column,
                       size_t from, size_t count, struct board_cell *cells)
{
    for (size_t x = board_view_cell_of(view, column);; x--, number /= 10) {
        cell.ascii = (char)('0' + number % 10);
        if (x >= from && x < from + count)
            cells[x - from] = cell;
        if (number < 10 || x == 0)
            return;
    }
}

/* The pins of row 0 or t + 1: a net number, with a p before it if the pin is parked, or a dot where no pin is and no
 * branch ends. A number leaves the first cell of its column free. */
static void put_pins(const struct board_view *view, size_t line, size_t from, size_t count, struct board_cell *cells)
{
    const uint32_t *pins = line == 0 ? view->top : view->bot;
    const bool *parked = line == 0 ? view->top_parked : view->bot_parked;
    size_t last = board_view_column_at(view, from + count);
    for (size_t c = board_view_column_at(view, from); c <= last; c++) {
        size_t x = board_view_cell_of(view, c), position = line == 0 ? c : view->width + c;
        uint32_t net = pins == NULL ? 0 : pins[c - 1];
        bool is_parked = net != 0 && parked != NULL && parked[c - 1];
        struct board_cell pin = {'0', is_parked ? LOOK_PARKED : LOOK_PIN, position == view->marked_position};
        if (net != 0)
            put_number(view, net, pin, c, from, count, cells);
        else if (x >= from && x < from + count && cells[x - from].look == LOOK_BLANK)
            cells[x - from] = (struct board_cell){'.', LOOK_NO_PIN, false};
        x -= is_parked ? digits_of(net) : 0;
        if (is_parked && x >= from && x < from + count)
            cells[x - from] = (struct board_cell){'p', LOOK_PARKED, false};
    }
}

void board_view_line(const struct board_view *view, size_t line, size_t from, size_t count, struct board_cell *cells)
{
    uint8_t flags[DRAWING_MOST];
    count = count < DRAWING_MOST ? count : DRAWING_MOST;
    raster_line(view, line, from, count, flags);
    for (size_t i = 0; i < count; i++)
        cells[i] = copper(flags[i]);
    if (line == 0 || line + 1 == board_view_lines(view))
        put_pins(view, line, from, count, cells);
}

void board_view_ruler(const struct board_view *view, size_t from, size_t count, struct board_cell *cells)
{
    for (size_t i = 0; i < count; i++)
        cells[i] = copper(0);
    size_t last = board_view_column_at(view, from + count);
    for (size_t c = board_view_column_at(view, from); c <= last; c++)
        put_number(view, (uint32_t)c, (struct board_cell){'0', LOOK_COLUMN, false}, c, from, count, cells);
}

void board_view_gutter(const struct board_view *view, size_t line, char gutter[GUTTER + 1])
{
    if (line == 0)
        snprintf(gutter, GUTTER + 1, "TOP  ");
    else if (line + 1 == board_view_lines(view))
        snprintf(gutter, GUTTER + 1, "BOT  ");
    else if (line % 2 == 0)
        snprintf(gutter, GUTTER + 1, "%3u  ", (unsigned)(view->tracks + 1 - line / 2) % 1000);
    else
        snprintf(gutter, GUTTER + 1, "     ");
}

void board_view_piece_words(const struct board_view *view, uint32_t number, char words[PIECE_WORDS])
{
    words[0] = '\0';
    if (number < 1 || number > view->pieces)
        return;
    struct piece p = piece_of(view, number);
    if (p.kind == TRUNK)
        snprintf(words, PIECE_WORDS, "a trunk on track %u, columns %u to %u", p.line, p.from, p.to);
    else if (p.kind == BRANCH)
        snprintf(words, PIECE_WORDS, "a branch in column %u, rows %u to %u", p.line, p.from, p.to);
    else if (p.kind == CONTACT && p.from == p.to)
        snprintf(words, PIECE_WORDS, "a contact in column %u on track %u", p.line, p.from);
    else
        snprintf(words, PIECE_WORDS, "kind %u, line %u, from %u, to %u", p.kind, p.line, p.from, p.to);
}

void board_view_piece_place(const struct board_view *view, uint32_t number, size_t *line, size_t *column)
{
    *line = *column = 0;
    if (number < 1 || number > view->pieces)
        return;
    struct piece p = piece_of(view, number);
    *line = board_view_line_of(view, p.kind == TRUNK ? p.line : p.to);
    *column = p.kind == TRUNK ? p.from : p.line;
}
