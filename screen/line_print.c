#include "line_print.h"

#include <stdio.h>
#include <string.h>

enum { LOOKS_ACROSS = 60, PARKED_ACROSS = 100 };

char printable(uint8_t byte)
{
    return byte >= 0x20 && byte <= 0x7E ? (char)byte : '?';
}

/* Puts a sign at the cells of a row's marks; F where the fewest ring's is there already. */
static void put_signs(char *signs, const struct marks *marks, int row, char sign)
{
    for (size_t i = 0; i < marks->count; i++)
        if (marks->at[i].row == row)
            for (size_t cell = ROW_LABEL + marks->at[i].first; cell <= ROW_LABEL + marks->at[i].last; cell++)
                signs[cell] = signs[cell] == 'f' ? 'F' : sign;
}

/* A line of signs at the cells of a row: those of a refusal stand over those of parked pins. */
static void print_row_marks(const struct order *order, int row, char sign)
{
    char signs[ROW_LABEL + ROW_LIMIT + 1];
    const struct parked *parked = &order->parked;
    size_t end = sizeof signs;
    memset(signs, ' ', sizeof signs);
    for (size_t i = 0; i < parked->count; i++)
        if (parked->marks[i].row == row)
            signs[ROW_LABEL + parked->marks[i].last] = 'p';
    put_signs(signs, &order->finding.fewest, row, 'f');
    put_signs(signs, &order->finding.marks, row, sign);
    while (end > 0 && signs[end - 1] == ' ')
        end--;
    if (end > 0)
        printf("%.*s\n", (int)end, signs);
}

static void print_rows(const struct order *order)
{
    print_row_marks(order, TOP_ROW, 'v');
    for (int r = 0; r < ROWS; r++) {
        const struct row_text *row = &order->pins.rows[r];
        printf("%s ", row_names[r]);
        for (size_t i = 0; i < row->length; i++)
            putchar(printable(row->bytes[i]));
        putchar('\n');
    }
    print_row_marks(order, BOT_ROW, '^');
}

/* The density of each column, or that it is not known. Answers whether it is. */
static bool print_density(const struct draft *draft)
{
    char words[DRAFT_WORDS];
    if (draft->wrong) {
        draft_wrong_words(draft, DRAFT_WORDS, words);
        printf("%s\n", words);
        return false;
    }
    for (size_t c = 0; c < draft->columns; c++)
        printf(c == 0 ? "DENSITY %u" : " %u", draft->counts[c]);
    if (draft->columns > 0)
        putchar('\n');
    return true;
}

static void print_cells(const char *gutter, const struct board_cell *cells, size_t count)
{
    size_t end = count, gutter_end = GUTTER;
    while (end > 0 && cells[end - 1].ascii == ' ')
        end--;
    while (end == 0 && gutter_end > 0 && gutter[gutter_end - 1] == ' ')
        gutter_end--;
    printf("%.*s", (int)gutter_end, gutter);
    for (size_t i = 0; i < end; i++) {
        bool pin = cells[i].look == LOOK_PIN || cells[i].look == LOOK_PARKED;
        putchar(cells[i].marked && !pin ? '#' : cells[i].ascii);
    }
    putchar('\n');
}

/* A sign over or under the pin of a marked position. */
static void print_position_mark(const struct board_view *view, bool top, char sign)
{
    uint32_t position = view->marked_position;
    if (position == 0 || (position <= view->width) != top)
        return;
    size_t cell = board_view_cell_of(view, top ? position : position - view->width);
    printf("%*s%c\n", (int)(GUTTER + cell), "", sign);
}

static void print_drawing(const struct board_view *view)
{
    struct board_cell cells[DRAWING_MOST];
    char gutter[GUTTER + 1];
    size_t count = board_view_cells(view);
    board_view_ruler(view, 0, count, cells);
    print_cells("col  ", cells, count);
    print_position_mark(view, true, 'v');
    for (size_t line = 0; line < board_view_lines(view); line++) {
        board_view_gutter(view, line, gutter);
        board_view_line(view, line, 0, count, cells);
        print_cells(gutter, cells, count);
    }
    print_position_mark(view, false, '^');
}

static void print_ring(const uint32_t *ring, uint32_t count)
{
    char words[WORDS_MOST];
    for (uint32_t pair = 0; pair < count; pair++) {
        ring_words(ring, count, pair, words);
        printf("%s\n", words);
    }
}

/* The ring of the walk, and the one with the fewest nets. */
static void print_rings(const struct answer *answer)
{
    char words[WORDS_MOST];
    print_ring(answer->ring, answer->verdict.place);
    bool other = fewest_words(answer, words);
    printf("%s\n", words);
    if (other)
        print_ring(answer->fewest.ring, answer->fewest.count);
}

static void print_looks(const struct order *order)
{
    struct looks_bar bar;
    order_looks(order, LOOKS_ACROSS, &bar);
    if (bar.text[0] != '\0')
        printf("%s\n", bar.text);
}

/* The entries and the name of a laminate beside a blank; why it is refused, and what to do. Answers whether it is. */
static bool print_own(const struct order *order)
{
    char text[MESSAGE_MOST], remedy[MESSAGE_MOST];
    if (order_own_name(order, text))
        printf("%s\n", text);
    bool refused = order_own_refusal(order, text, remedy);
    if (refused)
        printf("%s\n%s\n", text, remedy);
    return refused;
}

void print_parked(const struct order *order)
{
    char words[PARKED_WORDS];
    parked_words(&order->parked, PARKED_ACROSS, words);
    if (words[0] != '\0')
        printf("%s\n", words);
}

bool print_order(const struct order *order)
{
    char text[MESSAGE_MOST], words[PIECE_WORDS];
    struct board_view view;
    const struct verdict *verdict = order_verdict(order);
    print_rows(order);
    bool known = print_density(&order->draft);
    order_summary(order, text);
    printf("%s\n", text);
    bool own_refused = print_own(order);
    print_looks(order);
    print_parked(order);
    order_remedy(order, text);
    if (text[0] != '\0')
        printf("%s\n", text);
    if (!order->judged.shown && verdict->refused && verdict->number == 7)
        print_rings(&order->answer);
    if (order_view(order, &view)) {
        board_view_piece_words(&view, view.marked_piece, words);
        if (words[0] != '\0')
            printf("piece %u: %s\n", view.marked_piece, words);
        print_drawing(&view);
    }
    return known && !verdict->refused && !own_refused;
}
