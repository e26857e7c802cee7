#define NCURSES_WIDECHAR 1
#include "paint.h"

#include <langinfo.h>
#include <ncurses.h>
#include <stdlib.h>
#include <string.h>

enum { PAIR_NONE, PAIR_CYAN, PAIR_YELLOW, PAIR_GREEN, PAIR_RED, PAIR_MAGENTA };

void paint_colours(void)
{
    const char *no_color = getenv("NO_COLOR");
    if ((no_color != NULL && no_color[0] != '\0') || !has_colors())
        return;
    start_color();
    use_default_colors();
    init_pair(PAIR_CYAN, COLOR_CYAN, -1);
    init_pair(PAIR_YELLOW, COLOR_YELLOW, -1);
    init_pair(PAIR_GREEN, COLOR_GREEN, -1);
    init_pair(PAIR_RED, COLOR_RED, -1);
    init_pair(PAIR_MAGENTA, COLOR_MAGENTA, -1);
}

bool paint_has_utf8(void)
{
    return strcmp(nl_langinfo(CODESET), "UTF-8") == 0;
}

int paint_rows(void)
{
    return getmaxy(stdscr);
}

int paint_across(void)
{
    return getmaxx(stdscr);
}

void paint_glyph(int y, int x, wchar_t glyph, enum style style)
{
    static const struct {
        attr_t attributes;
        short pair;
    } looks[STYLES] = {
        [STYLE_PLAIN] = {A_NORMAL, PAIR_NONE}, [STYLE_DIM] = {A_DIM, PAIR_NONE}, [STYLE_STRONG] = {A_BOLD, PAIR_NONE},
        [STYLE_BAR] = {A_REVERSE, PAIR_NONE}, [STYLE_TRUNK] = {A_NORMAL, PAIR_CYAN},
        [STYLE_BRANCH] = {A_NORMAL, PAIR_YELLOW}, [STYLE_CONTACT] = {A_BOLD, PAIR_NONE},
        [STYLE_CROSSING] = {A_DIM, PAIR_NONE}, [STYLE_PIN] = {A_BOLD, PAIR_NONE},
        [STYLE_PARKED] = {A_NORMAL, PAIR_MAGENTA}, [STYLE_GOOD] = {A_BOLD, PAIR_GREEN},
        [STYLE_BAD] = {A_BOLD, PAIR_RED}, [STYLE_MARK] = {A_BOLD | A_REVERSE, PAIR_RED},
        [STYLE_FEWEST] = {A_BOLD, PAIR_YELLOW}, [STYLE_FEWEST_MARK] = {A_BOLD | A_REVERSE, PAIR_YELLOW},
    };
    const wchar_t text[] = {glyph, L'\0'};
    cchar_t cell;
    if (y < 0 || y >= paint_rows() || x < 0 || x >= paint_across())
        return;
    setcchar(&cell, text, looks[style].attributes, looks[style].pair, NULL);
    mvadd_wch(y, x, &cell);
}

/* The character that a text begins with, and its bytes; bytes that are no character of the locale are ? one by one. */
static wchar_t next_character(const char *text, size_t *bytes)
{
    wchar_t wide;
    mbstate_t state;
    memset(&state, 0, sizeof state);
    size_t got = mbrtowc(&wide, text, strlen(text), &state);
    *bytes = 1;
    if (got == 0 || got == (size_t)-1 || got == (size_t)-2)
        return L'?';
    *bytes = got;
    return wcwidth(wide) == 1 && (paint_has_utf8() || wide < 0x7F) ? wide : L'?';
}

int paint_text(int y, int x, int end, const char *text, enum style style)
{
    while (*text != '\0' && x < end) {
        size_t bytes;
        paint_glyph(y, x++, next_character(text, &bytes), style);
        text += bytes;
    }
    return x;
}

/* The bytes of a text that go into a line of so many cells: up to the last space that fits, or as many as fit. */
static size_t line_bytes(const char *text, int cells)
{
    size_t at = 0, space = 0, bytes;
    for (int x = 0; x < cells && text[at] != '\0'; x++) {
        if (text[at] == ' ')
            space = at + 1;
        next_character(text + at, &bytes);
        at += bytes;
    }
    return text[at] == '\0' || text[at] == ' ' || space == 0 ? at : space;
}

int paint_lines(int y, int end, int x, const char *text, enum style style)
{
    return paint_lines_from(y, y, end, x, text, style);
}

int paint_lines_from(int first, int y, int end, int x, const char *text, enum style style)
{
    int cells = paint_across() - x;
    for (; *text != '\0' && y < end && cells > 0; y++) {
        size_t bytes = line_bytes(text, cells);
        for (int at = x; bytes > 0; at++) {
            size_t taken;
            wchar_t glyph = next_character(text, &taken);
            if (y >= first)
                paint_glyph(y, at, glyph, style);
            text += taken;
            bytes -= taken;
        }
        while (*text == ' ')
            text++;
    }
    return y;
}

void paint_bar(int y, enum style style)
{
    for (int x = 0; x < paint_across(); x++)
        paint_glyph(y, x, L' ', style);
}
