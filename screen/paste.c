#include "paste.h"

#include <string.h>

#include "keys.h"

void paste_begin(struct paste *paste)
{
    paste->open = true;
    paste->too_long = false;
    paste->length = 0;
}

void paste_key(struct paste *paste, int key)
{
    if (key == K_PASTE_END || key == K_ESCAPE)
        paste->open = false;
    else if (key >= K_UP)
        return;
    else if (paste->length + 1 < PASTE_MOST)
        paste->bytes[paste->length++] = (uint8_t)key;
    else
        paste->too_long = true;
}

/* Each line ends in LF but for the last one, which has no end; tabs are spaces. */
static void tidy(struct paste *paste)
{
    size_t length = 0;
    for (size_t i = 0; i < paste->length; i++) {
        uint8_t byte = paste->bytes[i];
        if (byte == '\n' && i > 0 && paste->bytes[i - 1] == '\r')
            continue;
        paste->bytes[length++] = byte == '\t' ? ' ' : byte;
    }
    for (size_t i = 0; i < length; i++)
        if (paste->bytes[i] == '\r')
            paste->bytes[i] = '\n';
    if (length > 0 && paste->bytes[length - 1] == '\n')
        length--;
    paste->length = length;
}

/* A line of the text: the row that its label names, or none, and what stands after the label. */
struct line {
    int row;
    const uint8_t *bytes;
    size_t length;
};

static struct line line_of(const uint8_t *bytes, size_t length)
{
    for (int r = 0; r < ROWS; r++)
        if (length >= ROW_LABEL && memcmp(bytes, row_names[r], ROW_LABEL - 1) == 0 && bytes[ROW_LABEL - 1] == ' ')
            return (struct line){r, bytes + ROW_LABEL, length - ROW_LABEL};
    return (struct line){-1, bytes, length};
}

static bool fits(const struct line *line)
{
    for (size_t i = 0; i < line->length; i++)
        if (line->bytes[i] != ' ' && (line->bytes[i] < '0' || line->bytes[i] > '9'))
            return false;
    return true;
}

static enum edit set_both(struct pin_text *pins, const struct line lines[ROWS])
{
    bool labelled = lines[0].row == TOP_ROW && lines[1].row == BOT_ROW, plain = lines[0].row < 0 && lines[1].row < 0;
    if ((!labelled && !plain) || !fits(&lines[0]) || !fits(&lines[1]))
        return EDIT_NO_CHARACTER;
    if (lines[0].length > ROW_LIMIT || lines[1].length > ROW_LIMIT)
        return EDIT_FULL;
    for (int r = 0; r < ROWS; r++)
        row_set(&pins->rows[r], lines[r].bytes, lines[r].length);
    return EDIT_CHANGED;
}

static enum edit set_one(struct editor *editor, struct pin_text *pins, const struct line *line)
{
    if (!fits(line))
        return EDIT_NO_CHARACTER;
    if (line->row >= 0) {
        editor->row = line->row;
        editor->cell = line->length;
        return row_set(&pins->rows[line->row], line->bytes, line->length) ? EDIT_CHANGED : EDIT_FULL;
    }
    struct row_text *row = &pins->rows[editor->row];
    if (line->length > ROW_LIMIT - row->length)
        return EDIT_FULL;
    for (size_t i = 0; i < line->length; i++)
        row_insert(row, editor->cell++, line->bytes[i]);
    return EDIT_CHANGED;
}

enum edit paste_into_rows(struct paste *paste, struct editor *editor, struct pin_text *pins)
{
    if (paste->too_long)
        return EDIT_FULL;
    tidy(paste);
    const uint8_t *feed = memchr(paste->bytes, '\n', paste->length);
    size_t first = feed == NULL ? paste->length : (size_t)(feed - paste->bytes);
    struct line lines[ROWS] = {line_of(paste->bytes, first)};
    enum edit edit;
    if (feed == NULL) {
        edit = set_one(editor, pins, &lines[0]);
    } else {
        lines[1] = line_of(feed + 1, paste->length - first - 1);
        if (memchr(feed + 1, '\n', paste->length - first - 1) != NULL)
            return EDIT_TOO_MANY_LINES;
        edit = set_both(pins, lines);
    }
    editor_clamp(editor, pins);
    return edit;
}

const char *paste_first_line(struct paste *paste)
{
    size_t length = 0;
    while (length < paste->length && paste->bytes[length] != '\n' && paste->bytes[length] != '\r')
        length++;
    paste->bytes[length] = '\0';
    return (const char *)paste->bytes;
}
