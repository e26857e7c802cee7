#include "editor.h"

#include "keys.h"

void editor_clamp(struct editor *editor, const struct pin_text *pins)
{
    size_t length = pins->rows[editor->row].length;
    if (editor->cell > length)
        editor->cell = length;
}

static enum edit move_to(struct editor *editor, const struct pin_text *pins, size_t cell)
{
    editor->cell = cell;
    editor_clamp(editor, pins);
    return EDIT_MOVED;
}

/* To the other row, in the same column and as far from its right edge; to the end of a row that has no such column. */
static enum edit change_row(struct editor *editor, const struct pin_text *pins, int row)
{
    struct word here = row_word_at(&pins->rows[editor->row], editor->cell), there;
    if (row == editor->row)
        return EDIT_MOVED;
    size_t back = here.end - editor->cell;
    bool found = row_word_of(&pins->rows[row], here.column, &there);
    editor->row = row;
    editor->cell = !found ? pins->rows[row].length : there.end - there.first < back ? there.first : there.end - back;
    return EDIT_MOVED;
}

static enum edit type_byte(struct editor *editor, struct pin_text *pins, uint8_t byte)
{
    if (!row_insert(&pins->rows[editor->row], editor->cell, byte))
        return EDIT_FULL;
    editor->cell++;
    return EDIT_CHANGED;
}

/* A carriage return before the cursor may leave the row together with the byte. */
static enum edit erase(struct editor *editor, struct pin_text *pins, size_t cell)
{
    if (!row_remove(&pins->rows[editor->row], cell))
        return EDIT_MOVED;
    move_to(editor, pins, cell);
    return EDIT_CHANGED;
}

static enum edit clear_row(struct editor *editor, struct pin_text *pins)
{
    pins->rows[editor->row].length = 0;
    editor->cell = 0;
    return EDIT_CHANGED;
}

enum edit editor_key(struct editor *editor, struct pin_text *pins, int key)
{
    switch (key) {
    case K_LEFT: return move_to(editor, pins, editor->cell > 0 ? editor->cell - 1 : 0);
    case K_RIGHT: return move_to(editor, pins, editor->cell + 1);
    case K_HOME: case CONTROL('A'): return move_to(editor, pins, 0);
    case K_END: case CONTROL('E'): return move_to(editor, pins, pins->rows[editor->row].length);
    case K_UP: return change_row(editor, pins, TOP_ROW);
    case K_DOWN: return change_row(editor, pins, BOT_ROW);
    case K_TAB: case K_ENTER: return change_row(editor, pins, 1 - editor->row);
    case K_BACKSPACE: return editor->cell > 0 ? erase(editor, pins, editor->cell - 1) : EDIT_MOVED;
    case K_DELETE: return erase(editor, pins, editor->cell);
    case CONTROL('U'): return clear_row(editor, pins);
    default: break;
    }
    if (key == ' ' || (key >= '0' && key <= '9'))
        return type_byte(editor, pins, (uint8_t)key);
    return key > ' ' && key < K_UP ? EDIT_NO_CHARACTER : EDIT_NONE;
}

/* Whether a mark stands before a cell: TOP before BOT, each from the left. */
static bool stands_before(const struct mark *mark, int row, size_t cell)
{
    return mark->row < row || (mark->row == row && mark->first < cell);
}

/* The first mark of a list that does not stand before a place, unless `near`, which does not either, is nearer. */
static const struct mark *nearer(const struct mark *near, const struct mark *marks, size_t count, int row, size_t cell)
{
    for (size_t i = 0; i < count; i++)
        if (!stands_before(&marks[i], row, cell) && (near == NULL || stands_before(&marks[i], near->row, near->first)))
            near = &marks[i];
    return near;
}

/* The first mark of all that does not stand before a place, or NULL. */
static const struct mark *first_mark(const struct finding *finding, const struct parked *parked, int row, size_t cell)
{
    const struct mark *to = nearer(NULL, finding->marks.at, finding->marks.count, row, cell);
    to = nearer(to, finding->fewest.at, finding->fewest.count, row, cell);
    return nearer(to, parked->marks, parked->count, row, cell);
}

void editor_to_mark(struct editor *editor, const struct finding *finding, const struct parked *parked)
{
    const struct mark *to = first_mark(finding, parked, editor->row, editor->cell + 1);
    if (to == NULL)
        to = first_mark(finding, parked, TOP_ROW, 0);
    if (to == NULL)
        return;
    editor->row = to->row;
    editor->cell = to->first;
}
