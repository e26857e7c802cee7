/* The text and the board file of an input's rows. */
#include "text.h"

#include <stdio.h>
#include <string.h>

static size_t write_line(char *at, const char *word, const uint32_t *row, size_t length, int width, const char *end)
{
    size_t n = (size_t)sprintf(at, "%s", word);
    for (size_t i = 0; i < length; i++)
        n += (size_t)sprintf(at + n, " %*u", width, row[i]);
    return n + (size_t)sprintf(at + n, "%s", end);
}

void write_spaced_text(struct input *in, int width, const char *top_end, const char *bot_end)
{
    char *at = (char *)in->text;
    size_t n = write_line(at, "TOP", in->top, in->top_length, width, top_end);
    in->text_length = n + write_line(at + n, "BOT", in->bot, in->bot_length, width, bot_end);
}

void write_text(struct input *in)
{
    write_spaced_text(in, 1, "\n", "\n");
}

void draw_file(struct input *in)
{
    static struct lent lent;
    lend(&lent, in);
    uint64_t answer = call(RATTLE, ROUTE, in, &lent);
    size_t pieces = 0;
    if (answer >> 32 == 0) {
        pieces = (size_t)(answer >> 16);
        memcpy(in->file, lent.board, 4 + 4 * pieces);
    } else {
        memset(in->file, 0, 4);
        in->file[0] = (uint8_t)(in->top_length >> 2);
        in->file[1] = (uint8_t)(in->top_length << 6);
    }
    in->file_length = 4 + 4 * pieces;
}
