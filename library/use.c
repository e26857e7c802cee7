/* The program that docs/MANUAL.md names: a pin list in; tracks, blank and board file out, judged. It is C and C++. */
#include <cabjirt.h>
#include <stdio.h>
#include <string.h>

static uint32_t top[CABJIRT_ROW], bot[CABJIRT_ROW], ring[CABJIRT_RING], scratch[CABJIRT_SCRATCH];
static uint8_t board[CABJIRT_BOARD];

static int refused(uint64_t answer)
{
    printf("REFUSED %u %u\n", (unsigned)cabjirt_number(answer), (unsigned)cabjirt_value(answer));
    return 1;
}

int main(void)
{
    const char *text = "TOP 0 1 2 3\nBOT 1 2 0 3\n";
    uint64_t read = cabjirt_read((const uint8_t *)text, strlen(text), top, CABJIRT_ROW, bot, CABJIRT_ROW);
    if (cabjirt_number(read) != 0)
        return refused(read);
    uint32_t width = cabjirt_value(read);
    uint64_t route = cabjirt_route(top, width, bot, width, ring, CABJIRT_RING, board, CABJIRT_BOARD);
    if (cabjirt_number(route) != 0)
        return refused(route);
    uint32_t pieces = cabjirt_value(route) / 65536, tracks = cabjirt_value(route) % 65536;
    uint64_t judged = cabjirt_judge(top, width, bot, width, board, 4 + 4 * pieces, scratch, CABJIRT_SCRATCH);
    if (cabjirt_number(judged) != 0)
        return refused(judged);
    printf("width %u, tracks %u, pieces %u, blank %u\n", (unsigned)width, (unsigned)tracks, (unsigned)pieces,
           (unsigned)cabjirt_value(cabjirt_blank(tracks)));
    return 0;
}
