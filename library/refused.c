/* The refusals that docs/MANUAL.md shows of C programs: a tray too short and those of a draft, which only they meet,
 * and those of blanks. */
#include <cabjirt.h>
#include <stdio.h>

static void print(uint64_t answer)
{
    printf("REFUSED %u %u\n", (unsigned)cabjirt_number(answer), (unsigned)cabjirt_value(answer));
}

int main(void)
{
    static uint32_t top[CABJIRT_ROW - 1], bot[CABJIRT_ROW];
    static const uint32_t falling[] = {8, 16, 12}, table[] = {8, 16, 24};
    static uint64_t words[CABJIRT_DRAFT];
    print(cabjirt_read((const uint8_t *)"TOP 0\nBOT 0\n", 12, top, CABJIRT_ROW - 1, bot, CABJIRT_ROW));
    print(cabjirt_blank(513));
    print(cabjirt_own_blank(falling, 3, 9));
    print(cabjirt_own_blank(table, 3, 25));
    print(cabjirt_draft_arrive(words, CABJIRT_DRAFT, 7, 5, 5));
    if (cabjirt_draft_arrive(words, CABJIRT_DRAFT, 7, 2, 5) != 0)
        return 1;
    print(cabjirt_draft_arrive(words, CABJIRT_DRAFT, 7, 2, 9));
    print(cabjirt_draft_leave(words, CABJIRT_DRAFT, 8));
    return 0;
}
