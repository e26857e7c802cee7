#include "draft.h"

#include <stdio.h>
#include <string.h>

/* Takes an answer that is due to be a value of at most so much. Of others the first is kept, and each counts as 0. */
static uint32_t value_of(struct draft *draft, uint64_t answer, uint32_t most)
{
    if (answer <= most)
        return (uint32_t)answer;
    if (!draft->wrong) {
        draft->wrong = true;
        draft->number = cabjirt_number(answer);
        draft->value = cabjirt_value(answer);
    }
    return 0;
}

void draft_begin(struct draft *draft)
{
    memset(draft, 0, sizeof *draft);
    value_of(draft, cabjirt_draft_clear(draft->words, CABJIRT_DRAFT), 0);
}

/* The number that a word is, or 0 where it is none of 1 to 511 as a pin list has it. */
static uint32_t net_of(const struct row_text *row, const struct word *word)
{
    uint32_t net = 0;
    if (word->number >= word->end || word->end - word->number > 3 || row->bytes[word->number] == '0')
        return 0;
    for (size_t cell = word->number; cell < word->end; cell++) {
        if (row->bytes[cell] < '0' || row->bytes[cell] > '9')
            return 0;
        net = net * 10 + (row->bytes[cell] - '0');
    }
    return net < DRAFT_NETS ? net : 0;
}

/* Widens each net's columns, from its first pin to its last, to the pins of a row. Answers the last column of 1 to 512
 * that has something. */
static size_t note_row(const struct row_text *row, struct span pins[DRAFT_NETS])
{
    struct word word = row_word_at(row, 0);
    size_t last = 0;
    do {
        uint32_t net = net_of(row, &word), column = (uint32_t)word.column;
        if (word.number < word.end)
            last = word.column;
        if (net != 0 && (pins[net].first == 0 || column < pins[net].first))
            pins[net].first = column;
        if (net != 0 && column > pins[net].last)
            pins[net].last = column;
    } while (word.column < DRAFT_COLUMNS && row_next_word(row, &word));
    return last;
}

/* The spans of all nets of the rows; a net whose pins stand in one column has none. */
static void find_spans(struct draft *draft, const struct pin_text *pins, struct span spans[DRAFT_NETS])
{
    memset(spans, 0, DRAFT_NETS * sizeof *spans);
    draft->columns = 0;
    for (int r = 0; r < ROWS; r++) {
        size_t last = note_row(&pins->rows[r], spans);
        draft->columns = last > draft->columns ? last : draft->columns;
    }
    for (uint32_t net = 1; net < DRAFT_NETS; net++)
        if (spans[net].first == spans[net].last)
            spans[net] = (struct span){0, 0};
}

/* A net whose span changed leaves, if it was there, and arrives, if it still has one. */
static void move_net(struct draft *draft, uint32_t net, struct span span)
{
    struct span before = draft->spans[net];
    if (before.first == span.first && before.last == span.last)
        return;
    if (before.first != 0)
        value_of(draft, cabjirt_draft_leave(draft->words, CABJIRT_DRAFT, net), 0);
    if (span.first != 0 && !draft->wrong)
        value_of(draft, cabjirt_draft_arrive(draft->words, CABJIRT_DRAFT, net, span.first, span.last), 0);
    draft->spans[net] = span;
}

/* Asks for the greatest and all counts; the greatest is that of a column, and none has more. */
static void ask(struct draft *draft)
{
    uint64_t greatest = cabjirt_draft_greatest(draft->words, CABJIRT_DRAFT);
    uint32_t most = 0;
    draft->greatest = value_of(draft, greatest, DRAFT_NETS - 1);
    for (uint32_t c = 0; c < DRAFT_COLUMNS && !draft->wrong; c++) {
        draft->counts[c] = value_of(draft, cabjirt_draft_count(draft->words, CABJIRT_DRAFT, c + 1), draft->greatest);
        most = draft->counts[c] > most ? draft->counts[c] : most;
    }
    value_of(draft, greatest, most);
}

void draft_follow(struct draft *draft, const struct pin_text *pins)
{
    struct span spans[DRAFT_NETS];
    find_spans(draft, pins, spans);
    for (uint32_t net = 1; net < DRAFT_NETS && !draft->wrong; net++)
        move_net(draft, net, spans[net]);
    if (!draft->wrong)
        ask(draft);
}

uint32_t draft_eighths(const struct draft *draft, size_t column)
{
    uint32_t count = draft->counts[column - 1];
    if (count == 0 || count > draft->greatest)
        return 0;
    uint32_t eighths = count * DRAFT_EIGHTHS / draft->greatest;
    return eighths > 0 ? eighths : 1;
}

void draft_wrong_words(const struct draft *draft, size_t across, char words[DRAFT_WORDS])
{
    size_t length = (size_t)snprintf(words, DRAFT_WORDS, "density not known: the library answered number %u, value %u",
                                     draft->number, draft->value);
    if (length > across)
        snprintf(words, DRAFT_WORDS, "density not known: %u %u", draft->number, draft->value);
}
