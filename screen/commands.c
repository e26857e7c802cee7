#include "commands.h"

#include <stdarg.h>
#include <stdio.h>
#include <string.h>

enum { MEANING_MOST = 3 * WORDS_MOST }; /* a refusal's word, meaning and place in the rows */

/* File names may have anything in them. */
static void hide_controls(char *text)
{
    for (; *text != '\0'; text++)
        if ((unsigned char)*text < 0x20 || *text == 0x7F)
            *text = '?';
}

static void say(struct order *order, const char *format, ...)
{
    va_list values;
    va_start(values, format);
    vsnprintf(order->message, sizeof order->message, format, values);
    va_end(values);
    hide_controls(order->message);
}

/* Chooses from the laminate anew: after every change of it, and of the list's answer. */
static void choose_own(struct order *order)
{
    struct own_blank *own = &order->own;
    const struct laminate *laminate = &order->laminate;
    own->asked = laminate->loaded && !order->answer.verdict.refused;
    own->verdict = (struct verdict){false, 0, 0};
    if (own->asked)
        own->verdict = answer_own_blank(&order->answer, laminate->entries, laminate->count, &own->entry);
    refusal_explain(&order->pins, &order->answer, &own->verdict, &own->finding);
}

void order_begin(struct order *order)
{
    draft_begin(&order->draft);
    order_changed(order);
}

void order_changed(struct order *order)
{
    order->judged.shown = false;
    answer_pins(&order->pins, &order->answer);
    draft_follow(&order->draft, &order->pins);
    choose_own(order);
    parked_find(&order->pins, &order->answer, &order->parked);
    refusal_explain(&order->pins, &order->answer, &order->answer.verdict, &order->finding);
}

bool order_is_unsaved(const struct order *order)
{
    return !pin_text_same(&order->pins, &order->kept);
}

const struct verdict *order_verdict(const struct order *order)
{
    return order->judged.shown ? &order->judged.verdict : &order->answer.verdict;
}

static void view_pins(const struct order *order, struct board_view *view)
{
    board_view_pins(view, order->answer.rows[TOP_ROW], order->answer.rows[BOT_ROW]);
    board_view_parked(view, order->parked.pins[TOP_ROW], order->parked.pins[BOT_ROW]);
}

bool order_view(const struct order *order, struct board_view *view)
{
    const struct answer *answer = &order->answer;
    const struct verdict *verdict = order_verdict(order);
    if (!order->judged.shown) {
        if (verdict->refused || !board_view_open(view, answer->board, answer_board_length(answer)))
            return false;
        view_pins(order, view);
        return true;
    }
    if (!board_view_open(view, order->judged.bytes, order->judged.length))
        return false;
    if (view->width == answer->width)
        view_pins(order, view);
    if (verdict->refused && (verdict->number == 9 || verdict->number == 13))
        view->marked_piece = verdict->place;
    if (verdict->refused && (verdict->number == 11 || verdict->number == 12))
        view->marked_position = verdict->place;
    return true;
}

/* "word: meaning (where)"; a meaning that has the word needs it no second time. */
static void meaning_words(uint32_t number, const struct finding *finding, char meaning[MEANING_MOST])
{
    const char *word = refusal_word(number), *where = finding->where;
    bool said = strstr(finding->meaning, word) != NULL;
    snprintf(meaning, MEANING_MOST, "%s%s%s%s%s%s", said ? "" : word, said ? "" : ": ", finding->meaning,
             *where ? " (" : "", where, *where ? ")" : "");
}

static void remedy_words(const struct finding *finding, char remedy[MESSAGE_MOST])
{
    remedy[0] = '\0';
    if (finding->remedy[0] != '\0')
        snprintf(remedy, MESSAGE_MOST, "What to do: %s.", finding->remedy);
}

/* The entry or the refusal of a laminate, as it stands after the blank; or nothing. */
static void own_words(const struct own_blank *own, char words[WORDS_MOST])
{
    words[0] = '\0';
    if (own->asked && own->verdict.refused)
        snprintf(words, WORDS_MOST, "  own REFUSED %u %u", own->verdict.number, own->verdict.place);
    else if (own->asked)
        snprintf(words, WORDS_MOST, "  own %u", own->entry);
}

void order_summary(const struct order *order, char summary[MESSAGE_MOST])
{
    const struct answer *answer = &order->answer;
    const struct verdict *verdict = order_verdict(order);
    char meaning[MEANING_MOST], own[WORDS_MOST];
    own_words(&order->own, own);
    if (verdict->refused) {
        meaning_words(verdict->number, &order->finding, meaning);
        snprintf(summary, MESSAGE_MOST, "REFUSED %u %u  %s", verdict->number, verdict->place, meaning);
    } else if (order->judged.shown)
        snprintf(summary, MESSAGE_MOST, "GOOD %u  the board is good, on %u tracks", order->judged.tracks,
                 order->judged.tracks);
    else
        snprintf(summary, MESSAGE_MOST, "width %u  tracks %u  blank %u%s  density %u  chain %u  pieces %u",
                 answer->width, answer->tracks, answer->blank, own, answer->density, answer->chain, answer->pieces);
}

void order_remedy(const struct order *order, char remedy[MESSAGE_MOST])
{
    remedy_words(&order->finding, remedy);
}

bool order_own_refusal(const struct order *order, char meaning[MESSAGE_MOST], char remedy[MESSAGE_MOST])
{
    const struct own_blank *own = &order->own;
    if (order->judged.shown || !own->verdict.refused)
        return false;
    meaning_words(own->verdict.number, &own->finding, meaning);
    remedy_words(&own->finding, remedy);
    return true;
}

static const char *entries_word(const struct laminate *laminate)
{
    return laminate->count == 1 ? "entry" : "entries";
}

bool order_own_name(const struct order *order, char words[MESSAGE_MOST])
{
    const struct laminate *laminate = &order->laminate;
    if (order->judged.shown || !order->own.asked)
        return false;
    snprintf(words, MESSAGE_MOST, "own laminate of %zu %s: %s", laminate->count, entries_word(laminate),
             laminate->path);
    hide_controls(words);
    return true;
}

void order_looks(const struct order *order, size_t across, struct looks_bar *bar)
{
    *bar = (struct looks_bar){"", 0, 0};
    if (!order->judged.shown && answer_has_rows(&order->answer))
        looks_bar(order->answer.looks, order->answer.ceiling, across, bar);
}

/* The line that a byte of a text stands in, and its place there, both from 1. */
static size_t line_at(const uint8_t *text, size_t length, size_t offset, size_t *place)
{
    size_t line = 1, start = 0;
    for (size_t i = 0; i < offset && i < length; i++)
        if (text[i] == '\n') {
            line++;
            start = i + 1;
        }
    *place = offset - start + 1;
    return line;
}

/* Says why a file with no two labelled lines is no pin list. */
static void say_garbled(struct order *order, const char *path, const uint8_t *text, size_t length)
{
    struct verdict verdict = answer_text(text, length);
    size_t byte, line = line_at(text, length, verdict.place, &byte);
    say(order, "REFUSED %u %u  %s: not loaded, %s %s at line %zu, byte %zu", verdict.number, verdict.place,
        refusal_word(verdict.number), path, verdict.place < length ? "is no pin list" : "ends too early", line, byte);
}

/* What is told of a list with lines that end in CR LF, which nothing else on the screen shows. */
static const char *ends_words(const struct pin_text *pins)
{
    static const char *const words[2][2] = {
        {"", " (TOP ends in LF, BOT in CR LF)"}, {" (TOP ends in CR LF, BOT in LF)", " (lines end in CR LF)"},
    };
    return words[pins->rows[TOP_ROW].returns][pins->rows[BOT_ROW].returns];
}

/* Reads a file that is to be loaded, and says so if it can't be read. */
static enum file_outcome read_whole(struct order *order, const char *path, uint8_t text[INPUT_LIMIT], size_t *length)
{
    const char *why = "";
    enum file_outcome outcome = file_read(path, text, INPUT_LIMIT, length, &why);
    if (outcome == FILE_FAILED)
        say(order, "cannot read %s: %s", path, why);
    return outcome;
}

enum outcome order_load(struct order *order, const char *path)
{
    uint8_t text[INPUT_LIMIT];
    size_t length = 0;
    enum file_outcome read = read_whole(order, path, text, &length);
    if (read == FILE_FAILED)
        return OUTCOME_FAILED;
    if (read == FILE_TOO_LONG) {
        say(order, "REFUSED 0 %d  %s: not loaded, %s has more than %d bytes", INPUT_LIMIT, refusal_word(0), path,
            INPUT_LIMIT);
        return OUTCOME_REFUSED;
    }
    if (!pin_text_take(&order->pins, text, length)) {
        say_garbled(order, path, text, length);
        return OUTCOME_REFUSED;
    }
    order->kept = order->pins;
    order_changed(order);
    say(order, "loaded %s%s", path, ends_words(&order->pins));
    return OUTCOME_DONE;
}

/* Says why a file is no table. The place stands before the name, of which a long one is cut. */
static void say_stray(struct order *order, const char *path, const uint8_t *text, size_t length, size_t stray)
{
    char words[STRAY_WORDS];
    size_t column, line = line_at(text, length, stray, &column);
    laminate_stray_words(text, length, stray, words);
    say(order, "not loaded: line %zu, column %zu has %s; %s is no table", line, column, words, path);
}

enum outcome order_load_laminate(struct order *order, const char *path)
{
    uint8_t text[INPUT_LIMIT];
    size_t length = 0;
    enum file_outcome read = read_whole(order, path, text, &length);
    if (read == FILE_FAILED)
        return OUTCOME_FAILED;
    if (read == FILE_TOO_LONG) {
        say(order, "not loaded: over %d bytes; %s is no table", INPUT_LIMIT, path);
        return OUTCOME_REFUSED;
    }
    size_t stray = laminate_stray(text, length);
    if (stray < length) {
        say_stray(order, path, text, length, stray);
        return OUTCOME_REFUSED;
    }
    laminate_take(&order->laminate, path, text, length);
    choose_own(order);
    say(order, "loaded %s (%zu %s)", path, order->laminate.count, entries_word(&order->laminate));
    return OUTCOME_DONE;
}

enum outcome order_drop_laminate(struct order *order)
{
    if (!order->laminate.loaded) {
        say(order, "there is no laminate to drop");
        return OUTCOME_REFUSED;
    }
    say(order, "dropped the laminate %s", order->laminate.path);
    order->laminate.loaded = false;
    choose_own(order);
    return OUTCOME_DONE;
}

/* A list has a board exactly if it has one turned over, so that there are tracks before to be told of. */
static void say_turned(struct order *order, uint32_t before)
{
    uint32_t tracks = order->answer.tracks;
    const char *plural = tracks == 1 ? "" : "s";
    if (order->answer.verdict.refused)
        say(order, "turned over");
    else if (tracks == before)
        say(order, "turned over: %u track%s, as before", tracks, plural);
    else
        say(order, "turned over: %u track%s, %u before", tracks, plural, before);
}

enum outcome order_turn(struct order *order)
{
    uint32_t before = order->answer.tracks;
    if (pin_text_empty(&order->pins)) {
        say(order, "there is nothing to turn over");
        return OUTCOME_REFUSED;
    }
    pin_text_turn(&order->pins);
    order_changed(order);
    say_turned(order, before);
    return OUTCOME_DONE;
}

/* Says that a command finds the list refused. */
static enum outcome refused_first(struct order *order, const char *so)
{
    const struct verdict *verdict = &order->answer.verdict;
    say(order, "%s: the pin list is refused (%u %u, %s)", so, verdict->number, verdict->place,
        refusal_word(verdict->number));
    return OUTCOME_REFUSED;
}

/* Writes a file and says what came of it, and `note` of a file that was written. */
static enum outcome save(struct order *order, const char *path, const uint8_t *bytes, size_t length, bool replace,
                         const char *note)
{
    const char *why = "";
    enum file_outcome outcome = file_write(path, bytes, length, replace, &why);
    if (outcome == FILE_EXISTS) {
        say(order, "%s exists", path);
        return OUTCOME_EXISTS;
    }
    if (outcome != FILE_DONE) {
        say(order, "cannot write %s: %s", path, why);
        return OUTCOME_FAILED;
    }
    say(order, "saved %zu bytes as %s%s", length, path, note);
    return OUTCOME_DONE;
}

enum outcome order_save_board(struct order *order, const char *path, bool replace)
{
    const struct answer *answer = &order->answer;
    if (answer->verdict.refused)
        return refused_first(order, "there is no board to save");
    return save(order, path, answer->board, answer_board_length(answer), replace, "");
}

enum outcome order_save_pins(struct order *order, const char *path, bool replace)
{
    uint8_t text[TEXT_MOST];
    size_t length = pin_text_compose(&order->pins, text);
    enum outcome outcome = save(order, path, text, length, replace, ends_words(&order->pins));
    if (outcome == OUTCOME_DONE)
        order->kept = order->pins;
    return outcome;
}

enum outcome order_judge(struct order *order, const char *path)
{
    uint8_t bytes[INPUT_LIMIT];
    size_t length = 0;
    const char *why = "";
    struct judged *judged = &order->judged;
    if (!answer_has_rows(&order->answer))
        return refused_first(order, "no board is judged");
    enum file_outcome outcome = file_read(path, bytes, sizeof bytes, &length, &why);
    if (outcome == FILE_FAILED) {
        say(order, "cannot read %s: %s", path, why);
        return OUTCOME_FAILED;
    }
    judged->shown = true;
    judged->tracks = 0;
    judged->length = outcome == FILE_DONE ? length : 0;
    memcpy(judged->bytes, bytes, judged->length);
    judged->verdict = (struct verdict){true, 0, INPUT_LIMIT};
    if (outcome == FILE_DONE)
        judged->verdict = answer_judge(&order->answer, judged->bytes, judged->length, &judged->tracks);
    refusal_explain(&order->pins, &order->answer, &judged->verdict, &order->finding);
    say(order, "judged %s", path);
    return OUTCOME_DONE;
}
