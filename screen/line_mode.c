#include "line_mode.h"

#include <stdio.h>
#include <string.h>

#include "line_print.h"

enum { LINE_MOST = ROW_LABEL + ROW_LIMIT + 1 }; /* with a carriage return at the end */

static const char help[] =
    "TOP n n ..         sets the TOP row, one number a column, 0 for no pin\n"
    "BOT n n ..         sets the BOT row\n"
    "turn               exchanges TOP and BOT, and tells the tracks now and before\n"
    "show               answers the list: its board, or why it is refused\n"
    "load FILE          takes a pin list from a file\n"
    "laminate FILE      takes a customer's own laminate, a table of track counts, from a file\n"
    "laminate           drops it\n"
    "save FILE          writes the board file; a file that exists is kept\n"
    "replace FILE       writes the board file, also over one that exists\n"
    "save-pins FILE     writes the pin list; a file that exists is kept\n"
    "replace-pins FILE  writes the pin list, also over one that exists\n"
    "judge FILE         judges a board file against the list\n"
    "help               prints this\n"
    "quit               ends\n"
    "Lines may end in CR LF; a row that is set so is saved so.\n"
    "In the answers p marks a parked pin: its number stands just once, and it gets no copper.\n"
    "v and ^ mark what is refused, f the numbers of the ring with the fewest nets, F those of both rings.\n"
    "DENSITY tells how many nets lie over each column, each from its first column with a pin to its last.\n"
    "The bar: looks that the routing took, of the most that so many nets take. For each track the\n"
    "router looks once at every net that is not placed yet.\n"
    "The exit status is 1 if any command or list was refused or a board is faulty, else 0.\n";

/* One line of input without its end. */
struct line {
    char text[LINE_MOST + 1];
    size_t length;
    bool returns;  /* it ended in CR LF, else in LF */
    bool too_long; /* the rest of the line was read and dropped */
};

static bool read_line(struct line *line)
{
    int byte = getchar();
    if (byte == EOF)
        return false;
    line->length = 0;
    line->too_long = false;
    for (; byte != EOF && byte != '\n'; byte = getchar()) {
        if (line->length < LINE_MOST)
            line->text[line->length++] = (char)byte;
        else
            line->too_long = true;
    }
    line->returns = line->length > 0 && line->text[line->length - 1] == '\r';
    line->length -= line->returns;
    line->text[line->length] = '\0';
    return true;
}

/* One clear line on standard error, after what was answered so far. */
static bool complain(unsigned long number, const char *what, const char *about)
{
    fflush(stdout);
    fprintf(stderr, "order: line %lu: %s", number, what);
    for (size_t i = 0; about[i] != '\0' && i < 60; i++)
        fputc(printable((uint8_t)about[i]), stderr);
    fputc('\n', stderr);
    return false;
}

/* What came of a command: its message on standard output, or where it failed on standard error. */
static bool told(const struct order *order, unsigned long number, bool done)
{
    if (!done) {
        fflush(stdout);
        fprintf(stderr, "order: line %lu: %s\n", number, order->message);
        return false;
    }
    printf("%s\n", order->message);
    return true;
}

static bool load(struct order *order, const char *path, unsigned long number)
{
    return told(order, number, order_load(order, path) == OUTCOME_DONE);
}

static bool load_laminate(struct order *order, const char *path, unsigned long number)
{
    return told(order, number, order_load_laminate(order, path) == OUTCOME_DONE);
}

static bool judge(struct order *order, const char *path, unsigned long number)
{
    return told(order, number, order_judge(order, path) == OUTCOME_DONE) && print_order(order);
}

/* Tells how a saving ended that writes over no file; `exists` says which command does. */
static bool saved(struct order *order, enum outcome outcome, const char *exists, const char *path, unsigned long number)
{
    if (outcome == OUTCOME_EXISTS)
        return complain(number, exists, path);
    return told(order, number, outcome == OUTCOME_DONE);
}

/* Tells, of a board that was saved, which pins are parked: the list may not have been shown. */
static bool saved_board(const struct order *order, bool done)
{
    if (done)
        print_parked(order);
    return done;
}

static bool save(struct order *order, const char *path, unsigned long number)
{
    return saved_board(order, saved(order, order_save_board(order, path, false),
                                    "the file exists, and only 'replace' writes over it: ", path, number));
}

static bool replace(struct order *order, const char *path, unsigned long number)
{
    return saved_board(order, told(order, number, order_save_board(order, path, true) == OUTCOME_DONE));
}

static bool save_pins(struct order *order, const char *path, unsigned long number)
{
    return saved(order, order_save_pins(order, path, false),
                 "the file exists, and only 'replace-pins' writes over it: ", path, number);
}

static bool replace_pins(struct order *order, const char *path, unsigned long number)
{
    return told(order, number, order_save_pins(order, path, true) == OUTCOME_DONE);
}

/* The commands that take a file name; each answers whether nothing was refused. */
static const struct file_command {
    const char *word;
    bool (*run)(struct order *order, const char *path, unsigned long number);
} file_commands[] = {
    {"load", load}, {"laminate", load_laminate}, {"save", save}, {"replace", replace}, {"save-pins", save_pins},
    {"replace-pins", replace_pins}, {"judge", judge},
};

static bool run_on_file(struct order *order, const struct file_command *command, const char *path, unsigned long number)
{
    if (path[0] == '\0')
        return complain(number, "a file name is missing after ", command->word);
    if (strlen(path) >= PATH_LIMIT)
        return complain(number, "too long a file name: ", path);
    return command->run(order, path, number);
}

/* The row's line ends as the command's does. */
static bool set_row(struct order *order, const struct line *line, unsigned long number)
{
    struct row_text *row = &order->pins.rows[memcmp(line->text, "TOP ", ROW_LABEL) == 0 ? TOP_ROW : BOT_ROW];
    const uint8_t *bytes = (const uint8_t *)line->text + ROW_LABEL;
    if (line->too_long || !row_set(row, bytes, line->length - ROW_LABEL))
        return complain(number, "REFUSED 0 65536  not taken: a row of more than 65536 bytes is ", refusal_word(0));
    row->returns = line->returns;
    order_changed(order);
    return true;
}

static bool command(struct order *order, struct line *line, unsigned long number)
{
    char *space = strchr(line->text, ' ');
    size_t length = space == NULL ? line->length : (size_t)(space - line->text);
    if (space == line->text + 3 && (memcmp(line->text, "TOP", 3) == 0 || memcmp(line->text, "BOT", 3) == 0))
        return set_row(order, line, number);
    if (line->too_long || strlen(line->text) != line->length)
        return complain(number, "this is no command (try help): ", line->text);
    if (strcmp(line->text, "show") == 0) {
        order_changed(order); /* a board judged before gives way to the list's own */
        return print_order(order);
    }
    if (strcmp(line->text, "turn") == 0)
        return told(order, number, order_turn(order) == OUTCOME_DONE);
    if (strcmp(line->text, "laminate") == 0)
        return told(order, number, order_drop_laminate(order) == OUTCOME_DONE);
    if (strcmp(line->text, "help") == 0)
        return fputs(help, stdout) >= 0;
    for (size_t i = 0; i < sizeof file_commands / sizeof *file_commands; i++)
        if (strlen(file_commands[i].word) == length && memcmp(line->text, file_commands[i].word, length) == 0)
            return run_on_file(order, &file_commands[i], space == NULL ? "" : space + 1, number);
    return complain(number, "this is no command (try help): ", line->text);
}

int line_mode(struct order *order, bool refused_already)
{
    struct line line;
    bool refused = refused_already;
    for (unsigned long number = 1; read_line(&line); number++) {
        if (strcmp(line.text, "quit") == 0 && line.length == 4)
            break;
        if (line.length > 0 && !command(order, &line, number))
            refused = true;
        fflush(stdout);
    }
    if (fflush(stdout) != 0 || ferror(stdout)) {
        fprintf(stderr, "order: the answers could not be written\n");
        return 2;
    }
    return refused ? 1 : 0;
}
