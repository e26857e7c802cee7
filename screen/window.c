#include "window.h"

#include <errno.h>
#include <ncurses.h>
#include <stdlib.h>
#include <string.h>
#include <term.h>
#include <termios.h>
#include <unistd.h>

#include "keys.h"
#include "paint.h"

enum { ESCAPE_MILLISECONDS = 60 };

static const char paste_on[] = "\033[?2004h", paste_off[] = "\033[?2004l";

/* What a signal that ends the program needs to give the terminal back; ncurses may not be called then. */
static struct {
    volatile sig_atomic_t open;
    struct termios before;
    char leave[256];
    size_t length;
} rescue;

static void send(const char *bytes, size_t length)
{
    while (length > 0) {
        ssize_t put = write(STDOUT_FILENO, bytes, length);
        if (put < 0 && errno != EINTR && errno != EAGAIN)
            return;
        if (put > 0) {
            bytes += put;
            length -= (size_t)put;
        }
    }
}

/* Ends as the signal would have it, the terminal given back first. A handler may call all that is called here. */
static void end_by_signal(int number)
{
    sigset_t itself;
    if (rescue.open) {
        rescue.open = 0;
        send(rescue.leave, rescue.length);
        tcsetattr(STDIN_FILENO, TCSAFLUSH, &rescue.before);
    }
    signal(number, SIG_DFL);
    raise(number);
    sigemptyset(&itself);
    sigaddset(&itself, number);
    sigprocmask(SIG_UNBLOCK, &itself, NULL);
}

/* Adds a string of the terminal's description, without its pauses, to what is sent at the end. */
static void add_leaving(const char *name)
{
    const char *text = tigetstr(name);
    if (text == NULL || text == (char *)-1)
        return;
    for (; *text != '\0' && rescue.length < sizeof rescue.leave; text++) {
        if (text[0] == '$' && text[1] == '<' && strchr(text, '>') != NULL)
            text = strchr(text, '>');
        else
            rescue.leave[rescue.length++] = *text;
    }
}

static void prepare_rescue(void)
{
    static const char *const names[] = {"sgr0", "rmkx", "cnorm", "rmcup"};
    rescue.length = sizeof paste_off - 1;
    memcpy(rescue.leave, paste_off, rescue.length);
    for (size_t i = 0; i < sizeof names / sizeof *names; i++)
        add_leaving(names[i]);
    rescue.open = 1;
}

/* A signal that was ignored from the start, as nohup has it, stays so. */
static void handle_unless_ignored(int number)
{
    struct sigaction action, before;
    memset(&action, 0, sizeof action);
    action.sa_handler = end_by_signal;
    sigemptyset(&action.sa_mask);
    if (sigaction(number, NULL, &before) == 0 && before.sa_handler != SIG_IGN)
        sigaction(number, &action, NULL);
}

static sigset_t held_signals(void)
{
    static const int held[] = {SIGWINCH, SIGTSTP, SIGINT, SIGTERM, SIGHUP, SIGQUIT};
    sigset_t set;
    sigemptyset(&set);
    for (size_t i = 0; i < sizeof held / sizeof *held; i++)
        sigaddset(&set, held[i]);
    return set;
}

sigset_t window_waiting_mask(void)
{
    sigset_t now, held = held_signals();
    sigprocmask(SIG_BLOCK, NULL, &now);
    for (int number = 1; number < NSIG; number++)
        if (sigismember(&held, number) == 1)
            sigdelset(&now, number);
    return now;
}

static void handle_signals(void)
{
    static const int ending[] = {
        SIGINT, SIGTERM, SIGHUP, SIGQUIT, SIGABRT, SIGSEGV, SIGBUS, SIGFPE, SIGILL, SIGPIPE, SIGALRM,
    };
    sigset_t held = held_signals();
    for (size_t i = 0; i < sizeof ending / sizeof *ending; i++)
        handle_unless_ignored(ending[i]);
    sigprocmask(SIG_BLOCK, &held, NULL);
}

bool window_can_open(void)
{
    int found = 0;
    if (!isatty(STDIN_FILENO) || !isatty(STDOUT_FILENO) || setupterm(NULL, STDOUT_FILENO, &found) != OK)
        return false;
    const char *move = tigetstr("cup");
    bool can = move != NULL && move != (char *)-1;
    del_curterm(cur_term);
    return can;
}

bool window_open(void)
{
    unsetenv("LINES"); /* the size is the terminal's own, also after it changed */
    unsetenv("COLUMNS");
    if (tcgetattr(STDIN_FILENO, &rescue.before) != 0 || newterm(NULL, stdout, stdin) == NULL)
        return false;
    raw();
    noecho();
    nonl();
    keypad(stdscr, TRUE);
    nodelay(stdscr, TRUE);
    set_escdelay(ESCAPE_MILLISECONDS);
    keys_define();
    paint_colours();
    prepare_rescue();
    handle_signals();
    send(paste_on, sizeof paste_on - 1);
    return true;
}

void window_close(void)
{
    rescue.open = 0;
    endwin();
    send(paste_off, sizeof paste_off - 1);
}

void window_suspend(void)
{
    sigset_t stop;
    sigemptyset(&stop);
    sigaddset(&stop, SIGTSTP);
    send(paste_off, sizeof paste_off - 1);
    kill(0, SIGTSTP); /* to all of the job, as the terminal would; ncurses has a handler for it */
    sigprocmask(SIG_UNBLOCK, &stop, NULL);
    sigprocmask(SIG_BLOCK, &stop, NULL);
    send(paste_on, sizeof paste_on - 1);
    clearok(curscr, TRUE);
}
