/* The current terminal: its entry, and its size. */
#define _DEFAULT_SOURCE /* for ioctl's sizes of terminals */
#include "private.h"

#include <errno.h>
#include <limits.h>
#include <stdio.h>
#include <stdlib.h>
#include <string.h>
#include <sys/ioctl.h>
#include <termios.h>
#include <unistd.h>

TERMINAL *cur_term;

/* Answers that there is a failure, or prints it and ends the program. `form` is a format for the terminal's name. */
static int fails(int *status, int code, const char *form, const char *name) {
    if (!status) {
        fprintf(stderr, form, name);
        exit(EXIT_FAILURE);
    }
    *status = code;
    return ERR;
}

/* The number that a variable has; -1 if it has none, or one that isn't positive. */
static int variable(const char *name) {
    const char *text = getenv(name);
    char *end;
    long number;
    if (!text || !*text) return -1;
    number = strtol(text, &end, 0);
    return *end || number < 1 || number > INT_MAX ? -1 : (int)number;
}

/* The terminal's size, as ncurses takes it: LINES and COLUMNS of the environment, then what the terminal says, then the
 * entry, then 24 by 80. The entry has this size from then on. */
static void measure(TERMINAL *terminal) {
    struct winsize size;
    int known, lines = variable("LINES"), columns = variable("COLUMNS");
    memset(&size, 0, sizeof size);
    do {
        known = ioctl(terminal->fd, TIOCGWINSZ, &size);
    } while (known != 0 && errno == EINTR);
    if (lines < 1 && known == 0) lines = size.ws_row;
    if (columns < 1 && known == 0) columns = size.ws_col;
    if (lines < 1) lines = terminal->numbers[TINFO_AT_lines];
    if (columns < 1) columns = terminal->numbers[TINFO_AT_columns];
    tinfo_set_number(terminal, TINFO_AT_lines, lines < 1 ? 24 : lines);
    tinfo_set_number(terminal, TINFO_AT_columns, columns < 1 ? 80 : columns);
}

/* Whether this is a terminal's current name and descriptor. */
static bool is_current(const char *name, int fd) {
    return cur_term && cur_term->fd == fd && strcmp(cur_term->name, name) == 0;
}

/* Makes a terminal with the entry of this name. Returns what tinfo_find does, -2 if memory ran out. */
static int make(TERMINAL **made, const char *name, int fd) {
    TERMINAL *terminal = calloc(1, sizeof *terminal);
    struct termios modes;
    int found = -2;
    if (terminal) terminal->name = strdup(name);
    if (terminal && terminal->name) found = tinfo_find(terminal, name);
    if (found != 1) {
        tinfo_free(terminal);
        return found;
    }
    terminal->fd = fd;
    if (tcgetattr(fd, &modes) == 0) terminal->speed = (short)cfgetospeed(&modes);
    *made = terminal;
    return found;
}

/* Says of the current terminal whether a program can draw on it. */
static int judge(int *status, const char *name) {
    char **strings = cur_term->strings;
    bool moves = strings[TINFO_AT_cursor_address] ||
                 (strings[TINFO_AT_cursor_down] && strings[TINFO_AT_cursor_home]);
    if (cur_term->flags[TINFO_AT_generic_type]) {
        if (moves && strings[TINFO_AT_clear_screen])
            return fails(status, 1, "'%s': terminal is not really generic.\n", name);
        del_curterm(cur_term);
        return fails(status, 0, "'%s': I need something more specific.\n", name);
    }
    if (cur_term->flags[TINFO_AT_hard_copy])
        return fails(status, 1, "'%s': I can't handle hardcopy terminals.\n", name);
    if (status) *status = 1;
    return OK;
}

int tinfo_set_up(const char *name, int fd, int *status, bool reuses) {
    TERMINAL *made;
    if (!name) {
        name = getenv("TERM");
        if (!name || !*name) return fails(status, -1, "TERM environment variable not set.\n", "");
    }
    if (strlen(name) > TINFO_NAME_MAX) return fails(status, -1, "'%.20s..': the name is too long.\n", name);
    /* where output goes to a file, the terminal is asked about by standard error */
    if (fd == STDOUT_FILENO && !isatty(fd)) fd = STDERR_FILENO;
    if (!reuses || !is_current(name, fd)) {
        switch (make(&made, name, fd)) {
        case 1: set_curterm(made); break;
        case 0: return fails(status, 0, "'%s': unknown terminal type.\n", name);
        case -1: return fails(status, -1, "terminals database is inaccessible\n", name);
        default: return fails(status, -1, "'%s': out of memory.\n", name);
        }
    }
    measure(cur_term);
    return judge(status, name);
}

int setupterm(const char *name, int fd, int *status) {
    return tinfo_set_up(name, fd, status, false);
}

int restartterm(const char *name, int fd, int *status) {
    setupterm(name, fd, status);
    return ERR;
}

TERMINAL *set_curterm(TERMINAL *terminal) {
    TERMINAL *before = cur_term;
    cur_term = terminal;
    if (terminal) {
        const char *pad = terminal->strings[TINFO_AT_pad_char];
        ospeed = terminal->speed;
        PC = pad ? pad[0] : 0;
    }
    return before;
}

int del_curterm(TERMINAL *terminal) {
    if (!terminal) return ERR;
    if (terminal == cur_term) cur_term = NULL;
    tinfo_forget(terminal);
    tinfo_free(terminal);
    return OK;
}
