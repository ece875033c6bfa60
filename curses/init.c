/* The beginning and the end: initscr, newterm, endwin, and how a refresh resumes after it. */
#define _POSIX_C_SOURCE 200809L
#include "private.h"

#include <stdlib.h>
#include <string.h>
#include <sys/select.h>
#include <unistd.h>

#include "../include/ticurses.h"
#include "../include/ticurses_terminal.h"
#define TICURSES_TERM_NO_NAMES /* since these macros are names of variables here */
#include "../include/ticurses/term.h"
#include "calls.h"

struct ticurses_screen tcu;
WINDOW *stdscr, *curscr, *newscr;
int LINES, COLS, COLORS, COLOR_PAIRS, TABSIZE = 8, ESCDELAY = 1000;

/* Why there is no terminal. */
static char fault[512];

static bool found(const char *type) {
    if (!type) type = getenv("TERM");
    if (!type || !*type) {
        snprintf(fault, sizeof fault, "TERM is not set");
        return false;
    }
    if (entry_find(type, tcu.output)) return true;
    snprintf(fault, sizeof fault, "there is no terminfo entry for %s", type);
    return false;
}

/* Makes the windows that exist from the beginning; false if that fails. */
static bool has_windows(void) {
    if (session_newwin(TCU_NEWSCR, 0, 0, 0, 0) != OK || session_newpad(TCU_SCRATCH, 1, TCU_PAD_MAX) != OK) return false;
    stdscr = tcu_made(0, LINES, COLS, NULL);
    if (!stdscr) return false;
    memset(&tcu.newscr, 0, sizeof tcu.newscr);
    tcu.newscr.number = TCU_NEWSCR;
    tcu.newscr.lines = LINES;
    tcu.newscr.columns = COLS;
    tcu.newscr.delay = -1;
    tcu.newscr.background = ' ';
    tcu.newscr.region_bottom = LINES - 1;
    tcu.curscr = tcu.newscr;
    newscr = &tcu.newscr;
    curscr = &tcu.curscr;
    return true;
}

static bool is_begun(const char *type) {
    uint16_t lines, columns;
    int code;
    fflush(tcu.stream);
    if (!found(type)) return false;
    code = ticurses_size(tcu.output, &lines, &columns);
    if (code != TICURSES_OK) snprintf(fault, sizeof fault, "%s", ticurses_text(code));
    if (code != TICURSES_OK || session_open(lines, columns, fault, sizeof fault) != OK) return false;
    LINES = lines;
    COLS = columns;
    tcu.is_ended = tcu.is_current = tcu.is_unfit = tcu.is_cursor_left = tcu.has_colors = tcu.has_default_colors = false;
    tcu.visibility = 1;
    if (!has_windows()) {
        snprintf(fault, sizeof fault, "%s", ticurses_text(TICURSES_NO_MEMORY));
        session_close();
        return false;
    }
    tcu_map_signs();
    tcu_learn_keys();
    signals_begin();
    tcu.is_open = true;
    modes_begin();
    return true;
}

SCREEN *newterm(const char *type, FILE *output, FILE *input) {
    TERMINAL *former = cur_term;
    if (tcu.is_open || !output || !input) return NULL;
    tcu.stream = output;
    tcu.output = fileno(output);
    tcu.input = fileno(input);
    /* getch waits by pselect */
    if (tcu.output < 0 || tcu.input < 0 || tcu.input >= FD_SETSIZE) return NULL;
    if (is_begun(type)) return &tcu;
    entry_leave();
    set_curterm(former);
    return NULL;
}

WINDOW *initscr(void) {
    if (tcu.is_open) return stdscr;
    if (newterm(NULL, stdout, stdin)) return stdscr;
    fprintf(stderr, "Error opening terminal: %s\n", *fault ? fault : "no standard input or output");
    exit(EXIT_FAILURE);
}

SCREEN *set_term(SCREEN *screen) {
    (void)screen;
    return tcu.is_open ? &tcu : NULL;
}

void delscreen(SCREEN *screen) {
    if (!tcu.is_open || screen != &tcu) return;
    if (!tcu.is_ended) endwin();
    for (int number = TCU_WINDOWS - 1; number >= 0; number--) tcu_freed(tcu.windows[number]);
    session_close();
    tcu_forget_keys();
    entry_leave();
    stdscr = curscr = newscr = NULL;
    tcu.is_open = tcu.is_ended = false;
}

/* Leaves the terminal as other programs need it. */
int tcu_suspend(void) {
    int code = OK;
    if (session_is_busy()) {
        /* a handler of the program called endwin during another call */
        signals_leave_terminal();
        tcu.is_ended = true;
        return OK;
    }
    if (tcu.is_current) code = tcu_leave_cursor();
    if (session_end(tcu.output) != OK || tcu_keypad(false) != OK) code = ERR;
    if (modes_are_known() && modes_shell() != OK) code = ERR;
    tcu.is_ended = true;
    tcu.is_current = false;
    return code;
}

/* Resumes after endwin: the terminal may have another size, and may show anything. */
void tcu_resume(void) {
    bool wants_keys = stdscr && stdscr->has_keypad;
    if (!tcu.is_open || !tcu.is_ended) return;
    tcu.is_ended = false;
    fflush(tcu.stream);
    modes_program();
    session_lost();
    for (int number = 0; number < TCU_WINDOWS; number++)
        if (tcu.windows[number] && tcu.windows[number]->has_keypad) wants_keys = true;
    if (wants_keys) tcu_keypad(true);
    tcu_resize();
}

int endwin(void) {
    if (!tcu.is_open) return ERR;
    return tcu.is_ended ? OK : tcu_suspend();
}

bool isendwin(void) {
    return tcu.is_open && tcu.is_ended;
}

void exit_curses(int status) {
    delscreen(&tcu);
    exit(status);
}
