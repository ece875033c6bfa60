/* The calls of the proved session, with windows by number; run.c has those that write text. */
#include "session.h"

#define CALL(call) (session_begins() ? session_done(call) : ERR)

/* -- windows -- */

/* Ends a call that makes a window, whose attributes are those of a new one. */
static int made(int number, int code) {
    if (code == TICURSES_OK) run_made(number);
    return code;
}

static int copied(int number, int window, int code) {
    if (code == TICURSES_OK) run_copied(number, window);
    return code;
}

int session_newwin(int number, int lines, int columns, int y, int x) {
    return CALL(made(number, ticurses_newwin(&tcu_session, (size_t)number, lines, columns, y, x)));
}

int session_newpad(int number, int lines, int columns) {
    return CALL(made(number, ticurses_newpad(&tcu_session, (size_t)number, lines, columns)));
}

int session_derwin(int number, int parent, int lines, int columns, int y, int x) {
    return CALL(made(number, ticurses_derwin(&tcu_session, (size_t)number, (size_t)parent, lines, columns, y, x)));
}

int session_subpad(int number, int parent, int lines, int columns, int y, int x) {
    return CALL(made(number, ticurses_subpad(&tcu_session, (size_t)number, (size_t)parent, lines, columns, y, x)));
}

int session_dupwin(int number, int window) {
    return CALL(copied(number, window, ticurses_dupwin(&tcu_session, (size_t)number, (size_t)window)));
}

int session_delwin(int window) {
    return CALL(ticurses_delwin(&tcu_session, (size_t)window));
}

int session_mvwin(int window, int y, int x) {
    return CALL(ticurses_mvwin(&tcu_session, (size_t)window, y, x));
}

/* -- characters -- */

int session_insch(int window, chtype cell) {
    return CALL(ticurses_insch(&tcu_session, (size_t)window, session_cell_of(cell)));
}

int session_delch(int window) {
    return CALL(ticurses_delch(&tcu_session, (size_t)window));
}

int session_insertln(int window) {
    return CALL(ticurses_insertln(&tcu_session, (size_t)window));
}

int session_deleteln(int window) {
    return CALL(ticurses_deleteln(&tcu_session, (size_t)window));
}

int session_clrtoeol(int window) {
    return CALL(ticurses_clrtoeol(&tcu_session, (size_t)window));
}

int session_clrtobot(int window) {
    return CALL(ticurses_clrtobot(&tcu_session, (size_t)window));
}

int session_erase(int window) {
    return CALL(ticurses_erase(&tcu_session, (size_t)window));
}

/* A cell of a line or a border; one without a byte is the character of ACS_* for the letter `usual`. */
static ticurses_cell drawn(chtype cell, char usual) {
    return session_cell_of(TCU_BYTE(cell) ? cell : cell | acs_map[(unsigned char)usual]);
}

int session_hline(int window, chtype cell, int count) {
    return CALL(ticurses_hline(&tcu_session, (size_t)window, drawn(cell, 'q'), count));
}

int session_vline(int window, chtype cell, int count) {
    return CALL(ticurses_vline(&tcu_session, (size_t)window, drawn(cell, 'x'), count));
}

int session_border(int window, const chtype cells[8]) {
    const ticurses_frame frame = {
        drawn(cells[0], 'x'), drawn(cells[1], 'x'), drawn(cells[2], 'q'), drawn(cells[3], 'q'),
        drawn(cells[4], 'l'), drawn(cells[5], 'k'), drawn(cells[6], 'm'), drawn(cells[7], 'j'),
    };
    return CALL(ticurses_border(&tcu_session, (size_t)window, &frame));
}

int session_scroll(int window, int count) {
    return CALL(ticurses_scroll(&tcu_session, (size_t)window, count));
}

int session_setscrreg(int window, int top, int bottom) {
    return CALL(ticurses_setscrreg(&tcu_session, (size_t)window, top, bottom));
}

/* -- background, colors -- */

int session_bkgdset(int window, chtype cell) {
    return CALL(ticurses_bkgdset(&tcu_session, (size_t)window, session_cell_of(cell)));
}

int session_bkgd(int window, chtype cell) {
    return CALL(ticurses_bkgd(&tcu_session, (size_t)window, session_cell_of(cell)));
}

int session_init_pair(int pair, int foreground, int background) {
    return CALL(ticurses_init_pair_or_default(&tcu_session, pair, foreground, background));
}

/* -- copying, options -- */

int session_copywin(int source, int target, int source_y, int source_x, int y, int x, int last_y, int last_x,
                    bool is_overlay) {
    return CALL(ticurses_copywin(&tcu_session, (size_t)source, (size_t)target, source_y, source_x, y, x, last_y, last_x,
                                 is_overlay));
}

int session_scrollok(int window, bool is_on) {
    return CALL(ticurses_scrollok(&tcu_session, (size_t)window, is_on));
}

int session_leaveok(int window, bool is_on) {
    return CALL(ticurses_leaveok(&tcu_session, (size_t)window, is_on));
}

int session_clearok(int window, bool is_on) {
    return CALL(ticurses_clearok(&tcu_session, (size_t)window, is_on));
}

/* -- the terminal -- */

int session_refresh(int window) {
    return CALL(ticurses_refresh(&tcu_session, (size_t)window));
}

int session_curs_set(int visibility) {
    return CALL(ticurses_curs_set(&tcu_session, visibility));
}

int session_beep(void) {
    return CALL(ticurses_beep(&tcu_session));
}
