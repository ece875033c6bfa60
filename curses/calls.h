/* The proved session: a function for each call that this library makes of it. Only session.c, run.c and calls.c know
 * how a call reaches the session. Each function returns OK, or ERR if the call was refused; docs/LIBRARY.md says what
 * a refused call changes. */
#ifndef TICURSES_CURSES_CALLS_H
#define TICURSES_CURSES_CALLS_H

#include "private.h"

/* Whether a handler of the program has interrupted one of these calls: all of them return ERR then. */
bool session_is_busy(void);

/* Opens the session for the entry and the size, without strings that are wrong if a terminal can do without them and
 * TICURSES_STRICT isn't 1. If it can't, it writes why to `reason`, at most `room_len` bytes. */
int session_open(int lines, int columns, char *reason, size_t room_len);
/* Opens a session of another size, which session_begin_next puts in place of this one. session_former_cell can read the
 * former one until session_forget_former. */
int session_open_next(int lines, int columns);
int session_begin_next(void);
int session_former_cell(int window, int y, int x, chtype *cell);
void session_forget_former(void);
void session_close(void);
/* Writes the session's output to `fd`. The session is lost if a write fails or a signal is to end the program. */
int session_send(int fd);
/* Writes the session's output to `fd`, and then `count` bytes that aren't the session's. */
int session_send_beside(int fd, const char *bytes, size_t count);
/* Ends the session and sends what leaves the terminal as other programs need it. */
int session_end(int fd);
/* Whether the terminal has got output that session_end hasn't ended. */
bool session_is_up(void);
/* Records that the terminal may show anything: the next refresh repairs it. */
void session_lost(void);

int session_cell(int window, int y, int x, chtype *cell);

/* These keep text, the cursor and the attributes of the text, and pass them to the session when another call is made
 * (run.c). */
int session_cursor(int window, int *y, int *x);
int session_move(int window, int y, int x);
int session_addch(int window, chtype cell);
/* sets attributes and pair together */
int session_attrset(int window, chtype attrs);
/* These write printable characters in the cursor's line, and store the place of the first in `y` and `x`. They may fill
 * the line, unless it is the window's last one or `bottom`, the last one of its scrolling region. session_put writes one
 * character, and returns false if it can't; session_write writes as many as the text begins with, and returns their
 * number. */
bool session_put(int window, chtype cell, int bottom, int *y, int *x);
size_t session_write(int window, const char *text, size_t len, int bottom, int *y, int *x);

int session_newwin(int number, int lines, int columns, int y, int x);
int session_newpad(int number, int lines, int columns);
int session_derwin(int number, int parent, int lines, int columns, int y, int x);
int session_subpad(int number, int parent, int lines, int columns, int y, int x);
int session_dupwin(int number, int window);
int session_delwin(int window);
int session_mvwin(int window, int y, int x);

int session_insch(int window, chtype cell);
int session_delch(int window);
int session_insertln(int window);
int session_deleteln(int window);
int session_clrtoeol(int window);
int session_clrtobot(int window);
int session_erase(int window);
/* in these three calls a cell without a byte is the default one */
int session_hline(int window, chtype cell, int count);
int session_vline(int window, chtype cell, int count);
int session_border(int window, const chtype cells[8]);
int session_scroll(int window, int count);
int session_setscrreg(int window, int top, int bottom);

int session_bkgdset(int window, chtype cell);
int session_bkgd(int window, chtype cell);
/* a color may be -1, the terminal's default one */
int session_init_pair(int pair, int foreground, int background);

int session_copywin(int source, int target, int source_y, int source_x, int y, int x, int last_y, int last_x,
                    bool is_overlay);
int session_scrollok(int window, bool is_on);
int session_leaveok(int window, bool is_on);
int session_clearok(int window, bool is_on);

int session_refresh(int window);
int session_curs_set(int visibility);
int session_beep(void);

/* Copies the string `text` of terminfo without its delays to `room` if T ignores it in every state of a session, which
 * it does if an entry with this bell has a certificate. Returns the number of bytes, or 0 if T doesn't ignore them. */
size_t session_ignored(const char *text, char *room, size_t room_len);

#endif
