/* The proved session, for the files that make calls of it: session.c opens it and sends, run.c writes text, calls.c
 * makes all other calls. */
#ifndef TICURSES_CURSES_SESSION_H
#define TICURSES_CURSES_SESSION_H

#include <signal.h>

#include "../include/ticurses.h"
#include "calls.h"

extern ticurses tcu_session;
/* Whether a call is being made, or bytes are being written. */
extern volatile sig_atomic_t tcu_is_busy;

/* Begins a call and passes waiting text to the session. False, and nothing is done, if a handler of the program has
 * interrupted another call. */
bool session_begins(void);
/* Ends a call, at which a signal may end the program. Returns OK if `code` says that it was done, else ERR. */
int session_done(int code);

/* A cell in the form of the session. */
static inline ticurses_cell session_cell_of(chtype cell) {
    uint8_t pair = (uint8_t)tcu_use((int)PAIR_NUMBER(cell));
    return ticurses_cell_of((uint8_t)TCU_BYTE(cell), (uint8_t)(cell >> 16), pair);
}

/* run.c */
/* Has the session write the text that waits. */
void run_flush(void);
/* Has the session write the text that waits, gives the window its own attributes back and forgets its cursor. */
void run_end(void);
/* Record that a window was made: a new one, or a copy of `source`. */
void run_made(int window);
void run_copied(int window, int source);
/* Records that a session was opened, all of whose windows are new. */
void run_begin(void);

#endif
