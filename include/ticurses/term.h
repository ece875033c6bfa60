/* Terminfo's calls: the capabilities of the terminal's entry, and the expansion of parameter strings, which is proved.
 *
 *     cc less.c $(pkg-config --cflags --libs ticurses-tinfo)
 *
 * A program asks for capabilities by terminfo's names (tigetstr("cup")), or by the long names of terminfo(5)
 * (cursor_address), which are macros. The header is C99 and C++11. docs/TERMINFO.md says what is proved. */
#ifndef TICURSES_TERM_H
#define TICURSES_TERM_H

#include "term_calls.h"
#include "termcap.h"

#ifdef __cplusplus
extern "C" {
#endif

/* An entry. The macros read this part of it, which is laid out as ncurses has it; a number above 32767 is 32767 here.
 * An absent number is -1, and an absent string a null pointer. */
typedef struct termtype {
    char *term_names;
    char *str_table;
    char *Booleans;
    short *Numbers;
    char **Strings;
    char *ext_str_table;
    char **ext_Names;
    unsigned short num_Booleans, num_Numbers, num_Strings;
    unsigned short ext_Booleans, ext_Numbers, ext_Strings;
} TERMTYPE;

/* A terminal: its entry, the static variables of its strings, and the descriptor of its output. */
typedef struct term TERMINAL;

/* The terminal that all calls are about; null before setupterm. */
extern TERMINAL *cur_term;
#define CUR ((TERMTYPE *)(cur_term))->

/* The names of the capabilities in the order of compiled files, each list with a null pointer at its end: terminfo's
 * names, termcap's codes, and the long names. */
extern const char *const boolnames[], *const boolcodes[], *const boolfnames[];
extern const char *const numnames[], *const numcodes[], *const numfnames[];
extern const char *const strnames[], *const strcodes[], *const strfnames[];

/* Reads the entry of a terminal, or that of TERM if `name` is null, and makes it the current one. An earlier terminal
 * stays until del_curterm. Returns OK with *status 1. On ERR, *status is -1 if no database is found or TERM is unset, 0
 * if no such entry is found or it is too generic, and 1 if it is that of a printing terminal, which is current then. If
 * `status` is null, a failure is printed and ends the program. */
int setupterm(const char *name, int fd, int *status);
/* Like setupterm, for a session of curses that goes on with another terminal; without such a session it is ERR, and the
 * terminal is current if *status is 1. */
int restartterm(const char *name, int fd, int *status);
/* Makes another terminal current, or none, and returns the one that was. */
TERMINAL *set_curterm(TERMINAL *terminal);
/* Frees a terminal and its strings; none is current if it was. Returns OK, or ERR for a null pointer. */
int del_curterm(TERMINAL *terminal);

/* Sends cup to standard output at once; ERR without it. The old place is ignored. */
int mvcur(int old_line, int old_column, int line, int column);

#ifdef __cplusplus
}
#endif

/* the macros come last, since declarations use some of these names */
#ifndef TICURSES_TERM_NO_NAMES
#include "term_names.h"
#endif
#endif
