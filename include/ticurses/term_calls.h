/* Calls on the current terminal that <curses.h> and <term.h> both declare: the capabilities of its entry, the expansion
 * of parameter strings, which is proved, and the sending of strings. The library of ticurses-tinfo has them. */
#ifndef TICURSES_TERM_CALLS_H
#define TICURSES_TERM_CALLS_H

#include "attributes.h"

#ifdef __cplusplus
extern "C" {
#endif

/* The current terminal's flag: 0 or 1; -1 if terminfo has no such flag. */
int tigetflag(const char *name);
/* The current terminal's number: -1 if the entry lacks it, -2 if terminfo has no such number. */
int tigetnum(const char *name);
/* The current terminal's string: null if the entry lacks it, (char *)-1 if terminfo has no such string. */
char *tigetstr(const char *name);

/* Expands a string for its parameters, which must be longs, of which the low 32 bits count; as many are read as the
 * string names (%p1 to %p9). The bytes stay until the next expansion, and may be the string or a text of that one. A
 * zero byte is written as 128, as ncurses does. Null if the string is null, takes a text, or has a fault that
 * docs/TERMINFO.md lists; no static variable has changed then. */
char *tparm(const char *string, ...);
/* Like tparm, for parameters that are ints. */
char *tiparm(const char *string, ...);
/* Like tparm, for `count` parameters that are ints, or texts (char *) of at most 4095 bytes where `texts` has the bit
 * of their place, 1 for the first. Null too if the string names a parameter past `count`. */
char *tiparm_s(int count, int texts, const char *string, ...);

/* Sends a string to standard output by putchar, as tputs does. */
int putp(const char *string);

/* Send what sets exactly these attributes, by sgr if the entry has it, and nothing if they are set already by an
 * earlier one of these calls. Pairs have no colors here: they are those of a session of curses. vid_attr and vid_puts
 * are ERR if `options` isn't null. */
int vidattr(chtype attrs);
int vidputs(chtype attrs, int (*put)(int));
int vid_attr(attr_t attrs, short pair, void *options);
int vid_puts(attr_t attrs, short pair, void *options, int (*put)(int));

/* The long name of the current terminal, and its name as setupterm got it; null if there is none. */
char *longname(void);
char *termname(void);

#ifdef __cplusplus
}
#endif
#endif
