/* Termcap's calls, over entries of terminfo: for programs that were written for termcap.
 *
 *     cc more.c $(pkg-config --cflags --libs ticurses-tinfo)
 *
 * The header is C99 and C++11. docs/TERMINFO.md says what is proved. */
#ifndef TICURSES_TERMCAP_H
#define TICURSES_TERMCAP_H

#ifdef __cplusplus
extern "C" {
#endif

/* Of the entry that tgetent finds: the pad character, or 0; the string that moves the cursor up; the one that moves it
 * left, if that isn't a backspace. ospeed is the speed of the terminal's line, as cfgetospeed gives it. */
extern char PC, *UP, *BC;
extern short ospeed;

/* Reads the entry of a terminal, or that of TERM if `name` is null; all other calls are about this entry. `buffer` is
 * not written to, and may be null; the strings of an entry stay until the next call with the same buffer. Returns 1, 0
 * if no such entry is found, -1 if there is no database. */
int tgetent(char *buffer, const char *name);

/* The answers for a capability by termcap's code, of which only the first two bytes count. Without it, without an
 * entry, or if there is no such code: 0, -1, and a null pointer. If `area` and *area aren't null, tgetstr copies the
 * string to *area, and moves *area past its zero byte. */
int tgetflag(const char *code);
int tgetnum(const char *code);
char *tgetstr(const char *code, char **area);

/* The bytes that move the cursor to this place by a string of the entry, as tparm makes them; they stay until the next
 * expansion. Null if the string is null or has a fault. */
char *tgoto(const char *string, int column, int line);

/* Passes the bytes of a string to `put`, one by one, without its padding. `lines` is ignored. Returns 0, or -1 if the
 * string is null. */
int tputs(const char *string, int lines, int (*put)(int));

#ifdef __cplusplus
}
#endif
#endif
