/* Declarations that the files of this folder share. The library exports none of their names: its objects are linked
 * into one, in which all names but those of its headers become local. */
#ifndef TICURSES_TINFO_PRIVATE_H
#define TICURSES_TINFO_PRIVATE_H

#include <stdbool.h>
#include <stddef.h>

/* without the macros, since names of this library are among them */
#define TICURSES_TERM_NO_NAMES
#include "../include/ticurses/term.h"
#include "../include/ticurses_terminfo.h"

/* The most bytes of a compiled entry, and of a terminal's name. */
enum { TINFO_ENTRY_MAX = 32768, TINFO_NAME_MAX = 512 };

struct term {
    TERMTYPE type; /* which macros of programs read, and which must come first; it points into the rest */
    ticurses_terminfo variables; /* the static variables of its strings, once one was expanded */
    bool has_variables;
    char flags[TICURSES_TERMINFO_FLAGS];
    short narrow[TICURSES_TERMINFO_NUMBERS];
    int numbers[TICURSES_TERMINFO_NUMBERS];
    char *strings[TICURSES_TERMINFO_STRINGS];
    char *file;  /* the compiled file, in which the names and the strings are */
    char *plain; /* termcap's me, if that isn't sgr0 */
    char *name;  /* as the program gave it */
    int fd;
    short speed; /* of the terminal's line; 0 if it has none */
};

/* The place of a capability in its list, by its long name. */
enum {
#define FLAG(long_name, name, code) TINFO_AT_##long_name,
#include "names.def"
    TINFO_FLAGS
};
enum {
#define NUMBER(long_name, name, code) TINFO_AT_##long_name,
#include "names.def"
    TINFO_NUMBERS
};
enum {
#define STRING(long_name, name, code) TINFO_AT_##long_name,
#include "names.def"
    TINFO_STRINGS
};

/* entry.c */
/* Gives a terminal what a compiled file of this length has; a zero byte must come after it. The terminal keeps the
 * file, which malloc made. False if the file is faulty, which then is still the caller's. */
bool tinfo_read(TERMINAL *terminal, char *file, size_t len);
void tinfo_free(TERMINAL *terminal);
void tinfo_set_number(TERMINAL *terminal, int at, int number);

/* find.c */
/* Finds the entry of this name and reads it. Returns 1, 0 if there is none, -1 if there is no database. */
int tinfo_find(TERMINAL *terminal, const char *name);

/* expand.c */
/* tparm for as many numbers. */
char *tinfo_expand(const char *string, const int32_t *numbers, size_t count);

/* plain.c */
/* Finds termcap's me, which is sgr0 unless that changes the character set. */
void tinfo_make_plain(TERMINAL *terminal);

/* termcap.c */
/* Takes note that a terminal is freed. */
void tinfo_forget(const TERMINAL *terminal);

/* setup.c */
/* setupterm; if `reuses`, the current terminal stays if it is that one. */
int tinfo_set_up(const char *name, int fd, int *status, bool reuses);

#endif
