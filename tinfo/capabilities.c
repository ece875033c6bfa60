/* The current terminal's names, and its capabilities by terminfo's names. */
#include "private.h"

#include <string.h>

/* The place of a name in a list; -1 if it isn't there. */
static int place_of(const char *name, const char *const *list) {
    for (int at = 0; list[at]; at++)
        if (strcmp(list[at], name) == 0) return at;
    return -1;
}

int tigetflag(const char *name) {
    int at = cur_term ? place_of(name, boolnames) : -1;
    return at < 0 ? -1 : cur_term->flags[at];
}

int tigetnum(const char *name) {
    int at = cur_term ? place_of(name, numnames) : -1;
    return at < 0 ? -2 : cur_term->numbers[at];
}

char *tigetstr(const char *name) {
    int at = cur_term ? place_of(name, strnames) : -1;
    return at < 0 ? (char *)-1 : cur_term->strings[at];
}

char *longname(void) {
    char *last = cur_term ? strrchr(cur_term->type.term_names, '|') : NULL;
    if (last) return last + 1;
    return cur_term ? cur_term->type.term_names : NULL;
}

char *termname(void) {
    return cur_term ? cur_term->name : NULL;
}
