/* The terminal's terminfo entry, which is sought where ncurses seeks it: its bytes, for the session, and its
 * capabilities, as the library of <term.h> answers them of the terminal that it has made current. */
#define _POSIX_C_SOURCE 200809L
#include "private.h"

#include <string.h>

#include "../include/ticurses.h"
#include "../include/ticurses_terminal.h"
#define TICURSES_TERM_NO_NAMES /* since these macros are names of variables here */
#include "../include/ticurses/term.h"

static char held[TICURSES_ENTRY_MAX];
static size_t held_len;

static TERMINAL *own;
static int color_count;

/* The strings that were asked for, one after the other, each with a zero byte: copies, since a program may free the
 * terminal. */
static char texts[TICURSES_ENTRY_MAX];
static size_t texts_len;

enum { STRINGS = 31 };

/* The strings that aren't keys; null if the entry has none. */
static struct {
    const char *name, *text;
} strings[STRINGS] = {
    {"acsc", NULL},  {"bel", NULL},   {"blink", NULL}, {"bold", NULL}, {"cnorm", NULL}, {"csr", NULL},
    {"dch", NULL},   {"dch1", NULL},  {"dim", NULL},   {"dl", NULL},   {"dl1", NULL},   {"flash", NULL},
    {"ich", NULL},   {"ich1", NULL},  {"il", NULL},    {"il1", NULL},  {"invis", NULL}, {"op", NULL},
    {"rev", NULL},   {"rmacs", NULL}, {"rmcup", NULL}, {"rmir", NULL}, {"rmkx", NULL},  {"setab", NULL},
    {"setaf", NULL}, {"sgr0", NULL},  {"smacs", NULL}, {"smir", NULL}, {"smkx", NULL},  {"smso", NULL},
    {"smul", NULL},
};

/* Which of them the session goes without. */
static bool is_left_out[STRINGS];

bool entry_find(const char *type, int fd) {
    TERMINAL *former = cur_term;
    int status;
    held_len = ticurses_entry(type, held, sizeof held);
    if (held_len == 0) return false;
    /* a printing terminal is made current too, although the answer is ERR */
    setupterm(type, fd, &status);
    if (status != 1) {
        set_curterm(former);
        return false;
    }
    own = cur_term;
    color_count = tigetnum("colors");
    texts_len = 0;
    for (size_t at = 0; at < STRINGS; at++) strings[at].text = entry_learn(strings[at].name);
    entry_leave_out("", 0);
    return true;
}

void entry_leave(void) {
    if (own && own == cur_term) del_curterm(own);
    own = NULL;
}

const void *entry_bytes(size_t *len) {
    *len = held_len;
    return held;
}

const char *entry_learn(const char *name) {
    const char *found = tigetstr(name);
    char *text = texts + texts_len;
    size_t len = found && found != (char *)-1 ? strlen(found) + 1 : 0;
    if (len == 0 || len > sizeof texts - texts_len) return NULL;
    memcpy(text, found, len);
    texts_len += len;
    return text;
}

/* Whether one of the lines begins with `name` and a space. */
static bool has_line_of(const char *name, const char *lines, size_t len) {
    size_t name_len = strlen(name);
    while (len > 0) {
        const char *end = memchr(lines, '\n', len);
        size_t line_len = end ? (size_t)(end - lines) + 1 : len;
        if (line_len > name_len && memcmp(lines, name, name_len) == 0 && lines[name_len] == ' ') return true;
        lines += line_len;
        len -= line_len;
    }
    return false;
}

void entry_leave_out(const char *lines, size_t len) {
    for (size_t at = 0; at < STRINGS; at++) is_left_out[at] = has_line_of(strings[at].name, lines, len);
}

const char *entry_string(const char *name) {
    for (size_t at = 0; at < STRINGS; at++)
        if (strcmp(strings[at].name, name) == 0) return is_left_out[at] ? NULL : strings[at].text;
    return NULL;
}

int entry_colors(void) {
    return color_count;
}
