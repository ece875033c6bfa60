/* The terminal itself: its bell, its cursor and its abilities. */
#include "private.h"

#include "calls.h"

#ifndef TCU_VERSION
#define TCU_VERSION "of a checkout"
#endif

/* Rings the bell. A session that doesn't know what the terminal shows rings none; the bell's string is sent beside it
 * then. */
int beep(void) {
    if (!tcu.is_open) return ERR;
    tcu_resume();
    if (session_beep() == OK) return session_send(tcu.output);
    return beside_send(entry_string("bel"), false);
}

int flash(void) {
    if (!tcu.is_open) return ERR;
    tcu_resume();
    return entry_string("flash") ? beside_send(entry_string("flash"), true) : beep();
}

/* Sets the cursor's visibility, which the terminal shows at once if it shows the last refresh. */
int curs_set(int visibility) {
    int before = tcu.visibility;
    if (!tcu.is_open || visibility < 0 || visibility > 2 || session_curs_set(visibility) != OK) return ERR;
    tcu.visibility = visibility;
    if (visibility != before && tcu.is_current) doupdate();
    return before;
}

int napms(int milliseconds) {
    if (milliseconds > 0) signals_wait(-1, milliseconds);
    return OK;
}

int delay_output(int milliseconds) {
    return tcu.is_open ? napms(milliseconds) : ERR;
}

/* The attributes for which the entry has a string of their own, and A_COLOR if the terminal has colors. */
chtype termattrs(void) {
    static const struct {
        const char *name;
        chtype attrs;
    } strings[] = {
        {"smso", A_STANDOUT}, {"smul", A_UNDERLINE}, {"rev", A_REVERSE}, {"blink", A_BLINK},
        {"dim", A_DIM},       {"bold", A_BOLD},      {"invis", A_INVIS}, {"smacs", A_ALTCHARSET},
    };
    chtype found = A_NORMAL;
    for (size_t at = 0; tcu.is_open && at < sizeof strings / sizeof *strings; at++)
        if (entry_string(strings[at].name)) found |= strings[at].attrs;
    return has_colors() ? found | A_COLOR : found;
}

attr_t term_attrs(void) {
    return termattrs();
}

bool has_ic(void) {
    bool inserts = entry_string("ich1") || entry_string("ich") || (entry_string("smir") && entry_string("rmir"));
    return tcu.is_open && inserts && (entry_string("dch1") || entry_string("dch"));
}

bool has_il(void) {
    bool moves = (entry_string("il1") || entry_string("il")) && (entry_string("dl1") || entry_string("dl"));
    return tcu.is_open && (moves || entry_string("csr"));
}

const char *curses_version(void) {
    return "ticurses-curses " TCU_VERSION;
}

int set_escdelay(int milliseconds) {
    if (milliseconds < 0) return ERR;
    ESCDELAY = milliseconds;
    return OK;
}

int get_escdelay(void) {
    return ESCDELAY;
}

int set_tabsize(int columns) {
    if (columns < 1) return ERR;
    TABSIZE = columns;
    return OK;
}

/* Does nothing: typed keys never cut a refresh short. */
int typeahead(int fd) {
    (void)fd;
    return OK;
}
