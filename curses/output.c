/* Writing at the cursor. The session writes printable characters; what leaves the cursor's line is done here, since a
 * scrolling region counts otherwise in curses than in the session. */
#define _POSIX_C_SOURCE 200809L
#include "private.h"

#include <string.h>

#include "calls.h"

int wmove(WINDOW *window, int y, int x) {
    if (!tcu_is_own(window) || session_move(window->number, y, x) != OK) return ERR;
    window->is_moved = true;
    window->has_wrapped = false;
    return OK;
}

/* Moves the cursor from line `y` to the first column of the next one. In a scrolling region's last line the region
 * scrolls, or the cursor stays and the answer is ERR. Below a region the last line has no next one, and the cursor goes
 * to its first column. */
int tcu_advance(WINDOW *window, int y) {
    if (y == window->region_bottom) {
        if (!window->scrolls) return ERR;
        tcu_touch_lines(window, window->region_top, window->region_bottom);
        if (session_scroll(window->number, 1) != OK) return ERR;
    } else if (y < window->lines - 1) {
        y++;
    }
    return session_move(window->number, y, 0);
}

/* Clears the cursor's line from the cursor on. A last line into which text has wrapped, or at whose end it was to wrap,
 * stays as it is, as in ncurses: a cursor that stays in the last column is after its character there. */
int tcu_clear_rest(WINDOW *window) {
    int y, x;
    if (session_cursor(window->number, &y, &x) != OK || (window->has_wrapped && y == window->lines - 1)) return ERR;
    window->has_wrapped = false;
    tcu_touch(window, y, x, window->columns - 1);
    return session_clrtoeol(window->number);
}

/* Writes a character from 32 to 126. One in a last column from which the cursor doesn't go to the next line is inserted,
 * which leaves the cursor there. */
static int put(WINDOW *window, chtype ch) {
    int y, x;
    if (session_put(window->number, ch, window->region_bottom, &y, &x)) {
        tcu_touch_place(window, y, x);
        if (x == window->columns - 1) window->has_wrapped = true;
        return OK;
    }
    if (session_cursor(window->number, &y, &x) != OK || session_insch(window->number, ch) != OK) return ERR;
    tcu_touch_place(window, y, x);
    window->has_wrapped = true;
    return tcu_advance(window, y);
}

static int put_times(WINDOW *window, chtype ch, int count) {
    int code = OK;
    for (; count > 0 && code == OK; count--) code = put(window, ch);
    return code;
}

static int put_letters(WINDOW *window, const char *text, chtype marks) {
    int code = OK;
    for (; *text && code == OK; text++) code = put(window, (unsigned char)*text | marks);
    return code;
}

/* Writes blanks up to the next column that TABSIZE divides. If the line has none, its rest is cleared and the cursor
 * advances; where it can't, the blanks fill the line. */
static int add_tab(WINDOW *window, chtype marks, int y, int x) {
    int count = TABSIZE - x % TABSIZE;
    bool can_advance = window->scrolls || y != window->region_bottom;
    if (x + count < window->columns || !can_advance) return put_times(window, ' ' | marks, count);
    tcu_clear_rest(window);
    window->has_wrapped = true;
    return tcu_advance(window, y);
}

static int add_newline(WINDOW *window, int y) {
    tcu_clear_rest(window);
    if (tcu_advance(window, y) != OK) return ERR;
    window->has_wrapped = false;
    return OK;
}

/* Moves the cursor within its line. */
static int go_to(WINDOW *window, int y, int x) {
    window->has_wrapped = false;
    return session_move(window->number, y, x);
}

/* Writes any character: controls and bytes above 126 in the form that unctrl gives them. */
static int add(WINDOW *window, chtype ch) {
    int y, x;
    if (TCU_BYTE(ch) >= 32 && TCU_BYTE(ch) < 127) return put(window, ch);
    if (session_cursor(window->number, &y, &x) != OK) return ERR;
    switch (TCU_BYTE(ch)) {
    case '\n': return add_newline(window, y);
    case '\t': return add_tab(window, ch & ~A_CHARTEXT, y, x);
    case '\r': return go_to(window, y, 0);
    case '\b': return x > 0 ? go_to(window, y, x - 1) : OK;
    default: return put_letters(window, unctrl(ch), ch & ~A_CHARTEXT);
    }
}

int waddch(WINDOW *window, chtype ch) {
    return tcu_is_own(window) ? tcu_changed(window, add(window, ch)) : ERR;
}

int wechochar(WINDOW *window, chtype ch) {
    if (window && window->is_pad) return pechochar(window, ch);
    return waddch(window, ch) == OK ? wrefresh(window) : ERR;
}

/* Writes what a text begins with: the characters that fit in the cursor's line at once, or else one character. Adds to
 * `at` how many were written. */
static int put_first(WINDOW *window, const char *text, size_t len, size_t *at) {
    int y, x;
    size_t count = session_write(window->number, text, len, window->region_bottom, &y, &x);
    *at += count > 0 ? count : 1;
    if (count == 0) return add(window, (unsigned char)*text);
    tcu_touch(window, y, x, x + (int)count - 1);
    if (x + (int)count == window->columns) window->has_wrapped = true;
    return OK;
}

int waddnstr(WINDOW *window, const char *text, int count) {
    size_t len, at = 0;
    int code = OK;
    if (!tcu_is_own(window) || !text) return ERR;
    len = count < 0 ? strlen(text) : strnlen(text, (size_t)count);
    while (at < len && code == OK) code = put_first(window, text + at, len - at, &at);
    return tcu_changed(window, code);
}

int waddstr(WINDOW *window, const char *text) {
    return waddnstr(window, text, -1);
}
