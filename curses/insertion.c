/* Inserting and deleting characters and lines at the cursor, which stays. */
#define _POSIX_C_SOURCE 200809L
#include "private.h"

#include <string.h>

#include "calls.h"

/* Where the next character is inserted; past the line's end none is. */
struct spot {
    int y, x;
};

static int insert_one(WINDOW *window, struct spot *at, chtype ch) {
    if (at->x >= window->columns) return OK;
    tcu_touch(window, at->y, at->x, window->columns - 1);
    if (session_move(window->number, at->y, at->x++) != OK) return ERR;
    return session_insch(window->number, ch);
}

static int insert_letters(WINDOW *window, struct spot *at, const char *text, chtype marks) {
    int code = OK;
    for (; *text && code == OK; text++) code = insert_one(window, at, (unsigned char)*text | marks);
    return code;
}

static int insert_tab(WINDOW *window, struct spot *at, chtype marks) {
    int code = OK;
    for (int count = TABSIZE - at->x % TABSIZE; count > 0 && code == OK; count--)
        code = insert_one(window, at, ' ' | marks);
    return code;
}

/* Clears the rest of the line; what follows is inserted in the next one, if the cursor can advance to it. */
static int insert_newline(WINDOW *window, struct spot *at) {
    if (at->x < window->columns && session_move(window->number, at->y, at->x) == OK) tcu_clear_rest(window);
    if (tcu_advance(window, at->y) != OK) return OK;
    window->has_wrapped = false;
    return session_cursor(window->number, &at->y, &at->x);
}

/* Inserts any character, in the form in which it is drawn. Return and backspace only move the place. */
static int insert(WINDOW *window, struct spot *at, chtype ch) {
    chtype marks = ch & ~A_CHARTEXT;
    switch (TCU_BYTE(ch)) {
    case '\n': return insert_newline(window, at);
    case '\t': return insert_tab(window, at, marks);
    case '\r': at->x = 0; break;
    case '\b':
        if (at->x == 0) return OK;
        at->x--;
        break;
    default: return insert_letters(window, at, unctrl(ch), marks);
    }
    window->has_wrapped = false;
    return OK;
}

int winsch(WINDOW *window, chtype ch) {
    struct spot at;
    int y, x, code;
    if (!tcu_is_own(window) || session_cursor(window->number, &y, &x) != OK) return ERR;
    at.y = y;
    at.x = x;
    code = insert(window, &at, ch);
    session_move(window->number, y, x);
    return tcu_changed(window, code);
}

int winsnstr(WINDOW *window, const char *text, int count) {
    struct spot at;
    size_t len;
    int y, x, code = OK;
    if (!tcu_is_own(window) || !text || session_cursor(window->number, &y, &x) != OK) return ERR;
    len = count <= 0 ? strlen(text) : strnlen(text, (size_t)count);
    at.y = y;
    at.x = x;
    for (size_t next = 0; next < len && code == OK; next++) code = insert(window, &at, (unsigned char)text[next]);
    session_move(window->number, y, x);
    return tcu_changed(window, code);
}

int winsstr(WINDOW *window, const char *text) {
    return winsnstr(window, text, -1);
}

int wdelch(WINDOW *window) {
    int y, x;
    if (!tcu_is_own(window) || session_cursor(window->number, &y, &x) != OK) return ERR;
    tcu_touch(window, y, x, window->columns - 1);
    return tcu_changed(window, session_delch(window->number));
}

int winsdelln(WINDOW *window, int count) {
    int y, x, code = OK;
    if (!tcu_is_own(window) || session_cursor(window->number, &y, &x) != OK) return ERR;
    if (count > window->lines - y) count = window->lines - y;
    if (count < y - window->lines) count = y - window->lines;
    if (count != 0) tcu_touch_lines(window, y, window->lines - 1);
    for (; count > 0 && code == OK; count--) code = session_insertln(window->number);
    for (; count < 0 && code == OK; count++) code = session_deleteln(window->number);
    return tcu_changed(window, code);
}

int winsertln(WINDOW *window) {
    return winsdelln(window, 1);
}

int wdeleteln(WINDOW *window) {
    return winsdelln(window, -1);
}
