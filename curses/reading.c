/* Reading the content of windows from the cursor on. */
#include "private.h"

#include "calls.h"

chtype winch(WINDOW *window) {
    chtype cell;
    int y, x;
    if (!window || !tcu.is_open || session_cursor(window->number, &y, &x) != OK) return (chtype)ERR;
    return session_cell(window->number, y, x, &cell) == OK ? cell : (chtype)ERR;
}

/* The number of cells from the cursor to the line's end, at most `count` unless that is negative. */
static int cells_left(WINDOW *window, int count, int *y, int *x) {
    int left;
    if (!window || !tcu.is_open || session_cursor(window->number, y, x) != OK) return ERR;
    left = window->columns - *x;
    return count >= 0 && count < left ? count : left;
}

int winchnstr(WINDOW *window, chtype *cells, int count) {
    int y, x, left = cells ? cells_left(window, count, &y, &x) : ERR;
    if (left == ERR) return ERR;
    for (int at = 0; at < left; at++)
        if (session_cell(window->number, y, x + at, &cells[at]) != OK) return ERR;
    cells[left] = 0;
    return OK;
}

int winchstr(WINDOW *window, chtype *cells) {
    return winchnstr(window, cells, -1);
}

int winnstr(WINDOW *window, char *text, int count) {
    int y, x, left = text ? cells_left(window, count, &y, &x) : ERR;
    chtype cell;
    if (left == ERR) return ERR;
    for (int at = 0; at < left; at++) {
        if (session_cell(window->number, y, x + at, &cell) != OK) return ERR;
        text[at] = (char)TCU_BYTE(cell);
    }
    text[left] = 0;
    return left;
}

int winstr(WINDOW *window, char *text) {
    return winnstr(window, text, -1) == ERR ? ERR : OK;
}
