/* Writing cells as they are: without the window's attributes and background, by way of a pad of one line. The cursor
 * stays. */
#include "private.h"

#include "calls.h"

/* A cell that the session takes. A zero byte becomes a space, and any other byte that no cell may have becomes a
 * question mark. */
static chtype drawable(chtype cell) {
    unsigned byte = TCU_BYTE(cell);
    chtype known = tcu_colored(cell) & (TCU_SHOWN | A_COLOR);
    return known | (byte == 0 ? ' ' : byte < 32 || byte > 126 ? '?' : byte);
}

/* Copies cells to a place of the session's window `number`. */
int tcu_put_row(int number, int line, int column, const chtype *cells, int count) {
    if (count < 1) return OK;
    if (session_move(TCU_SCRATCH, 0, 0) != OK) return ERR;
    /* fails if the last cell is the pad's last, past which the cursor can't go, but the cell is written */
    for (int at = 0; at < count; at++) session_addch(TCU_SCRATCH, drawable(cells[at]));
    return session_copywin(TCU_SCRATCH, number, 0, 0, line, column, line, column + count - 1, false);
}

/* Copies cells to a place of the program's window and touches it; leaves out cells past the line's end. */
int tcu_put_cells(WINDOW *window, int line, int column, const chtype *cells, int count) {
    if (count > window->columns - column) count = window->columns - column;
    tcu_touch(window, line, column, column + count - 1);
    return tcu_put_row(window->number, line, column, cells, count);
}

int waddchnstr(WINDOW *window, const chtype *cells, int count) {
    int y, x, len = 0;
    if (!tcu_is_own(window) || !cells || session_cursor(window->number, &y, &x) != OK) return ERR;
    while ((count < 0 || len < count) && len < window->columns - x && cells[len]) len++;
    return tcu_changed(window, tcu_put_cells(window, y, x, cells, len));
}

int waddchstr(WINDOW *window, const chtype *cells) {
    return waddchnstr(window, cells, -1);
}

/* Gives `count` cells from the cursor on other attributes and another pair; all cells up to the line's end if `count`
 * is negative. */
int wchgat(WINDOW *window, int count, attr_t attrs, short pair, const void *options) {
    chtype cells[TCU_PAD_MAX], color = pair < TCU_ALL_PAIRS ? tcu_colored(COLOR_PAIR(pair)) : 0;
    int y, x;
    if (!tcu_is_own(window) || options || pair < 0) return ERR;
    if (session_cursor(window->number, &y, &x) != OK) return ERR;
    if (count < 0 || count > window->columns - x) count = window->columns - x;
    for (int at = 0; at < count; at++) {
        if (session_cell(window->number, y, x + at, &cells[at]) != OK) return ERR;
        cells[at] = (cells[at] & (A_CHARTEXT | A_ALTCHARSET)) | (attrs & TCU_SHOWN) | color;
    }
    return tcu_changed(window, tcu_put_cells(window, y, x, cells, count));
}
