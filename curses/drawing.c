/* Lines and borders. */
#include "private.h"

#include "calls.h"

int whline(WINDOW *window, chtype ch, int count) {
    int y, x;
    if (!tcu_is_own(window) || session_cursor(window->number, &y, &x) != OK) return ERR;
    if (count > window->columns - x) count = window->columns - x;
    if (count < 1) return OK;
    tcu_touch(window, y, x, x + count - 1);
    return tcu_changed(window, session_hline(window->number, ch, count));
}

int wvline(WINDOW *window, chtype ch, int count) {
    int y, x;
    if (!tcu_is_own(window) || session_cursor(window->number, &y, &x) != OK) return ERR;
    if (count > window->lines - y) count = window->lines - y;
    if (count < 1) return OK;
    for (int line = y; line < y + count; line++) tcu_touch(window, line, x, x);
    return tcu_changed(window, session_vline(window->number, ch, count));
}

int wborder(WINDOW *window, chtype left, chtype right, chtype top, chtype bottom, chtype top_left, chtype top_right,
            chtype bottom_left, chtype bottom_right) {
    chtype cells[8];
    if (!tcu_is_own(window)) return ERR;
    cells[0] = left;
    cells[1] = right;
    cells[2] = top;
    cells[3] = bottom;
    cells[4] = top_left;
    cells[5] = top_right;
    cells[6] = bottom_left;
    cells[7] = bottom_right;
    tcu_touch_lines(window, 0, window->lines - 1);
    return tcu_changed(window, session_border(window->number, cells));
}

int box(WINDOW *window, chtype vertical, chtype horizontal) {
    return wborder(window, vertical, vertical, horizontal, horizontal, 0, 0, 0, 0);
}
