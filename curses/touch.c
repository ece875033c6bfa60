/* Touched lines: for each line, the columns that were drawn since the window's last refresh. A part of a window has
 * touched lines of its own, though its characters are its parent's. */
#include "private.h"

static const struct tcu_line untouched = {TCU_PAD_MAX, -1};

static bool is_touched(const struct tcu_line *line) {
    return line->first <= line->last;
}

void tcu_touch(WINDOW *window, int line, int first, int last) {
    if (line < 0 || line >= window->lines) return;
    if (first < 0) first = 0;
    if (last >= window->columns) last = window->columns - 1;
    if (first > last) return;
    tcu_touch_place(window, line, first);
    tcu_touch_place(window, line, last);
}

void tcu_touch_lines(WINDOW *window, int top, int bottom) {
    for (int line = top; line <= bottom; line++) tcu_touch(window, line, 0, window->columns - 1);
}

/* Touches a change in the windows above, and shows it, as the window's options ask. */
void tcu_pass_on(WINDOW *window) {
    if (window->syncs) wsyncup(window);
    if (window->shows_changes && !window->is_pad) wrefresh(window);
}

int wtouchln(WINDOW *window, int first, int count, int is_to_be_touched) {
    if (window == curscr || window == newscr) return window ? OK : ERR;
    if (!tcu_is_own(window) || first < 0 || count < 0 || first >= window->lines) return ERR;
    if (count > window->lines - first) count = window->lines - first;
    for (int line = first; line < first + count; line++) {
        if (is_to_be_touched) tcu_touch(window, line, 0, window->columns - 1);
        else window->touched[line] = untouched;
    }
    return OK;
}

int touchline(WINDOW *window, int first, int count) {
    return wtouchln(window, first, count, 1);
}

int touchwin(WINDOW *window) {
    return window ? wtouchln(window, 0, window->lines, 1) : ERR;
}

int untouchwin(WINDOW *window) {
    return window ? wtouchln(window, 0, window->lines, 0) : ERR;
}

bool is_linetouched(WINDOW *window, int line) {
    return tcu_is_own(window) && line >= 0 && line < window->lines && is_touched(&window->touched[line]);
}

bool is_wintouched(WINDOW *window) {
    for (int line = 0; tcu_is_own(window) && line < window->lines; line++)
        if (is_touched(&window->touched[line])) return true;
    return false;
}

/* Touches in each window above `window` the places that are touched in `window`. */
void wsyncup(WINDOW *window) {
    if (!tcu_is_own(window)) return;
    for (WINDOW *at = window; at->parent; at = at->parent) {
        for (int line = 0; line < at->lines; line++) {
            if (is_touched(&at->touched[line]))
                tcu_touch(at->parent, line + at->parent_y, at->touched[line].first + at->parent_x,
                          at->touched[line].last + at->parent_x);
        }
    }
}

/* Touches in `window` the places that are touched in the windows above it. */
void wsyncdown(WINDOW *window) {
    WINDOW *parent = tcu_is_own(window) ? window->parent : NULL;
    if (!parent) return;
    wsyncdown(parent);
    for (int line = 0; line < window->lines; line++) {
        const struct tcu_line *above = &parent->touched[line + window->parent_y];
        if (is_touched(above))
            tcu_touch(window, line, above->first - window->parent_x, above->last - window->parent_x);
    }
}

void wcursyncup(WINDOW *window) {
    int y, x;
    if (!tcu_is_own(window)) return;
    for (WINDOW *at = window; at->parent; at = at->parent) {
        y = getcury(at);
        x = getcurx(at);
        wmove(at->parent, y + at->parent_y, x + at->parent_x);
    }
}
