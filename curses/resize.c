/* A new size of the terminal: a session of that size replaces the one before. Windows are made anew in it and get their
 * old cells back as far as these fit, and the next refresh draws the whole screen. */
#include "private.h"

#include <stdlib.h>

#include "../include/ticurses_terminal.h"
#include "calls.h"

static int smaller(int one, int other) {
    return one < other ? one : other;
}

/* The new size of a window: one that was as large as the screen stays so, and none is larger than the screen or its
 * parent. A pad keeps its size. */
struct size {
    int lines, columns;
};

static struct size size_of(const WINDOW *window, struct size before, struct size now) {
    struct size size = {window->lines, window->columns};
    if (window->is_pad) return size;
    if (window->parent) {
        size.lines = smaller(size.lines, window->parent->lines - window->parent_y);
        size.columns = smaller(size.columns, window->parent->columns - window->parent_x);
        return size;
    }
    size.lines = size.lines == before.lines ? now.lines : smaller(size.lines, now.lines);
    size.columns = size.columns == before.columns ? now.columns : smaller(size.columns, now.columns);
    return size;
}

/* Makes the window in the new session. A part that would lie outside its parent is made of the parent's last place. */
static int made_again(WINDOW *window, struct size size) {
    const WINDOW *parent = window->parent;
    bool is_on_screen = window->y + size.lines <= LINES && window->x + size.columns <= COLS;
    if (parent)
        return tcu_make_part(window->number, parent, size.lines, size.columns, window->parent_y, window->parent_x);
    window->is_below_pad = window->is_pad || !is_on_screen;
    if (window->is_below_pad) return session_newpad(window->number, size.lines, size.columns);
    return session_newwin(window->number, size.lines, size.columns, window->y, window->x);
}

/* Copies to a window the cells that it had in the session before. */
static void fill(int number, struct size size) {
    chtype cells[TCU_PAD_MAX];
    for (int line = 0; line < size.lines; line++) {
        int count = 0;
        while (count < size.columns && session_former_cell(number, line, count, &cells[count]) == OK) count++;
        tcu_put_row(number, line, 0, cells, count);
    }
}

static bool has_room(WINDOW *window, struct size size) {
    struct tcu_line *touched = calloc((size_t)size.lines, sizeof *touched);
    if (!touched) return false;
    free(window->touched);
    window->touched = touched;
    return true;
}

/* Moves a part into its parent, which may have become smaller. */
static void hold_in_parent(WINDOW *window) {
    WINDOW *parent = window->parent;
    if (!parent) return;
    window->parent_y = smaller(window->parent_y, parent->lines - 1);
    window->parent_x = smaller(window->parent_x, parent->columns - 1);
    window->is_below_pad = parent->is_below_pad;
}

static int rebuild(WINDOW *window, int y, int x, struct size before, struct size now) {
    struct size size;
    hold_in_parent(window);
    size = size_of(window, before, now);
    if (!has_room(window, size)) return ERR;
    if (window->number > 0 && made_again(window, size) != OK) return ERR;
    /* a part has its parent's cells */
    if (!window->parent) {
        session_bkgdset(window->number, window->background);
        session_erase(window->number);
        fill(window->number, size);
    }
    if (window->region_bottom >= smaller(window->lines, size.lines) - 1) window->region_bottom = size.lines - 1;
    if (window->region_top >= window->region_bottom) window->region_top = 0;
    window->lines = size.lines;
    window->columns = size.columns;
    tcu_restored(window, smaller(y, size.lines - 1), smaller(x, size.columns - 1));
    tcu_touch_lines(window, 0, size.lines - 1);
    return OK;
}

/* The number of windows above `window`. */
static int depth_of(const WINDOW *window) {
    int depth = 0;
    for (; window->parent; window = window->parent) depth++;
    return depth;
}

static int rebuild_all(const int cursors[TCU_WINDOWS][2], struct size before, struct size now) {
    int code = OK;
    bool is_deeper = true;
    /* parents come before their parts */
    for (int depth = 0; is_deeper; depth++) {
        is_deeper = false;
        for (int number = 0; number < TCU_WINDOWS; number++) {
            WINDOW *window = tcu.windows[number];
            if (!window || depth_of(window) < depth) continue;
            is_deeper = true;
            if (depth_of(window) == depth && rebuild(window, cursors[number][0], cursors[number][1], before, now) != OK)
                code = ERR;
        }
    }
    return code;
}

/* Makes the library's own windows, and gives the new session the cursor's visibility and the pairs. */
static int begin_anew(struct size now) {
    int code = OK;
    if (session_newwin(TCU_NEWSCR, 0, 0, 0, 0) != OK || session_newpad(TCU_SCRATCH, 1, TCU_PAD_MAX) != OK) code = ERR;
    fill(TCU_NEWSCR, now);
    tcu.newscr.lines = tcu.curscr.lines = now.lines;
    tcu.newscr.columns = tcu.curscr.columns = now.columns;
    if (tcu.is_cursor_left) session_leaveok(TCU_NEWSCR, true);
    session_curs_set(tcu.visibility);
    for (short pair = 1; tcu.has_colors && pair < TCU_ALL_PAIRS; pair++) {
        short foreground, background;
        if (tcu_has_pair(pair) && tcu_slot(pair) > 0 && pair_content(pair, &foreground, &background) == OK)
            session_init_pair(tcu_slot(pair), foreground, background);
    }
    return code;
}

int resize_term(int lines, int columns) {
    int cursors[TCU_WINDOWS][2] = {{0}};
    struct size before = {LINES, COLS}, now = {lines, columns};
    int code, y, x;
    if (!tcu.is_open) return ERR;
    if (lines == LINES && columns == COLS) return OK;
    for (int number = 0; number < TCU_WINDOWS; number++)
        if (tcu.windows[number]) session_cursor(number, &cursors[number][0], &cursors[number][1]);
    if (session_cursor(TCU_NEWSCR, &y, &x) != OK) return ERR;
    if (session_open_next(lines, columns) != OK) return ERR;
    tcu.is_current = false;
    /* what a session begins with goes to a terminal that has got what one ends with */
    if (session_is_up()) session_end(tcu.output);
    if (session_begin_next() != OK) return ERR;
    tcu_map_signs();
    LINES = lines;
    COLS = columns;
    code = begin_anew(now);
    session_move(TCU_NEWSCR, smaller(y, lines - 1), smaller(x, columns - 1));
    if (rebuild_all((const int(*)[2])cursors, before, now) != OK) code = ERR;
    session_forget_former();
    return code;
}

int resizeterm(int lines, int columns) {
    if (resize_term(lines, columns) != OK) return ERR;
    return ungetch(KEY_RESIZE);
}

bool is_term_resized(int lines, int columns) {
    return tcu.is_open && (lines != LINES || columns != COLS);
}

/* Takes the size that the terminal has now. Where no session can have it, the one before and its windows stay, and what
 * they draw meanwhile may look wrong: once the terminal has their size again, the next refresh draws all anew. */
int tcu_resize(void) {
    bool was_unfit = tcu.is_unfit;
    uint16_t lines, columns;
    tcu.is_unfit = ticurses_size(tcu.output, &lines, &columns) != TICURSES_OK;
    if (!tcu.is_unfit) {
        resize_term(lines, columns);
        tcu.is_unfit = lines != LINES || columns != COLS;
    }
    if (was_unfit && !tcu.is_unfit) session_lost();
    return tcu.is_unfit ? ERR : OK;
}
