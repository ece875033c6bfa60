/* Windows and pads, and parts of them. A window that isn't wholly on the screen is a pad of the session, which doesn't
 * know its place. */
#include "private.h"

#include <stdlib.h>
#include <string.h>

#include "calls.h"

/* the last line or column at which a window can begin */
enum { FARTHEST = 10000 };

static int free_number(void) {
    int number = 1;
    while (number < TCU_WINDOWS && tcu.windows[number]) number++;
    return number;
}

/* The library's record of a window that the session has made; all of it is touched. Without memory it deletes the
 * session's window and returns null. */
WINDOW *tcu_made(int number, int lines, int columns, WINDOW *parent) {
    WINDOW *window = calloc(1, sizeof *window);
    struct tcu_line *touched = window ? calloc((size_t)lines, sizeof *touched) : NULL;
    if (!touched) {
        free(window);
        if (number > 0) session_delwin(number);
        return NULL;
    }
    window->number = number;
    window->lines = lines;
    window->columns = columns;
    window->parent = parent;
    window->touched = touched;
    window->background = ' ';
    window->region_bottom = lines - 1;
    window->delay = -1;
    tcu.windows[number] = window;
    tcu_touch_lines(window, 0, lines - 1);
    return window;
}

void tcu_freed(WINDOW *window) {
    if (!window) return;
    tcu.windows[window->number] = NULL;
    free(window->touched);
    free(window);
}

static bool is_on_screen(int lines, int columns, int y, int x) {
    return y >= 0 && x >= 0 && lines <= LINES - y && columns <= COLS - x;
}

/* Has the session make a window of this place and size, or a pad if the screen is too small. Sets `is_pad`. */
static int make(int number, int lines, int columns, int y, int x, bool *is_pad) {
    *is_pad = !is_on_screen(lines, columns, y, x);
    return *is_pad ? session_newpad(number, lines, columns) : session_newwin(number, lines, columns, y, x);
}

/* Has the session make a part of the window or pad `parent`. */
int tcu_make_part(int number, const WINDOW *parent, int lines, int columns, int y, int x) {
    return parent->is_below_pad ? session_subpad(number, parent->number, lines, columns, y, x)
                                : session_derwin(number, parent->number, lines, columns, y, x);
}

WINDOW *newwin(int lines, int columns, int y, int x) {
    int number = free_number();
    bool is_pad;
    WINDOW *window;
    if (!tcu.is_open || lines < 0 || columns < 0 || y < 0 || x < 0 || y > FARTHEST || x > FARTHEST) return NULL;
    if (lines == 0) lines = LINES - y;
    if (columns == 0) columns = COLS - x;
    if (number == TCU_WINDOWS || lines < 1 || columns < 1) return NULL;
    if (make(number, lines, columns, y, x, &is_pad) != OK) return NULL;
    window = tcu_made(number, lines, columns, NULL);
    if (!window) return NULL;
    window->y = y;
    window->x = x;
    window->is_below_pad = is_pad;
    return window;
}

WINDOW *newpad(int lines, int columns) {
    int number = free_number();
    WINDOW *pad;
    if (!tcu.is_open || number == TCU_WINDOWS || session_newpad(number, lines, columns) != OK) return NULL;
    pad = tcu_made(number, lines, columns, NULL);
    if (pad) pad->is_pad = pad->is_below_pad = true;
    return pad;
}

WINDOW *derwin(WINDOW *parent, int lines, int columns, int y, int x) {
    int number = free_number();
    WINDOW *window;
    if (!tcu_is_own(parent) || lines < 0 || columns < 0 || y < 0 || x < 0 || number == TCU_WINDOWS) return NULL;
    if (y >= parent->lines || x >= parent->columns) return NULL;
    if (lines == 0) lines = parent->lines - y;
    if (columns == 0) columns = parent->columns - x;
    if (tcu_make_part(number, parent, lines, columns, y, x) != OK) return NULL;
    window = tcu_made(number, lines, columns, parent);
    if (!window) return NULL;
    window->parent_y = y;
    window->parent_x = x;
    window->y = parent->y + y;
    window->x = parent->x + x;
    window->is_pad = parent->is_pad;
    window->is_below_pad = parent->is_below_pad;
    window->attrs = parent->attrs;
    window->background = parent->background;
    tcu_restored(window, 0, 0);
    return window;
}

WINDOW *subwin(WINDOW *parent, int lines, int columns, int y, int x) {
    if (!tcu_is_own(parent) || y < parent->y || x < parent->x) return NULL;
    return derwin(parent, lines, columns, y - parent->y, x - parent->x);
}

WINDOW *subpad(WINDOW *parent, int lines, int columns, int y, int x) {
    return tcu_is_own(parent) && parent->is_pad ? derwin(parent, lines, columns, y, x) : NULL;
}

WINDOW *dupwin(WINDOW *window) {
    int number = free_number();
    struct tcu_line *touched;
    WINDOW *copy;
    if (!tcu_is_own(window) || number == TCU_WINDOWS || session_dupwin(number, window->number) != OK) return NULL;
    copy = tcu_made(number, window->lines, window->columns, NULL);
    if (!copy) return NULL;
    touched = copy->touched;
    *copy = *window;
    copy->touched = touched;
    memcpy(touched, window->touched, (size_t)window->lines * sizeof *touched);
    copy->number = number;
    copy->parent = NULL;
    copy->parent_y = copy->parent_x = 0;
    return copy;
}

static bool has_parts(const WINDOW *window) {
    for (int number = 0; number < TCU_WINDOWS; number++)
        if (tcu.windows[number] && tcu.windows[number]->parent == window) return true;
    return false;
}

int delwin(WINDOW *window) {
    if (!tcu_is_own(window) || window == stdscr || has_parts(window)) return ERR;
    if (session_delwin(window->number) != OK) return ERR;
    tcu_freed(window);
    return OK;
}

/* Gives a window that the session has made anew its attributes, background, options and cursor. */
void tcu_restored(WINDOW *window, int cursor_y, int cursor_x) {
    if (window->attrs) session_attrset(window->number, window->attrs);
    if (window->background != ' ') session_bkgdset(window->number, window->background);
    if (window->scrolls) session_scrollok(window->number, true);
    if (window->region_top > 0 || window->region_bottom < window->lines - 1)
        session_setscrreg(window->number, window->region_top, window->region_bottom);
    session_move(window->number, cursor_y, cursor_x);
}

/* Moves a window, but not its parts. */
int mvwin(WINDOW *window, int y, int x) {
    if (!tcu_is_own(window) || window->is_pad || !is_on_screen(window->lines, window->columns, y, x)) return ERR;
    /* the session uses the place only for scrolling */
    if (!window->parent && !window->is_below_pad) session_mvwin(window->number, y, x);
    window->y = y;
    window->x = x;
    return touchwin(window);
}

/* Moves a part within its parent by making it anew; it must have no parts itself. */
int mvderwin(WINDOW *window, int y, int x) {
    WINDOW *parent = tcu_is_own(window) ? window->parent : NULL;
    int cursor_y, cursor_x;
    if (!parent || y < 0 || x < 0) return ERR;
    if (y > parent->lines - window->lines || x > parent->columns - window->columns) return ERR;
    if (y == window->parent_y && x == window->parent_x) return OK;
    if (has_parts(window) || session_cursor(window->number, &cursor_y, &cursor_x) != OK) return ERR;
    wsyncup(window);
    if (session_delwin(window->number) != OK) return ERR;
    if (tcu_make_part(window->number, parent, window->lines, window->columns, y, x) != OK) return ERR;
    tcu_restored(window, cursor_y, cursor_x);
    window->parent_y = y;
    window->parent_x = x;
    return OK;
}

/* -- another size -- */

static int smaller(int one, int other) {
    return one < other ? one : other;
}

/* Has the session make the window once more, of another size, under the free `number`. Sets `is_pad`. */
static int made_anew(const WINDOW *window, int number, int lines, int columns, bool *is_pad) {
    const WINDOW *parent = window->parent;
    *is_pad = window->is_below_pad;
    if (parent) return tcu_make_part(number, parent, lines, columns, window->parent_y, window->parent_x);
    if (window->is_pad) return session_newpad(number, lines, columns);
    return make(number, lines, columns, window->y, window->x, is_pad);
}

/* Copies the old window's cells, on its background, to the window `number`. */
static void copy_cells(const WINDOW *window, int number, int lines, int columns) {
    if (window->parent) return;
    session_bkgdset(number, window->background);
    session_erase(number);
    session_copywin(window->number, number, 0, 0, 0, 0, smaller(lines, window->lines) - 1,
                    smaller(columns, window->columns) - 1, false);
}

int wresize(WINDOW *window, int lines, int columns) {
    int number = free_number(), cursor_y, cursor_x;
    struct tcu_line *touched;
    bool is_pad;
    if (!tcu_is_own(window) || lines < 1 || columns < 1) return ERR;
    if (lines == window->lines && columns == window->columns) return OK;
    if (window == stdscr || number == TCU_WINDOWS || has_parts(window)) return ERR;
    if (session_cursor(window->number, &cursor_y, &cursor_x) != OK) return ERR;
    touched = calloc((size_t)lines, sizeof *touched);
    if (!touched) return ERR;
    if (made_anew(window, number, lines, columns, &is_pad) != OK) {
        free(touched);
        return ERR;
    }
    copy_cells(window, number, lines, columns);
    session_delwin(window->number);
    tcu.windows[window->number] = NULL;
    tcu.windows[number] = window;
    free(window->touched);
    window->touched = touched;
    window->number = number;
    window->is_below_pad = is_pad;
    if (window->region_top > lines - 1 || window->region_bottom >= smaller(lines, window->lines) - 1)
        window->region_bottom = lines - 1;
    if (window->region_top >= window->region_bottom) window->region_top = 0;
    window->lines = lines;
    window->columns = columns;
    tcu_restored(window, smaller(cursor_y, lines - 1), smaller(cursor_x, columns - 1));
    return touchwin(window);
}

/* -- questions -- */

static int cursor_of(const WINDOW *window, bool is_row) {
    int y, x;
    if (!window || !tcu.is_open || session_cursor(window->number, &y, &x) != OK) return ERR;
    return is_row ? y : x;
}

int getcury(const WINDOW *window) {
    return cursor_of(window, true);
}

int getcurx(const WINDOW *window) {
    return cursor_of(window, false);
}

int getbegy(const WINDOW *window) {
    return window ? window->y : ERR;
}

int getbegx(const WINDOW *window) {
    return window ? window->x : ERR;
}

int getmaxy(const WINDOW *window) {
    return window ? window->lines : ERR;
}

int getmaxx(const WINDOW *window) {
    return window ? window->columns : ERR;
}

int getpary(const WINDOW *window) {
    return window && window->parent ? window->parent_y : ERR;
}

int getparx(const WINDOW *window) {
    return window && window->parent ? window->parent_x : ERR;
}

WINDOW *wgetparent(const WINDOW *window) {
    return window ? window->parent : NULL;
}

bool is_pad(const WINDOW *window) {
    return window && window->is_pad;
}

bool is_subwin(const WINDOW *window) {
    return window && window->parent;
}

bool wenclose(const WINDOW *window, int y, int x) {
    if (!window || y < window->y || x < window->x) return false;
    return y - window->y < window->lines && x - window->x < window->columns;
}
