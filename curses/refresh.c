/* Refreshing. newscr is a window of the session, as large as the screen: wnoutrefresh copies touched cells to it, and
 * doupdate has the session bring the terminal to it. */
#include "private.h"

#include "calls.h"

static int smaller(int one, int other) {
    return one < other ? one : other;
}

/* The last of the lines from `line` on, before `end`, that are touched in the same columns as `line`. */
static int last_alike(const WINDOW *window, int line, int end) {
    const struct tcu_line *first = &window->touched[line];
    while (line + 1 < end && window->touched[line + 1].first == first->first &&
           window->touched[line + 1].last == first->last)
        line++;
    return line;
}

/* Copies the touched columns of these lines, which must all be touched alike; leaves out cells beyond the screen. */
static int copy_lines(const WINDOW *window, int top, int bottom) {
    int left = window->touched[top].first;
    int right = smaller(window->touched[top].last, COLS - 1 - window->x);
    if (left > right) return OK;
    return session_copywin(window->number, TCU_NEWSCR, top, left, window->y + top, window->x + left, window->y + bottom,
                           window->x + right, false);
}

static int copy_touched(WINDOW *window) {
    int code = OK, end = smaller(window->lines, LINES - window->y);
    for (int line = 0; line < end && code == OK;) {
        int bottom = last_alike(window, line, end);
        code = copy_lines(window, line, bottom);
        line = bottom + 1;
    }
    return code == OK ? untouchwin(window) : code;
}

/* Places newscr's cursor unless the window leaves it. */
static void place_cursor(const WINDOW *window, int y, int x) {
    if (!window->leaves) session_move(TCU_NEWSCR, smaller(y, LINES - 1), smaller(x, COLS - 1));
    if (window->leaves == tcu.is_cursor_left) return;
    tcu.is_cursor_left = window->leaves;
    session_leaveok(TCU_NEWSCR, window->leaves);
}

/* Has the next doupdate clear the terminal first if the window asks for it. */
static void pass_on_clearing(WINDOW *window) {
    if (window->clears) session_clearok(TCU_NEWSCR, true);
    window->clears = false;
}

int wnoutrefresh(WINDOW *window) {
    int y, x;
    if (!window || !tcu.is_open || window->is_pad) return ERR;
    tcu_resume();
    if (window == curscr || window == newscr) return OK;
    wsyncdown(window);
    if (session_cursor(window->number, &y, &x) != OK || copy_touched(window) != OK) return ERR;
    window->is_moved = false;
    pass_on_clearing(window);
    place_cursor(window, window->y + y, window->x + x);
    return OK;
}

int doupdate(void) {
    int code;
    if (!tcu.is_open) return ERR;
    signals_heed();
    tcu_resume();
    pass_on_clearing(curscr);
    pass_on_clearing(newscr);
    code = session_refresh(TCU_NEWSCR);
    if (session_send(tcu.output) != OK) code = ERR;
    tcu.is_current = code == OK;
    return code;
}

int wrefresh(WINDOW *window) {
    if (window && window == curscr) window->clears = true;
    return wnoutrefresh(window) == OK ? doupdate() : ERR;
}

/* Moves the terminal's cursor to the first column of the last line, where a shell goes on. The next refresh has it back
 * where the program left it. */
int tcu_leave_cursor(void) {
    int y, x, code;
    if (session_cursor(TCU_NEWSCR, &y, &x) != OK) return ERR;
    if (tcu.is_cursor_left) session_leaveok(TCU_NEWSCR, false);
    tcu.is_cursor_left = false;
    session_move(TCU_NEWSCR, LINES - 1, 0);
    code = session_refresh(TCU_NEWSCR);
    session_move(TCU_NEWSCR, y, x);
    return code;
}

/* Ignores the old place, since the session knows where the cursor is. */
int mvcur(int y, int x, int new_y, int new_x) {
    (void)y;
    (void)x;
    return tcu.is_open && session_move(TCU_NEWSCR, new_y, new_x) == OK ? doupdate() : ERR;
}

/* Has the next refresh clear the terminal and draw all of it anew, not only these lines. */
int wredrawln(WINDOW *window, int first, int count) {
    if (!window || !tcu.is_open || first < 0 || count < 0 || first >= window->lines) return ERR;
    if (window != curscr && window != newscr) touchline(window, first, count);
    curscr->clears = true;
    return OK;
}

int redrawwin(WINDOW *window) {
    return window ? wredrawln(window, 0, window->lines) : ERR;
}

/* -- pads -- */

/* The part of a pad to copy: its first line and column, and the screen's lines and columns that it covers. */
struct part {
    int pad_y, pad_x, y, x, last_y, last_x;
};

static bool is_part(const WINDOW *pad, struct part *part) {
    int *const first[] = {&part->pad_y, &part->pad_x, &part->y, &part->x};
    for (int at = 0; at < 4; at++)
        if (*first[at] < 0) *first[at] = 0;
    if (part->pad_y >= pad->lines || part->pad_x >= pad->columns || part->y >= LINES || part->x >= COLS) return false;
    /* the part ends where the pad ends */
    part->last_y = smaller(part->last_y, part->y + pad->lines - 1 - part->pad_y);
    part->last_x = smaller(part->last_x, part->x + pad->columns - 1 - part->pad_x);
    return part->last_y < LINES && part->last_x < COLS && part->y <= part->last_y && part->x <= part->last_x;
}

static void place_pad_cursor(WINDOW *pad, const struct part *part) {
    int y = getcury(pad), x = getcurx(pad);
    bool is_shown = y >= part->pad_y && x >= part->pad_x && y - part->pad_y <= part->last_y - part->y &&
                    x - part->pad_x <= part->last_x - part->x;
    if (is_shown) {
        place_cursor(pad, y - part->pad_y + part->y, x - part->pad_x + part->x);
    } else if (pad->leaves != tcu.is_cursor_left) {
        tcu.is_cursor_left = pad->leaves;
        session_leaveok(TCU_NEWSCR, pad->leaves);
    }
}

int pnoutrefresh(WINDOW *pad, int pad_y, int pad_x, int y, int x, int last_y, int last_x) {
    struct part part = {pad_y, pad_x, y, x, last_y, last_x};
    const int shown[] = {pad_y, pad_x, y, x, last_y, last_x};
    if (!tcu_is_own(pad) || !pad->is_pad) return ERR;
    tcu_resume();
    if (!is_part(pad, &part)) return ERR;
    if (session_copywin(pad->number, TCU_NEWSCR, part.pad_y, part.pad_x, part.y, part.x, part.last_y, part.last_x,
                        false) != OK)
        return ERR;
    wtouchln(pad, part.pad_y, part.last_y - part.y + 1, 0);
    pad->is_moved = false;
    pass_on_clearing(pad);
    place_pad_cursor(pad, &part);
    for (int at = 0; at < 6; at++) pad->shown[at] = shown[at];
    pad->is_shown = true;
    return OK;
}

int prefresh(WINDOW *pad, int pad_y, int pad_x, int y, int x, int last_y, int last_x) {
    return pnoutrefresh(pad, pad_y, pad_x, y, x, last_y, last_x) == OK ? doupdate() : ERR;
}

/* Writes a character, and shows the part of the pad that was shown last. */
int pechochar(WINDOW *pad, chtype ch) {
    const int *at;
    if (!tcu_is_own(pad)) return ERR;
    if (!pad->is_pad) return wechochar(pad, ch);
    if (waddch(pad, ch) != OK) return ERR;
    at = pad->shown;
    return pad->is_shown ? prefresh(pad, at[0], at[1], at[2], at[3], at[4], at[5]) : ERR;
}

void setsyx(int y, int x) {
    if (!tcu.is_open) return;
    tcu.is_cursor_left = y == -1 && x == -1;
    if (!tcu.is_cursor_left) session_move(TCU_NEWSCR, y, x);
}

void ticurses_getsyx(int *y, int *x) {
    if (!tcu.is_open || tcu.is_cursor_left || session_cursor(TCU_NEWSCR, y, x) != OK) *y = *x = -1;
}
