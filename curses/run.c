/* Text that waits. Printable characters that are written one after the other in a line go to the session together, with
 * their place and attributes, when another call is made. The session can't refuse any of this: the place is in the
 * window, the pair exists, and the text ends before the line's last column. Text that fills its line goes to the session
 * at once, and only where the session's cursor then goes to the next line. */
#include <string.h>

#include "session.h"

enum { NONE = -1 };

/* The window whose cursor is known, with the text, move and attributes that wait. */
static struct {
    int window;
    int y, x;        /* its cursor, after the text */
    int last_x;      /* its last column */
    bool is_moved;   /* the session's cursor isn't yet where the text begins */
    chtype wanted;   /* the attributes and the pair that the program gave the window */
    chtype marks;    /* those of the text */
    int count;
    char text[TCU_PAD_MAX];
} run = {NONE, 0, 0, 0, false, 0, 0, 0, {0}};

/* The size, attributes and pair of each window in the session; the size isn't known if `lines` is 0. */
static struct {
    int lines, columns;
    chtype marks;
} known[TCU_NEWSCR + 1];

void run_begin(void) {
    memset(known, 0, sizeof known);
    run.window = NONE;
}

void run_made(int window) {
    known[window].lines = 0;
    known[window].marks = 0;
}

void run_copied(int window, int source) {
    known[window] = known[source];
}

/* Gives the session's window these attributes and this pair. */
static void set_marks(chtype marks) {
    chtype *now = &known[run.window].marks;
    if ((marks ^ *now) & A_COLOR) ticurses_color_set(&tcu_session, (size_t)run.window, tcu_slot((int)PAIR_NUMBER(marks)));
    if ((marks ^ *now) & ~A_COLOR) ticurses_attrset(&tcu_session, (size_t)run.window, (int)(marks >> 16));
    *now = marks;
}

/* Whether a cell of the text can be written without set_marks, since the session adds the window's attributes and pair
 * to the cell's. */
static bool is_joined(void) {
    chtype now = known[run.window].marks;
    return !(now & TCU_SHOWN & ~run.marks) && (run.marks & A_COLOR || !(now & A_COLOR));
}

void run_flush(void) {
    if (run.window == NONE) return;
    if (run.is_moved) ticurses_move(&tcu_session, (size_t)run.window, run.y, run.x - run.count);
    run.is_moved = false;
    if (run.count == 0) return;
    if (run.count == 1 && is_joined()) {
        chtype cell = run.marks | (unsigned char)run.text[0];
        ticurses_addch(&tcu_session, (size_t)run.window, session_cell_of(cell));
    } else {
        set_marks(run.marks);
        ticurses_addstr(&tcu_session, (size_t)run.window, run.text, (size_t)run.count);
    }
    run.count = 0;
}

void run_end(void) {
    if (run.window == NONE) return;
    run_flush();
    set_marks(run.wanted);
    run.window = NONE;
}

/* Makes the window the one whose cursor is known; false if there is no such window. */
static bool is_found(int window) {
    uint16_t one, other;
    run_end();
    if (known[window].lines == 0) {
        if (ticurses_window_size(&tcu_session, (size_t)window, &one, &other) != TICURSES_OK) return false;
        known[window].lines = one;
        known[window].columns = other;
    }
    if (ticurses_cursor(&tcu_session, (size_t)window, &one, &other) != TICURSES_OK) return false;
    run.window = window;
    run.y = one;
    run.x = other;
    run.last_x = known[window].columns - 1;
    run.is_moved = false;
    run.wanted = known[window].marks;
    return true;
}

/* Makes the window the one whose cursor is known, unless it is; false if there is no such window. */
static inline bool is_current(int window) {
    return run.window == window || is_found(window);
}

/* The marks of a character that has some of its own: its attributes are added to the window's, and its pair replaces
 * the window's. */
static chtype joined(chtype marks) {
    chtype pair = marks & A_COLOR ? marks & A_COLOR : run.wanted & A_COLOR;
    return ((run.wanted | marks) & TCU_SHOWN) | pair;
}

/* Begins a text with these marks. */
static void turn_to(chtype marks) {
    if (run.count > 0) run_flush();
    run.marks = marks;
}

/* Has the session write the text that fills its line, which leaves the cursor in the next one. */
static void wrap(void) {
    run_flush();
    run.y++;
    run.x = 0;
}

/* Whether text that fills the cursor's line goes on in the next one: it does so in the session as in curses, but not in
 * a scrolling region's last line, which is `bottom`, and not in the window's. */
static bool goes_on(int bottom) {
    return run.y != bottom && run.y < known[run.window].lines - 1;
}

/* Adds a character to the text that waits, and stores its place. */
static inline void append(chtype cell, int *y, int *x) {
    *y = run.y;
    *x = run.x++;
    run.text[run.count++] = (char)TCU_BYTE(cell);
}

/* Writes a character whose window, place or marks may be others than those of the text that waits. It is a function of
 * its own, so that session_put takes few steps for all other characters. */
__attribute__((__noinline__)) static bool put_anew(int window, chtype cell, int bottom, int *y, int *x) {
    chtype marks = tcu_colored(cell) & ~A_CHARTEXT;
    bool is_put = is_current(window) && (run.x < run.last_x || goes_on(bottom));
    if (is_put) {
        marks = marks ? joined(marks) : run.wanted;
        if (marks != run.marks) turn_to(marks);
        append(cell, y, x);
        if (run.x > run.last_x) wrap();
    }
    tcu_is_busy = 0;
    return is_put;
}

bool session_put(int window, chtype cell, int bottom, int *y, int *x) {
    unsigned byte = TCU_BYTE(cell);
    if (tcu_is_busy || byte < 32 || byte > 126) return false;
    tcu_is_busy = 1;
    if (run.window != window || run.x >= run.last_x || byte != cell || run.wanted != run.marks)
        return put_anew(window, cell, bottom, y, x);
    append(cell, y, x);
    tcu_is_busy = 0;
    return true;
}

/* Whether all of eight characters are printable, tested side by side. A byte below 32 borrows from its own high bit, and
 * 127 carries into it; what a byte that isn't printable does to the next one changes no answer. */
static bool are_printable(const char *text) {
    const uint64_t ones = UINT64_C(0x0101010101010101);
    uint64_t bytes;
    memcpy(&bytes, text, sizeof bytes);
    return !((bytes | (bytes - ones * 32) | (bytes + ones)) & ones * 128);
}

/* How many printable characters the text begins with. */
static size_t printable(const char *text, size_t len) {
    size_t count = 0;
    while (len - count >= 8 && are_printable(text + count)) count += 8;
    while (count < len && text[count] >= 32 && text[count] <= 126) count++;
    return count;
}

/* How many of the printable characters that the text begins with can be written at once. */
static size_t fitting(const char *text, size_t len, int bottom) {
    size_t room = (size_t)(run.last_x - run.x);
    if (goes_on(bottom)) room++;
    return printable(text, len < room ? len : room);
}

size_t session_write(int window, const char *text, size_t len, int bottom, int *y, int *x) {
    size_t count = 0;
    if (tcu_is_busy) return 0;
    tcu_is_busy = 1;
    if (is_current(window)) count = fitting(text, len, bottom);
    if (count > 0) {
        if (run.wanted != run.marks) turn_to(run.wanted);
        *y = run.y;
        *x = run.x;
        memcpy(run.text + run.count, text, count);
        run.count += (int)count;
        run.x += (int)count;
        if (run.x > run.last_x) wrap();
    }
    tcu_is_busy = 0;
    return count;
}

/* Writes a cell to a window of one line. */
int session_addch(int window, chtype cell) {
    int y, x;
    if (session_put(window, cell, 0, &y, &x)) return OK;
    if (!session_begins()) return ERR;
    return session_done(ticurses_addch(&tcu_session, (size_t)window, session_cell_of(cell)));
}

static int moved(int window, int y, int x) {
    if (!is_current(window)) return ERR;
    if (y < 0 || x < 0 || y >= known[window].lines || x >= known[window].columns) return ERR;
    if (y == run.y && x == run.x) return OK;
    if (run.count > 0) run_flush();
    run.y = y;
    run.x = x;
    run.is_moved = true;
    return OK;
}

int session_move(int window, int y, int x) {
    int code;
    if (tcu_is_busy) return ERR;
    tcu_is_busy = 1;
    code = moved(window, y, x);
    tcu_is_busy = 0;
    return code;
}

int session_cursor(int window, int *y, int *x) {
    int code = ERR;
    if (tcu_is_busy) return ERR;
    tcu_is_busy = 1;
    if (is_current(window)) {
        *y = run.y;
        *x = run.x;
        code = OK;
    }
    tcu_is_busy = 0;
    return code;
}

int session_attrset(int window, chtype attrs) {
    int code = ERR;
    if (tcu_is_busy) return ERR;
    tcu_is_busy = 1;
    if (is_current(window)) {
        run.wanted = tcu_colored(attrs) & (TCU_SHOWN | A_COLOR);
        code = OK;
    }
    tcu_is_busy = 0;
    return code;
}
