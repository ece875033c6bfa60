/* random SEED COUNT [once]: makes COUNT calls of curses with arguments of all kinds, on a terminal that doesn't exist,
 * for the sanitizers and valgrind. It prints a number made of the answers of texts and the content of all windows at
 * the end. With `once` each text reaches the session before the next one, and the number must be the same. */
#include <curses.h>

#include <stdlib.h>

enum { WINDOWS = 24 };

static WINDOW *windows[WINDOWS];
static unsigned state;
static unsigned long seen = 5381;
static bool is_at_once;

static void see(unsigned long number) {
    seen = (seen * 33 + number) & 0xffffffff;
}

static int below(int count) {
    state = state * 1103515245u + 12345u;
    return (int)(state >> 8 & 0x7fffff) % count;
}

/* Mostly a line or column of a window, sometimes one of none. */
static int number(void) {
    static const int odd[] = {-1, -2147483647 - 1, 2147483647, 1000, 999, 0};
    return below(8) ? below(30) : odd[below(6)];
}

static WINDOW *any(void) {
    WINDOW *window = windows[below(WINDOWS)];
    return window || below(20) == 0 ? window : stdscr;
}

static chtype character(void) {
    static const chtype marks[] = {A_NORMAL, A_BOLD, A_REVERSE, A_ALTCHARSET, A_STANDOUT | A_DIM};
    return (chtype)(below(10) ? 32 + below(95) : below(256)) | marks[below(5)] | COLOR_PAIR(below(70));
}

static const char *text(void) {
    static const char *const texts[] = {
        "", "a", "hello", "a\nb", "a\tb\bc\rd", "\033[1m", "\351t\351",
        "long enough to go on in the next line of most windows, and past the end of some of them as well",
    };
    return texts[below(8)];
}

static void make(void) {
    int at = below(WINDOWS);
    WINDOW *parent = any();
    if (windows[at]) {
        if (delwin(windows[at]) == OK) windows[at] = NULL;
        return;
    }
    switch (below(6)) {
    case 0: windows[at] = newwin(number(), number(), number(), number()); break;
    case 1: windows[at] = newpad(1 + below(60), 1 + below(200)); break;
    case 2: windows[at] = parent ? dupwin(parent) : NULL; break;
    case 3: windows[at] = parent ? subwin(parent, number(), number(), number(), number()) : NULL; break;
    case 4: windows[at] = newwin(1 + below(40), 1 + below(100), below(20), below(60)); break;
    default: windows[at] = parent ? derwin(parent, below(5), below(9), below(5), below(9)) : NULL;
    }
}

static void write_something(WINDOW *w) {
    chtype cells[300];
    char room[300];
    switch (below(14)) {
    case 0: waddch(w, character()); break;
    case 1: waddstr(w, text()); break;
    case 2: waddnstr(w, text(), number()); break;
    case 3: wprintw(w, "%d %s", number(), text()); break;
    case 4: winsch(w, character()); break;
    case 5: winsnstr(w, text(), number()); break;
    case 6: wmove(w, number(), number()); break;
    case 7: wdelch(w); break;
    case 8: winsdelln(w, number()); break;
    case 9: whline(w, below(3) ? character() : 0, number()); break;
    case 10: wborder(w, character(), 0, character(), 0, character(), 0, 0, 0); break;
    case 11:
        if (w && getmaxx(w) < 299 && winchnstr(w, cells, 298) == OK) waddchnstr(w, cells, number());
        break;
    case 12:
        if (w && getmaxx(w) < 299) winnstr(w, room, 298);
        break;
    default: wchgat(w, number(), character() & A_ATTRIBUTES, (short)below(80), NULL);
    }
}

/* Writes texts one after the other to one window, with calls in between about the cursor and the attributes. */
static void write_on(WINDOW *w) {
    for (int left = below(60); left > 0; left--) {
        int code;
        switch (below(14)) {
        case 0: code = wmove(w, number(), number()); break;
        case 1: code = wattrset(w, (int)(character() & A_ATTRIBUTES)); break;
        case 2: code = waddch(w, character()); break;
        case 3: code = waddnstr(w, text(), below(9)); break;
        case 4: code = (int)winch(w); break;
        case 5: code = getcurx(w); break;
        case 6: code = waddch(w, (chtype)(32 + below(95)) | A_BOLD); break;
        default: code = waddch(w, (chtype)(32 + below(95)));
        }
        see((unsigned long)code);
        /* a call of the session that changes nothing that this program reads */
        if (is_at_once) init_pair(63, 7, 0);
    }
}

static void change_something(WINDOW *w) {
    switch (below(16)) {
    case 0: wattrset(w, (int)(character() & A_ATTRIBUTES)); break;
    case 1: wbkgd(w, character()); break;
    case 2: wbkgdset(w, character()); break;
    case 3: werase(w); break;
    case 4: wclrtobot(w); break;
    case 5: wclear(w); break;
    case 6: scrollok(w, below(2)); break;
    case 7: wscrl(w, number()); break;
    case 8: wsetscrreg(w, number(), number()); break;
    case 9: mvwin(w, number(), number()); break;
    case 10: mvderwin(w, number(), number()); break;
    case 11: leaveok(w, below(2)); break;
    case 12: syncok(w, below(2)); break;
    case 13: wtouchln(w, number(), number(), below(2)); break;
    case 14: wsyncdown(w); break;
    default: wresize(w, 1 + below(30), 1 + below(90));
    }
}

static void show_something(WINDOW *w) {
    WINDOW *other = any();
    switch (below(8)) {
    case 0: wrefresh(w); break;
    case 1: wnoutrefresh(w); break;
    case 2: prefresh(w, number(), number(), number(), number(), number(), number()); break;
    case 3: overlay(w, other); break;
    case 4: overwrite(w, other); break;
    case 5: copywin(w, other, number(), number(), number(), number(), number(), number(), below(2)); break;
    case 6: wechochar(w, character()); break;
    default: init_pair((short)below(70), (short)(below(10) - 1), (short)below(9));
    }
}

static void seldom(void) {
    switch (below(10)) {
    case 0: resize_term(2 + below(40), 2 + below(120)); break;
    case 1: endwin(); break;
    case 2: wrefresh(curscr); break;
    case 3: redrawwin(stdscr); break;
    case 4: flash(); break;
    case 5: curs_set(below(3)); break;
    case 6: keypad(stdscr, below(2)); break;
    case 7: wgetch(any()); break;
    case 8: immedok(any(), below(4) == 0); break;
    default: doupdate();
    }
}

static void see_window(WINDOW *w) {
    chtype cells[1001];
    see((unsigned long)getcury(w) * 1000 + (unsigned long)getcurx(w));
    for (int line = 0; line < getmaxy(w); line++) {
        if (mvwinchnstr(w, line, 0, cells, 1000) != OK) continue;
        for (int at = 0; at < getmaxx(w); at++) see(cells[at]);
    }
}

/* Whether each window's cursor is in the window. */
static bool is_well(void) {
    for (int at = 0; at < WINDOWS; at++) {
        WINDOW *w = windows[at];
        if (!w) continue;
        if (getcury(w) < 0 || getcurx(w) < 0 || getcury(w) >= getmaxy(w) || getcurx(w) >= getmaxx(w)) return false;
    }
    return true;
}

int main(int count, char **words) {
    FILE *nowhere = fopen("/dev/null", "r+");
    long left = count > 2 ? atol(words[2]) : 1000;
    SCREEN *screen;
    state = count > 1 ? (unsigned)atol(words[1]) : 1;
    is_at_once = count > 3;
    screen = nowhere ? newterm("screen", nowhere, nowhere) : NULL;
    if (!screen) return 2;
    start_color();
    for (; left > 0; left--) {
        int kind = below(100);
        if (kind < 12) make();
        else if (kind < 40) write_something(any());
        else if (kind < 55) write_on(any());
        else if (kind < 80) change_something(any());
        else if (kind < 97) show_something(any());
        else seldom();
        if (left % 256 == 0 && !is_well()) return 3;
    }
    see_window(stdscr);
    for (int at = 0; at < WINDOWS; at++)
        if (windows[at]) see_window(windows[at]);
    printf("%lu\n", seen);
    delscreen(screen);
    fclose(nowhere);
    return 0;
}
