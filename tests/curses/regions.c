/* regions FIRST LAST [listed]: random calls that write at the edges of windows and of scrolling regions, a script of them
 * for each seed from FIRST to LAST: on the screen, a window, a part of one and a pad in turn. For each seed it prints a
 * number made of the answer of each call, the cursor and the cells after it. With `listed` it prints the calls. */
#include <curses.h>

#include <stdlib.h>

enum { CALLS = 40, WIDEST = 200 };

static unsigned state;
static unsigned long seen;
static bool tells;

static void see(unsigned long number) {
    seen = (seen * 33 + number) & 0xffffffff;
}

static int below(int count) {
    state = state * 1103515245u + 12345u;
    return (int)(state >> 8 & 0x7fffff) % count;
}

static WINDOW *made(unsigned seed) {
    switch (seed % 4) {
    case 0: return stdscr;
    case 1: return newwin(1 + below(8), 1 + below(20), 0, 0);
    case 2: return derwin(stdscr, 1 + below(6), 1 + below(16), below(2), below(3));
    default: return newpad(1 + below(10), 1 + below(24));
    }
}

static void tell(const char *name, int one, int other) {
    if (tells) printf("%s %d %d", name, one, other);
}

/* A text of up to two lines or so, with a control or none. */
static int write_text(WINDOW *w) {
    static const char controls[] = {'\n', '\n', '\n', '\t', '\b', '\r', 1};
    char text[100];
    int count = below(below(3) ? getmaxx(w) + 3 : 60), place = below(60);
    for (int at = 0; at < count; at++) text[at] = (char)(below(12) ? 'a' + below(26) : ' ');
    if (place < count) text[place] = controls[below(7)];
    text[count] = 0;
    tell("addstr", count, place < count ? text[place] : 0);
    return below(6) ? waddnstr(w, text, count) : wprintw(w, "%s", text);
}

static int insert_text(WINDOW *w) {
    static const char *const texts[] = {"x", "insert", "a\nb", "ab\ncd\nef", "\tt", "ab\rc", "abc\bd", "\001"};
    int at = below(8), count = below(3) ? -1 : 1 + below(4);
    tell("insstr", at, count);
    return winsnstr(w, texts[at], count);
}

/* Mostly to a place at the right edge, in the last line or at the region's end. */
static int move_somewhere(WINDOW *w, int bottom) {
    int y = below(getmaxy(w)), x = below(getmaxx(w));
    if (below(3) == 0) y = bottom;
    if (below(4) == 0) y = getmaxy(w) - 1;
    if (below(3) == 0) x = getmaxx(w) - 1;
    tell("move", y, x);
    return wmove(w, y, x);
}

static int write_one(WINDOW *w) {
    static const char letters[] = {'\n', '\n', '\n', '\t', '\b', '\r', 1, 127, 'z', ' '};
    char letter = letters[below(10)];
    bool inserts = below(4) == 0;
    tell(inserts ? "insch" : "addch", letter, 0);
    return inserts ? winsch(w, (chtype)letter) : waddch(w, (chtype)letter);
}

static int set_region(WINDOW *w, int *bottom) {
    int top = below(getmaxy(w)) - below(8) / 7, last = below(getmaxy(w) + 1);
    int code = wsetscrreg(w, top, last);
    tell("setscrreg", top, last);
    if (code == OK) *bottom = last;
    return code;
}

static int change(WINDOW *w) {
    int kind = below(7), count = below(5) - 2;
    tell("change", kind, count);
    switch (kind) {
    case 0: return wclrtoeol(w);
    case 1: return wclrtobot(w);
    case 2: return wscrl(w, count);
    case 3: return winsdelln(w, count);
    case 4: return wattrset(w, count > 0 ? (int)A_BOLD : (int)A_NORMAL);
    case 5: return count > 0 ? werase(w) : wdelch(w);
    default: return scrollok(w, count > 0);
    }
}

static int called(WINDOW *w, int *bottom) {
    switch (below(8)) {
    case 0: return set_region(w, bottom);
    case 1: return move_somewhere(w, *bottom);
    case 2:
    case 3: return write_one(w);
    case 4:
    case 5: return write_text(w);
    case 6: return insert_text(w);
    default: return change(w);
    }
}

/* Sees the cells of a window, by a part of it, since reading moves the cursor. */
static void see_cells(WINDOW *part) {
    chtype cells[WIDEST + 1];
    for (int line = 0; line < getmaxy(part); line++) {
        mvwinchnstr(part, line, 0, cells, WIDEST);
        if (tells) putchar('|');
        for (int at = 0; at < getmaxx(part); at++) {
            see((cells[at] & A_CHARTEXT) | (cells[at] & A_BOLD ? 256 : 0));
            if (tells) putchar((int)(cells[at] & A_CHARTEXT));
        }
    }
}

static void play(unsigned seed) {
    WINDOW *w, *part;
    int bottom;
    state = seed * 7919;
    seen = 5381;
    w = made(seed);
    part = derwin(w, getmaxy(w), getmaxx(w), 0, 0);
    bottom = getmaxy(w) - 1;
    for (int left = CALLS; left > 0; left--) {
        int code = called(w, &bottom);
        see(code == OK ? 1 : 2);
        see((unsigned long)(getcury(w) * WIDEST + getcurx(w)));
        if (tells) printf(": %s at %d %d ", code == OK ? "OK" : "ERR", getcury(w), getcurx(w));
        see_cells(part);
        if (tells) putchar('\n');
    }
    delwin(part);
    if (w != stdscr) delwin(w);
    wsetscrreg(stdscr, 0, LINES - 1);
    scrollok(stdscr, FALSE);
    attrset(A_NORMAL);
    erase();
    printf("%u %lu\n", seed, seen);
}

int main(int count, char **words) {
    FILE *terminal = fopen("/dev/tty", "r+");
    SCREEN *screen = count > 2 && terminal ? newterm("screen", terminal, terminal) : NULL;
    if (!screen) return 2;
    tells = count > 3;
    for (unsigned seed = (unsigned)atol(words[1]); seed <= (unsigned)atol(words[2]); seed++) play(seed);
    endwin();
    delscreen(screen);
    return 0;
}
