/* answers LOG: makes calls of curses, and writes the answer of each to a file, by which two libraries are compared. It
 * makes no call whose answer the standard leaves open. */
#include <curses.h>

#include <stdlib.h>
#include <string.h>

static FILE *told;

#define SAY(call) fprintf(told, "%d %s = %ld\n", __LINE__, #call, (long)(call))
/* writes whether a call answers ERR */
#define IS_DONE(call) fprintf(told, "%d %s %s\n", __LINE__, #call, (call) == ERR ? "refused" : "done")

static void place(const char *name, WINDOW *w) {
    int y, x, top, left, rows, cols, in_y, in_x;
    getyx(w, y, x);
    getbegyx(w, top, left);
    getmaxyx(w, rows, cols);
    getparyx(w, in_y, in_x);
    fprintf(told, "%s: cursor %d %d, at %d %d, size %d %d, in %d %d\n", name, y, x, top, left, rows, cols, in_y, in_x);
}

/* Writes the characters of a window, and which of its lines are touched. */
static void cells(const char *name, WINDOW *w) {
    char text[200];
    int y, x;
    getyx(w, y, x);
    for (int line = 0; line < getmaxy(w); line++) {
        wmove(w, line, 0);
        winnstr(w, text, 199);
        fprintf(told, "%s %d: [%s] %d\n", name, line, text, is_linetouched(w, line));
    }
    wmove(w, y, x);
}

/* Writes the attributes by name, since libraries differ in their bits. */
static void look(const char *name, chtype ch) {
    static const struct {
        chtype bit;
        char letter;
    } marks[] = {{A_STANDOUT, 'S'}, {A_UNDERLINE, 'U'}, {A_REVERSE, 'R'}, {A_BLINK, 'K'},
                 {A_DIM, 'D'},      {A_BOLD, 'B'},      {A_INVIS, 'I'},   {A_ALTCHARSET, 'A'}};
    fprintf(told, "%s: %c/", name, (int)(ch & A_CHARTEXT));
    for (size_t at = 0; at < sizeof marks / sizeof *marks; at++)
        if (ch & marks[at].bit) fputc(marks[at].letter, told);
    fprintf(told, ":%d\n", (int)PAIR_NUMBER(ch));
}

static void windows(void) {
    WINDOW *w, *part, *deep, *copy;
    w = newwin(6, 20, 2, 3);
    place("newwin", w);
    place("to the edge", part = newwin(0, 0, 20, 70));
    SAY(delwin(part));
    SAY(newwin(-1, 2, 0, 0) == NULL);
    part = derwin(w, 3, 10, 1, 2);
    place("derwin", part);
    deep = subwin(w, 2, 4, 3, 6);
    place("subwin", deep);
    SAY(derwin(w, 3, 10, 4, 2) == NULL);
    SAY(delwin(w));
    SAY(mvwin(w, 10, 40));
    place("moved", w);
    SAY(mvwin(w, 20, 40));
    SAY(mvwin(w, -1, 0));
    SAY(mvderwin(part, 2, 3));
    place("moved part", part);
    SAY(mvderwin(part, 4, 3));
    SAY(mvderwin(w, 0, 0));
    SAY(waddstr(w, "abc\ndef"));
    copy = dupwin(w);
    cells("copy", copy);
    SAY(delwin(deep));
    SAY(delwin(part));
    SAY(delwin(w));
    SAY(delwin(copy));
    SAY(delwin(NULL));
}

static void writing(void) {
    WINDOW *w = newwin(4, 10, 0, 0);
    SAY(waddstr(w, "0123456789ab"));
    place("wrapped", w);
    SAY(wmove(w, 4, 0));
    SAY(wmove(w, 0, 10));
    SAY(wmove(w, -1, 0));
    SAY(mvwaddstr(w, 3, 5, "12345"));
    place("last cell", w);
    SAY(mvwaddstr(w, 3, 5, "123456"));
    place("past it", w);
    SAY(scrollok(w, TRUE));
    SAY(mvwaddstr(w, 3, 5, "123456"));
    place("scrolled", w);
    cells("scrolled", w);
    SAY(mvwaddstr(w, 1, 2, "a\tb\033\r^"));
    SAY(mvwaddch(w, 0, 0, 'x'));
    SAY(mvwaddnstr(w, 2, 0, "only", 2));
    SAY(wprintw(w, "%d-%s", 42, "z"));
    SAY(waddch(w, '\b'));
    place("back", w);
    cells("written", w);
    SAY(untouchwin(w));
    SAY(is_wintouched(w));
    SAY(mvwinsch(w, 0, 0, 'I'));
    SAY(mvwinsstr(w, 1, 1, "two"));
    SAY(mvwdelch(w, 2, 0));
    place("inserted", w);
    cells("inserted", w);
    SAY(wmove(w, 1, 0));
    SAY(winsertln(w));
    SAY(winsdelln(w, -2));
    cells("lines", w);
    SAY(wsetscrreg(w, 1, 2));
    SAY(wsetscrreg(w, 2, 1));
    SAY(wscrl(w, 1));
    SAY(wscrl(w, -1));
    cells("region", w);
    SAY(scrollok(w, FALSE));
    SAY(wscrl(w, 1));
    SAY(mvwhline(w, 3, 2, '-', 20));
    SAY(mvwvline(w, 0, 9, '|', 20));
    SAY(whline(w, '=', -3));
    cells("ruled", w);
    SAY(wborder(w, '1', '2', '3', '4', '5', '6', '7', '8'));
    cells("border", w);
    SAY(wmove(w, 1, 4));
    SAY(wclrtoeol(w));
    SAY(wclrtobot(w));
    cells("cleared", w);
    SAY(werase(w));
    place("erased", w);
    SAY(delwin(w));
}

static void looks(void) {
    WINDOW *w = newwin(3, 12, 0, 0);
    chtype row[20];
    attr_t attrs;
    short pair = -9, other = -9;
    SAY(has_colors());
    SAY(start_color());
    SAY(init_pair(1, COLOR_RED, COLOR_BLUE));
    SAY(init_pair(0, COLOR_RED, COLOR_BLUE));
    SAY(init_pair(2, 8, COLOR_BLUE));
    SAY(init_pair(3, -1, COLOR_BLUE));
    SAY(use_default_colors());
    SAY(init_pair(3, -1, COLOR_BLUE));
    SAY(init_pair(4, COLOR_GREEN, -1));
    SAY(mvwaddch(w, 2, 0, 'd' | COLOR_PAIR(3)));
    SAY(waddch(w, 'e' | COLOR_PAIR(4)));
    SAY(pair_content(3, &pair, &other));
    SAY(pair);
    SAY(other);
    SAY(wmove(w, 0, 0));
    SAY(wattrset(w, A_BOLD | COLOR_PAIR(1)));
    SAY(waddch(w, 'a'));
    SAY(wattron(w, A_UNDERLINE));
    SAY(wattroff(w, A_BOLD));
    SAY(waddch(w, 'b' | A_REVERSE));
    SAY(wattr_get(w, &attrs, &pair, NULL));
    SAY(pair);
    SAY(wcolor_set(w, 0, NULL));
    SAY(waddch(w, 'c'));
    SAY(wstandend(w));
    SAY(wstandout(w));
    SAY(waddch(w, 'd'));
    SAY(wattr_set(w, A_DIM, 1, NULL));
    SAY(waddch(w, 'e'));
    for (int column = 0; column < 6; column++) look("written", mvwinch(w, 0, column));
    SAY(mvwchgat(w, 0, 1, 2, A_BLINK, 0, NULL));
    for (int column = 0; column < 6; column++) look("changed", mvwinch(w, 0, column));
    IS_DONE(mvwinchnstr(w, 0, 0, row, 3));
    look("read", row[1]);
    SAY(mvwaddchnstr(w, 2, 8, row, 3));
    place("copied", w);
    look("copied", mvwinch(w, 2, 8));
    wstandend(w);
    wbkgdset(w, ' ' | A_BOLD);
    SAY(mvwaddstr(w, 1, 0, "a b"));
    SAY(wclrtoeol(w));
    for (int column = 0; column < 5; column++) look("background", mvwinch(w, 1, column));
    SAY(wbkgd(w, ' ' | A_UNDERLINE));
    for (int column = 0; column < 5; column++) look("new background", mvwinch(w, 1, column));
    look("getbkgd", getbkgd(w));
    SAY(delwin(w));
}

/* A message loop: a scrolling region, and a status line of the full width below it. */
static void status_line(void) {
    int done = 0;
    scrollok(stdscr, TRUE);
    SAY(setscrreg(0, LINES - 2));
    for (int line = 0; line < 30; line++) {
        done += mvprintw(LINES - 2, 0, "message %d\n", line) == OK;
        done += mvprintw(LINES - 1, 0, "%-*s", COLS, "status line") == OK;
    }
    SAY(done);
    place("status line", stdscr);
    cells("status line", stdscr);
    SAY(setscrreg(0, LINES - 1));
    scrollok(stdscr, FALSE);
    erase();
}

/* Writes that leave a region or the window, and newlines that are inserted. */
static void edges(void) {
    WINDOW *w = newwin(6, 12, 2, 2);
    SAY(wsetscrreg(w, 0, 2));
    SAY(mvwaddstr(w, 2, 8, "abcdefgh"));
    place("past the region", w);
    SAY(mvwaddch(w, 2, 0, '\n'));
    place("a newline there", w);
    SAY(scrollok(w, TRUE));
    SAY(mvwaddstr(w, 5, 10, "xyzw"));
    place("past the window", w);
    SAY(mvwaddch(w, 5, 3, '\n'));
    place("a newline below the region", w);
    SAY(wsetscrreg(w, 3, 3));
    cells("edges", w);
    werase(w);
    SAY(mvwinsch(w, 0, 0, '\n'));
    place("newline inserted", w);
    SAY(mvwinsch(w, 5, 0, '\n'));
    SAY(mvwaddstr(w, 0, 0, "0123456"));
    SAY(mvwinsstr(w, 0, 2, "ab\ncd"));
    cells("newline in a text", w);
    SAY(waddch(NULL, 'x'));
    SAY(wrefresh(NULL));
    SAY(mvwaddnstr(w, 0, 0, "all of it", -5));
    SAY(delwin(w));
}

/* A pair that few terminals have: everything is drawn. */
static void high_pairs(void) {
    WINDOW *w = newwin(4, 10, 0, 0);
    SAY(waddch(w, 'y' | COLOR_PAIR(70)));
    SAY(box(w, ACS_VLINE | COLOR_PAIR(70), ACS_HLINE | COLOR_PAIR(70)));
    SAY(wattrset(w, A_BOLD | COLOR_PAIR(70)));
    SAY((getattrs(w) & A_BOLD) != 0);
    SAY(mvwaddstr(w, 1, 1, "drawn"));
    cells("high pairs", w);
    SAY(init_pair(70, COLOR_RED, -1));
    SAY(init_pair(66, COLOR_RED, -1));
    SAY(mvwaddch(w, 2, 2, 'c' | COLOR_PAIR(66)));
    look("pair 66", mvwinch(w, 2, 2));
    SAY(wbkgd(w, '.' | COLOR_PAIR(70)));
    SAY(getbkgd(w) & A_CHARTEXT);
    SAY(delwin(w));
}

static void copying(void) {
    WINDOW *one = newwin(4, 10, 1, 1), *other = newwin(4, 10, 3, 4);
    mvwaddstr(one, 2, 3, "ab cdef");
    mvwaddstr(other, 0, 0, "0123456789");
    SAY(overlay(one, other));
    cells("overlaid", other);
    SAY(overwrite(one, other));
    cells("overwritten", other);
    SAY(copywin(one, other, 2, 3, 3, 0, 3, 4, FALSE));
    SAY(copywin(one, other, 2, 3, 3, 0, 3, 10, FALSE));
    SAY(copywin(one, other, 2, 3, 3, 0, 2, 4, FALSE));
    cells("copied", other);
    delwin(one);
    delwin(other);
}

static void touching(void) {
    WINDOW *w = newwin(4, 10, 0, 0), *part = derwin(w, 2, 5, 1, 2);
    SAY(is_wintouched(w));
    SAY(untouchwin(w));
    SAY(untouchwin(part));
    SAY(waddch(part, 'x'));
    SAY(is_linetouched(w, 1));
    wsyncup(part);
    SAY(is_linetouched(w, 1));
    SAY(is_linetouched(w, 2));
    SAY(touchline(w, 2, 2));
    SAY(is_linetouched(part, 1));
    wsyncdown(part);
    SAY(is_linetouched(part, 1));
    SAY(wtouchln(w, 0, 2, 1));
    SAY(wtouchln(w, 9, 2, 1));
    SAY(wrefresh(part));
    SAY(is_wintouched(part));
    SAY(wmove(part, 1, 1));
    wcursyncup(part);
    place("synced", w);
    SAY(syncok(part, TRUE));
    SAY(untouchwin(w));
    SAY(waddch(part, 'y'));
    SAY(is_linetouched(w, 2));
    delwin(part);
    delwin(w);
}

static void pads(void) {
    WINDOW *pad = newpad(30, 100), *part;
    place("pad", pad);
    for (int line = 0; line < 30; line++) mvwprintw(pad, line, line, "line %d of the pad", line);
    part = subpad(pad, 3, 10, 5, 5);
    place("subpad", part);
    SAY(wrefresh(pad));
    SAY(wnoutrefresh(pad));
    SAY(mvwin(pad, 0, 0));
    SAY(prefresh(pad, 3, 3, 5, 30, 15, 60));
    SAY(prefresh(pad, -3, 3, 5, 30, 15, 90));
    SAY(prefresh(pad, 3, 3, 15, 30, 5, 60));
    SAY(prefresh(pad, 25, 3, 17, 30, 23, 60));
    SAY(waddstr(part, "part"));
    SAY(prefresh(part, 0, 0, 20, 0, 22, 9));
    SAY(wrefresh(stdscr));
    delwin(part);
    delwin(pad);
}

static void next_cursor(const char *when) {
    int y, x;
    getsyx(y, x);
    fprintf(told, "%s the cursor is to be at %d %d\n", when, y, x);
}

/* The cursor that the next doupdate shows. */
static void screen_cursor(void) {
    WINDOW *window = newwin(4, 10, 3, 5);
    wmove(window, 1, 2);
    wnoutrefresh(window);
    next_cursor("after a copy");
    setsyx(7, 9);
    next_cursor("moved");
    doupdate();
    next_cursor("after an update");
    leaveok(window, TRUE);
    wnoutrefresh(window);
    next_cursor("after a copy that leaves it");
    setsyx(2, 3);
    next_cursor("moved again");
    setsyx(-1, -1);
    next_cursor("left");
    leaveok(window, FALSE);
    wnoutrefresh(window);
    next_cursor("after another copy");
    delwin(window);
}

static void bound(int key, int count) {
    char *text = keybound(key, count);
    for (const char *at = text; at && *at; at++) fprintf(told, "%02x", (unsigned)(unsigned char)*at);
    fprintf(told, " %s\n", text ? "is bound" : "none");
    free(text);
}

/* strings of keys, one of which no entry has */
static void call_bindings(void) {
    SAY(key_defined("no key"));
    SAY(define_key("\033[77;9x", 600));
    SAY(key_defined("\033[77;9x"));
    SAY(key_defined("\033[77"));
    SAY(key_defined("\033[77;9xy"));
    SAY(define_key("a key", 600));
    bound(600, 0);
    bound(600, 1);
    bound(600, 2);
    SAY(define_key("a key", 601));
    SAY(key_defined("a key"));
    SAY(define_key("a k", 602));
    SAY(define_key("a key and more", 602));
    SAY(keyok(601, FALSE));
    SAY(keyok(601, FALSE));
    SAY(key_defined("a key"));
    bound(601, 0);
    SAY(keyok(601, TRUE));
    SAY(keyok(601, TRUE));
    SAY(define_key(NULL, 600));
    SAY(has_key(600));
    SAY(define_key("a key", 0));
    SAY(key_defined("a key"));
    SAY(keyok(602, TRUE));
    nofilter();
}

static void options(void) {
    SAY(cbreak());
    SAY(noecho());
    SAY(keypad(stdscr, TRUE));
    SAY(is_keypad(stdscr));
    SAY(leaveok(stdscr, TRUE));
    SAY(leaveok(stdscr, FALSE));
    SAY(idlok(stdscr, TRUE));
    SAY(clearok(stdscr, TRUE));
    SAY(clearok(stdscr, FALSE));
    SAY(halfdelay(0));
    SAY(curs_set(0));
    SAY(curs_set(1));
    SAY(curs_set(3));
    SAY(isendwin());
    SAY(has_key(KEY_LEFT));
    call_bindings();
    fprintf(told, "%s %s %s %s %s\n", keyname(KEY_LEFT), keyname(KEY_F(3)), keyname(1), keyname('a'),
            keyname(KEY_RESIZE));
    fprintf(told, "%s %s %s %s\n", unctrl(1), unctrl('a'), unctrl(127), unctrl(27));
    fprintf(told, "%s\n", termname());
    SAY(LINES);
    SAY(COLS);
}

/* Typed input, by the keys that the test sends. */
static void keys(void) {
    char text[40];
    int number, other;
    mvaddstr(0, 0, "a letter, an arrow, a function key, a line, two numbers");
    SAY(getch());
    SAY(getch() == KEY_LEFT);
    SAY(getch() == KEY_F(5));
    SAY(ungetch('u'));
    SAY(getch());
    timeout(50);
    SAY(getch());
    timeout(-1);
    echo();
    move(5, 5);
    SAY(getnstr(text, 10));
    fprintf(told, "[%s]\n", text);
    place("after the line", stdscr);
    move(8, 5);
    SAY(scanw("%d %d", &number, &other));
    SAY(number);
    SAY(other);
    noecho();
    attron(A_BOLD);
    mvprintw(10, 10, "%d and %d", number, other);
    attroff(A_BOLD);
    box(stdscr, 0, 0);
    mvhline(12, 3, 0, 20);
    mvaddch(13, 3, ACS_DIAMOND);
    attron(COLOR_PAIR(1));
    mvaddstr(14, 3, "in color");
    attroff(COLOR_PAIR(1));
    refresh();
    SAY(getch());
}

/* The terminal becomes smaller. */
static void resizing(void) {
    WINDOW *tall = newwin(LINES, 10, 0, 60), *small = newwin(3, 10, 2, 2), *part = derwin(small, 1, 8, 1, 1);
    mvwaddstr(tall, 3, 1, "tall");
    box(small, 0, 0);
    waddstr(part, "small");
    wnoutrefresh(tall);
    wnoutrefresh(small);
    doupdate();
    SAY(wgetch(small) == KEY_RESIZE);
    SAY(LINES);
    SAY(COLS);
    place("stdscr", stdscr);
    place("tall", tall);
    place("small", small);
    place("part", part);
    touchwin(tall);
    touchwin(small);
    cells("small", small);
    wnoutrefresh(stdscr);
    wnoutrefresh(tall);
    wnoutrefresh(small);
    SAY(doupdate());
    SAY(wgetch(small));
}

int main(int count, char **words) {
    told = count > 1 ? fopen(words[1], "w") : NULL;
    if (!told) return 1;
    initscr();
    options();
    windows();
    writing();
    looks();
    status_line();
    edges();
    high_pairs();
    copying();
    touching();
    pads();
    screen_cursor();
    keys();
    resizing();
    SAY(endwin());
    SAY(isendwin());
    fclose(told);
    return 0;
}
