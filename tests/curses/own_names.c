/* own_names: has functions of its own by names of curses', which the shared library must never call. It prints the name of
 * one that was called. The terminal doesn't exist. */
#include <curses.h>

static const char *called;

static int own(const char *name) {
    called = name;
    return ERR;
}

int move(int y, int x) {
    return own(y < x ? "move" : "move, backwards");
}

int wmove(WINDOW *window, int y, int x) {
    return own(window && y < x ? "wmove" : "wmove, of no window");
}

int waddch(WINDOW *window, chtype ch) {
    return own(window && ch ? "waddch" : "waddch, of nothing");
}

int waddnstr(WINDOW *window, const char *text, int count) {
    return own(window && text && count ? "waddnstr" : "waddnstr, of nothing");
}

int wnoutrefresh(WINDOW *window) {
    return own(window ? "wnoutrefresh" : "wnoutrefresh, of no window");
}

int doupdate(void) {
    return own("doupdate");
}

int untouchwin(WINDOW *window) {
    return own(window ? "untouchwin" : "untouchwin, of no window");
}

/* Makes calls of the library that need those above. Returns how many are refused. */
static int call_others(void) {
    FILE *nowhere = fopen("/dev/null", "r+");
    SCREEN *screen = nowhere ? newterm("screen", nowhere, nowhere) : NULL;
    WINDOW *window = screen ? newwin(3, 20, 1, 1) : NULL;
    int refused = 0;
    if (!window) return 1;
    refused += mvwaddstr(window, 1, 1, "text") != OK;
    refused += mvwprintw(window, 2, 1, "%d", 5) != OK;
    refused += mvwaddch(window, 0, 0, 'x') != OK;
    refused += wrefresh(window) != OK;
    refused += wechochar(window, 'x') != OK;
    refused += endwin() != OK;
    delscreen(screen);
    fclose(nowhere);
    return refused;
}

int main(void) {
    int refused = call_others();
    if (called) puts(called);
    else if (refused) printf("what refuses %d calls\n", refused);
    return called || refused;
}
