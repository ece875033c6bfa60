/* left_out: what a session can do on an entry some of whose strings are wrong, anew after each change of size; q ends it.
 * tigetstr reads the whole entry. */
#include <curses.h>
#include <term.h>

int main(void) {
    int key = KEY_RESIZE;
    initscr();
    while (key != 'q') {
        attron(A_REVERSE);
        mvprintw(0, 0, "<%d by %d: colors %d, reverse %d, lines %d, setaf %d>", LINES, COLS, has_colors(),
                 (termattrs() & A_REVERSE) != 0, has_il(), tigetstr("setaf") != NULL);
        refresh();
        do {
            key = getch();
        } while (key != 'q' && key != KEY_RESIZE);
    }
    return endwin() == OK ? 0 : 1;
}
