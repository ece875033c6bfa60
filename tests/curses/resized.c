/* resized [cut]: shows the screen's size and the number of KEY_RESIZE with a hidden cursor; q ends it. With `cut` a
 * refresh fails before, and the next one repairs the screen. */
#include <curses.h>
#include <fcntl.h>
#include <unistd.h>

static void draw(int count) {
    erase();
    mvprintw(2, 4, "<%d by %d, window %d by %d, %d>", LINES, COLS, getmaxy(stdscr), getmaxx(stdscr), count);
}

/* Draws while the terminal takes nothing. Returns whether the library says so and then repairs it. */
static bool is_cut_told(void) {
    int terminal = dup(STDOUT_FILENO), full = open("/dev/full", O_WRONLY);
    bool is_told;
    dup2(full, STDOUT_FILENO);
    mvaddstr(1, 1, "lost");
    is_told = refresh() == ERR;
    dup2(terminal, STDOUT_FILENO);
    return is_told && refresh() == OK;
}

int main(int count, char **words) {
    int key = 0, changes = 0;
    (void)words;
    initscr();
    noecho();
    keypad(stdscr, TRUE);
    curs_set(0);
    draw(0);
    refresh();
    if (count > 1 && !is_cut_told()) return 2;
    while (key != 'q') {
        key = getch();
        if (key != KEY_RESIZE) continue;
        draw(++changes);
        refresh();
    }
    return endwin() == OK ? 0 : 1;
}
