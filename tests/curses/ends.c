/* ends LOG [fork]: draws and ends without endwin; with `fork` a child ends so, and then the program once a key comes.
 * Before, it writes the answer to formats with large widths. */
#include <curses.h>

#include <stdlib.h>
#include <sys/wait.h>
#include <time.h>
#include <unistd.h>

static int answers(FILE *told) {
    clock_t begun = clock();
    fprintf(told, "%d", mvprintw(0, 0, "%*d", 500000000, 5));
    fprintf(told, " %d", mvprintw(0, 0, "%500000000d", 5));
    fprintf(told, " %d", mvprintw(0, 0, "%.500000000f", 0.5));
    fprintf(told, " %d", mvprintw(0, 0, "%-*d|%.*s|", 12, 5, 2, "abc"));
    return (int)((clock() - begun) / CLOCKS_PER_SEC);
}

int main(int count, char **words) {
    FILE *told = count > 1 ? fopen(words[1], "w") : NULL;
    initscr();
    noecho();
    if (told) fprintf(told, " %d seconds\n", answers(told)), fclose(told);
    mvaddstr(1, 0, "drawn");
    refresh();
    if (count > 2) {
        if (fork() == 0) exit(0);
        wait(NULL);
        mvaddstr(1, 0, "the child has ended");
        refresh();
    }
    getch();
    return 0;
}
