/* A program with a screen of <curses.h>, which asks the calls of <term.h> about its terminal before it has the screen,
 * meanwhile and afterwards. It writes the answers to a file.
 *
 *     with_curses FILE */
#include <curses.h>
#include <term.h>

#include <string.h>

static FILE *told;

/* Tells a string by the codes of its bytes. */
static void tell(const char *what, const char *text) {
    fprintf(told, "%s:", what);
    if (text == (char *)-1) fprintf(told, " not a string");
    else if (!text) fprintf(told, " none");
    else
        for (; *text; text++) fprintf(told, " %02x", (unsigned)(unsigned char)*text);
    fprintf(told, "\n");
}

static void tell_all(const char *when) {
    fprintf(told, "%s: %s\n", when, cur_term ? "a terminal is current" : "no terminal is current");
    tell("termname", termname());
    tell("cup", tigetstr("cup"));
    tell("is1", tigetstr("is1"));
    tell("am", tigetstr("am"));
    if (!cur_term) return;
    tell("longname", longname());
    tell("cup 3 4", tparm(cursor_address, 3L, 4L));
    tell("sgr", tiparm(set_attributes, 0, 1, 0, 0, 0, 1, 0, 0, 0));
    fprintf(told, "colors %d, lines %d %d, columns %d %d, am %d\n", tigetnum("colors"), tigetnum("lines"), lines,
            tigetnum("cols"), columns, tigetflag("am"));
}

int main(int count, char **words) {
    TERMINAL *first;
    SCREEN *screen;
    int status;
    told = count > 1 ? fopen(words[1], "w") : NULL;
    if (!told || setupterm("vt100", 1, &status) != OK) return 2;
    first = cur_term;
    tell_all("before");
    fprintf(told, "no screen: %d, %d\n", newterm("no-such-entry", stdout, stdin) == NULL, cur_term == first);
    screen = newterm(NULL, stdout, stdin);
    if (!screen) return 3;
    fprintf(told, "another is current: %d\n", cur_term != first);
    tell_all("with a screen");
    fprintf(told, "LINES %d, COLS %d\n", LINES, COLS);
    addstr("text");
    refresh();
    fprintf(told, "putp: %d\n", putp(tparm(cursor_address, 10L, 0L)));
    endwin();
    tell_all("after endwin");
    delscreen(screen);
    tell_all("after delscreen");
    set_curterm(first);
    tell_all("before once more");
    return fclose(told) != 0;
}
