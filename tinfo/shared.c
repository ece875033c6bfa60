/* A call that the library of <curses.h> has too. It is an object of its own in the archive, so that a program can link
 * both libraries: the first one on its line counts. */
#include "private.h"

#include <stdio.h>

int mvcur(int old_line, int old_column, int line, int column) {
    const char *cup = cur_term ? cur_term->strings[TINFO_AT_cursor_address] : NULL;
    (void)old_line;
    (void)old_column;
    if (!cup || putp(tiparm(cup, line, column)) != OK) return ERR;
    return fflush(stdout) == 0 ? OK : ERR;
}
