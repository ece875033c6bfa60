/* Calls of <term.h> many times, for bench/tinfo.sh, which compiles it for ncurses and for ticurses-tinfo:
 * `PROGRAM COUNT WHAT`, where WHAT is cup, sgr, setaf, setup (setupterm and del_curterm) or none. Prints the number of
 * bytes of all expansions. */
#include <term.h>

#include <stdio.h>
#include <stdlib.h>
#include <string.h>

/* The bytes of one expansion; the parameters change, as they do in programs. */
static const char *expanded(const char *what, long at) {
    if (strcmp(what, "cup") == 0) return tparm(cursor_address, at % 24, at % 80);
    if (strcmp(what, "setaf") == 0) return tparm(set_a_foreground, at % 8);
    return tparm(set_attributes, at & 1, at & 2, at & 4, 0L, 0L, at & 32, 0L, 0L, at & 256);
}

int main(int count, char **words) {
    long times = count > 2 ? atol(words[1]) : 0;
    unsigned long total = 0;
    int status;
    if (count < 3 || setupterm("xterm-256color", 1, &status) != 0) return 2;
    for (long at = 0; at < times && strcmp(words[2], "none") != 0; at++) {
        if (strcmp(words[2], "setup") == 0) {
            del_curterm(cur_term);
            if (setupterm("xterm-256color", 1, &status) != 0) return 2;
        } else {
            total += strlen(expanded(words[2], at));
        }
    }
    printf("%lu\n", total);
    return 0;
}
