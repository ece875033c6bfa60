/* Expands a string by tparm of ncurses as often as parm_main.txt: parm_peer COUNT STRING PARAM.. */
#include <curses.h>
#include <stdio.h>
#include <stdlib.h>
#include <string.h>
#include <term.h>

int main(int argc, char **argv) {
    if (argc < 3) {
        return 2;
    }
    int error;
    setupterm("xterm-256color", 1, &error);
    long p[9] = {0};
    for (int i = 3; i < argc && i < 12; i++) {
        p[i - 3] = atol(argv[i]);
    }
    unsigned long long total = 0;
    for (long n = atol(argv[1]); n > 0; n--) {
        const char *sent = tparm(argv[2], p[0], p[1], p[2], p[3], p[4], p[5], p[6], p[7], p[8]);
        total += sent == NULL ? 0 : strlen(sent);
    }
    printf("%llu\n", total);
    return 0;
}
