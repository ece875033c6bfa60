/* Expands a string by unibi_run of unibilium as often as parm_main.txt: unibilium_peer COUNT STRING PARAM.. */
#include <stdio.h>
#include <stdlib.h>
#include <unibilium.h>

int main(int argc, char **argv) {
    char sent[8192];
    unsigned long long total = 0;

    if (argc < 3) return 2;
    for (long n = atol(argv[1]); n > 0; n--) {
        unibi_var_t params[9];

        for (int at = 0; at < 9; at++) params[at] = unibi_var_from_num(at + 3 < argc ? atoi(argv[at + 3]) : 0);
        total += unibi_run(argv[2], params, sent, sizeof sent);
    }
    printf("%llu\n", total);
    return 0;
}
