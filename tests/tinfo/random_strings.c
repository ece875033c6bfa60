/* Random strings through the calls that take strings: tparm, tiparm_s, tgoto, tputs, tgetstr. The script runs it with
 * the sanitizers.
 *
 *     random_strings COUNT */
#include <term.h>

#include <stdio.h>
#include <stdlib.h>
#include <string.h>

static unsigned long long state = 93;

static unsigned next(unsigned below) {
    state = state * 6364136223846793005ull + 1442695040888963407ull;
    return (unsigned)(state >> 33) % below;
}

static const char *const codes[] = {
    "%p1", "%p2", "%p9", "%d",  "%s",  "%c",   "%l", "%i", "%%", "%?", "%t", "%e", "%;", "%+", "%-", "%*", "%/", "%m",
    "%A",  "%O",  "%!",  "%~",  "%&",  "%|",   "%^", "%=", "%<", "%>", "%Pa", "%gz", "%PA", "%gA", "%{12}", "%{99999999999}",
    /* whole ones, so that many strings have no fault */
    "%p1%d", "%p2%02d", "%p3%{5}%+%d", "%?%p1%t1%e2%;", "%p1%Pa%ga%d", "%p4%PB%gB%d", "%i%p1%d;%p2%d", "%p1%:-5d", "text",
    "%p5%{8}%<%t3%;", "\033[%p1%dm", "%p1%p2%=%d", "%p3%!%d", "$<5>", "$<2*/>",
    "%'x'", "%'%'", "%02d", "%:-5d", "%.3s", "%#x", "%", "%p", "%'", "%{", "$<", "5>", "x", "\033[", "\200", "%999d", "%5.9d"};

/* Writes a random string of at most `room_len` bytes with a zero byte. */
static void make(char *room, size_t room_len) {
    size_t len = 0, count = next(7);
    for (size_t at = 0; at < count; at++) {
        const char *code = codes[next(sizeof codes / sizeof *codes)];
        if (len + strlen(code) + 2 > room_len) break;
        memcpy(room + len, code, strlen(code));
        len += strlen(code);
        if (next(9) == 0) room[len++] = (char)(1 + next(255));
    }
    room[len] = 0;
}

static unsigned long long sent;

static int count_byte(int byte) {
    sent += byte != 0;
    return byte;
}

static size_t expanded, refused;

/* Takes note of an expansion, all of whose bytes are read. */
static void note(const char *bytes) {
    if (bytes) sent += strlen(bytes), expanded++;
    else refused++;
}

int main(int count, char **words) {
    long tries = count > 1 ? atol(words[1]) : 1000;
    int status;
    if (setupterm("xterm", 1, &status) != 0) return 2;
    for (long at = 0; at < tries; at++) {
        char *string = malloc(160), text[8] = "text";
        long p = (long)next(300) - 20, q = (long)next(4000000000u);
        make(string, 160);
        note(tparm(string, p, q, p, q, p, q, p, q, p));
        note(tiparm(string, (int)p, 2, 3, 4, 5, 6, 7, 8, 9));
        note(tiparm_s(9, 3, string, text, text, 1, 2, 3, 4, 5, 6, 7));
        note(tgoto(string, (int)p, 5));
        /* what the last one has written */
        note(tparm(tgoto("%p1%d %%p1%%d", (int)p, 5), p));
        note(tiparm_s(1, 1, "%p1%s", tgoto("%p1%d", 1, (int)p)));
        tputs(string, 1, count_byte);
        tigetstr(string);
        tigetflag(string);
        tgetstr(string, NULL);
        tgetnum(string);
        free(string);
    }
    del_curterm(cur_term);
    note(tparm("%p1%d", 5L));
    printf("%ld random strings: %zu expansions, %zu faults", tries, expanded, refused);
    return sent == 0 || expanded == 0 || refused == 0;
}
