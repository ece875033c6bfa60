/* random_calls SOURCE SEED COUNT: random calls on three sessions, of which some are right and some are altered. Pieces
 * that are passed have exactly their length, so that the address sanitizer and valgrind see any other byte that is read
 * or written. The status is 0 if each answer is a code. */
#include <ticurses.h>

#include <string.h>

static const char *const words[] = {
    "newwin", "newpad", "derwin", "subpad", "dupwin", "delwin", "mvwin", "move", "addch", "addstr", "insch",
    "delch", "insertln", "deleteln", "insdelln", "erase", "clear", "clrtobot", "clrtoeol", "box", "border",
    "hline", "vline", "attron", "attroff", "attrset", "color_set", "bkgd", "bkgdset", "scroll", "scrollok",
    "setscrreg", "leaveok", "clearok", "touchwin", "touchline", "overlay", "overwrite", "copywin",
    "noutrefresh", "pnoutrefresh", "prefresh", "refresh", "doupdate", "init_pair", "curs_set", "beep", "endwin",
    "idlok", "pechochar", "nothing", "",
};
static const char *const names[] = {"mini", "vt", "xt", "xc", "none"};
static char source[1 << 16];
static size_t source_len;
static unsigned long state;

static unsigned any(unsigned below) {
    state = state * 6364136223846793005ul + 1442695040888963407ul;
    return (unsigned)(state >> 33) % below;
}

/* A word of a line: a number, mostly a small one, a cell, letters, or a dash. */
static int add_word(char *at, size_t room) {
    switch (any(8)) {
        case 0: return snprintf(at, room, " %d", (int)(state >> 20));
        case 1: return snprintf(at, room, " %02x/%c", any(256), "SURKDBIAX"[any(9)]);
        case 2: return snprintf(at, room, " %02x:%d", any(128), any(70));
        case 3: return snprintf(at, room, " -");
        case 4: return snprintf(at, room, " -%d", any(30));
        default: return snprintf(at, room, " %d", any(26));
    }
}

static size_t make_line(char *at, size_t room) {
    size_t len = (size_t)snprintf(at, room, "%s", words[any(sizeof words / sizeof *words)]);
    for (unsigned count = any(9); count > 0; count--) len += (size_t)add_word(at + len, room - len);
    if (any(20) == 0) at[any((unsigned)len + 1)] = (char)any(256);
    return len;
}

static int call(ticurses *session) {
    char text[1024];
    size_t len = make_line(text, 256);
    while (any(3) == 0 && len < 700) {
        text[len++] = '\n';
        len += make_line(text + len, 256);
    }
    char *exact = malloc(len ? len : 1);
    memcpy(exact, text, len);
    int code = ticurses_call(session, exact, len);
    free(exact);
    return code;
}

static int write_text(ticurses *session) {
    size_t len = any(300);
    char *exact = malloc(len ? len : 1);
    for (size_t at = 0; at < len; at++) exact[at] = (char)(any(3) ? 32 + any(95) : any(256));
    int code = ticurses_addstr(session, any(12), exact, len);
    free(exact);
    return code;
}

static int take(ticurses *session) {
    size_t len = any(3) ? any(5000) : any(8), waits = ticurses_waiting(session);
    char *exact = malloc(len ? len : 1);
    size_t taken = ticurses_output(session, exact, len), all = waits < len ? waits : len;
    free(exact);
    return taken == all && ticurses_waiting(session) == waits - taken ? TICURSES_OK : -1;
}

static int ask(ticurses *session) {
    uint16_t one, other;
    ticurses_cell cell;
    switch (any(3)) {
        case 0: return ticurses_cursor(session, any(12), &one, &other);
        case 1: return ticurses_window_size(session, any(12), &one, &other);
        default: return ticurses_cell_at(session, any(12), (uint16_t)any(30), (uint16_t)any(90), &cell);
    }
}

/* A refresh adds at most what the session says before it. */
static int update(ticurses *session) {
    size_t most = ticurses_most(session), waits = ticurses_waiting(session);
    int code = ticurses_call(session, "doupdate", 8);
    return ticurses_waiting(session) - waits <= most ? code : -1;
}

static int reopen(ticurses *session) {
    const char *name = names[any(5)];
    size_t waits = ticurses_waiting(session);
    uint16_t rows = (uint16_t)(any(10) ? 2 + any(24) : any(300)), cols = (uint16_t)(any(10) ? 2 + any(80) : any(600));
    int code = ticurses_open(session, source, source_len, name, strlen(name), rows, cols, NULL, 0);
    /* where nothing is opened, what was open stays */
    return code != TICURSES_OK && ticurses_waiting(session) != waits ? -1 : code;
}

static int step(ticurses *session) {
    switch (any(60)) {
        case 0: return reopen(session);
        case 1: ticurses_close(session); return TICURSES_OK;
        case 2: case 3: return ticurses_lost(session);
        case 4: case 5: case 6: case 7: case 8: case 9: return take(session);
        case 10: case 11: case 12: return ask(session);
        case 13: case 14: case 15: case 16: return write_text(session);
        case 17: case 18: return update(session);
        default: return call(session);
    }
}

int main(int argc, char **argv) {
    ticurses sessions[3] = {{0, 0}, {0, 0}, {0, 0}};
    FILE *file = argc == 4 ? fopen(argv[1], "rb") : NULL;
    if (!file) return 2;
    source_len = fread(source, 1, sizeof source, file);
    fclose(file);
    state = strtoul(argv[2], NULL, 10);
    for (unsigned long left = strtoul(argv[3], NULL, 10); left > 0; left--) {
        ticurses *session = &sessions[any(3)];
        int code = session->at ? step(session) : reopen(session);
        if (code < 0 || code >= TICURSES_NULL) {
            printf("seed %s: %lu calls before the last, a call answers %d\n", argv[2], left, code);
            return 1;
        }
    }
    for (int at = 0; at < 3; at++) ticurses_close(&sessions[at]);
    return 0;
}
