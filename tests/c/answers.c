/* answers SOURCE [SCALE]: what the calls answer, with the entries of examples/terminals.ti as the source: every
 * code, what is changed and what isn't, null pointers, short buffers, sessions that aren't open, many
 * sessions, many calls, and requests for memory that fail. It is linked with --wrap for malloc, realloc
 * and free, so that blocks are counted. Each fault is a line; the status is 0 if there is none. */
#define _GNU_SOURCE
#include <ticurses.h>

#include <limits.h>
#include <malloc.h>
#include <string.h>

#define IS(wanted, seen) is(__LINE__, #seen, (long)(wanted), (long)(seen))
#define OPEN(session, name, rows, cols) \
    ticurses_open(session, source, source_len, name, strlen(name), rows, cols, NULL, 0)
#define CALL(session, text) ticurses_call(session, text, strlen(text))

static char source[1 << 16], certificate[1 << 20], room[1 << 20];
static size_t source_len, certificate_len;
/* rev underlines, and rmcup writes a letter; bold is right */
static const char some[] =
    "w|w,\n\tclear=\\E[H\\E[2J, cup=\\E[%i%p1%d;%p2%dH, sgr0=\\E[m, bold=\\E[1m, rev=\\E[4m,\n"
    "\tsmcup=\\E[?1049h, rmcup=x,\n";
static int faults;
/* how much of the long parts is left out */
static long scale = 1;

/* -- memory -- */

static long blocks, bytes, allowed = -1;

void *__real_malloc(size_t size);
void *__real_realloc(void *at, size_t size);
void __real_free(void *at);

/* Whether a request is granted: all are, or as many as are allowed. */
static int is_granted(void) {
    return allowed < 0 || allowed-- > 0 || (allowed = 0);
}

void *__wrap_malloc(size_t size) {
    void *at = is_granted() ? __real_malloc(size) : NULL;
    if (at) blocks++, bytes += (long)malloc_usable_size(at);
    return at;
}

void *__wrap_realloc(void *at, size_t size) {
    if (!is_granted()) return NULL;
    if (at) blocks--, bytes -= (long)malloc_usable_size(at);
    void *now = __real_realloc(at, size);
    if (now) blocks++, bytes += (long)malloc_usable_size(now);
    return now;
}

void __wrap_free(void *at) {
    if (at) blocks--, bytes -= (long)malloc_usable_size(at);
    __real_free(at);
}

/* -- */

static void is(int line, const char *what, long wanted, long seen) {
    if (wanted == seen) return;
    printf("answers.c:%d: %s is %ld, and %ld was wanted\n", line, what, seen, wanted);
    faults++;
}

static size_t drain(ticurses *session, char *to) {
    size_t count, all = 0;
    while ((count = ticurses_output(session, to + all, 4096)) > 0) all += count;
    return all;
}

/* The cell in a place, as 65536 times the pair and 256 times the attributes and the byte; -1 if there is nothing. */
static long cell(ticurses *session, size_t window, int row, int col) {
    ticurses_cell found = {0, 0, 0};
    if (ticurses_cell_at(session, window, (uint16_t)row, (uint16_t)col, &found)) return -1;
    return found.pair * 65536L + found.attrs * 256L + found.byte;
}

/* The cursor of a window, as 1000 times the row and the column; -1 if there is none. */
static long cursor(ticurses *session, size_t window) {
    uint16_t row, col;
    return ticurses_cursor(session, window, &row, &col) ? -1 : row * 1000L + col;
}

/* The line that wasn't done; -1 if the session says nothing of it. */
static long failed(ticurses *session) {
    size_t line;
    return ticurses_failed(session, &line) ? -1 : (long)line;
}

static void nulls(void) {
    ticurses session = {0, 0};
    uint32_t number;
    uint16_t one = 7, other = 8;
    ticurses_cell found = {9, 9, 9};
    size_t needed = 5;
    IS(TICURSES_NULL, ticurses_open(NULL, source, source_len, NULL, 0, 24, 80, NULL, 0));
    IS(TICURSES_NULL, ticurses_open(&session, NULL, 5, NULL, 0, 24, 80, NULL, 0));
    IS(TICURSES_NULL, ticurses_open(&session, source, source_len, NULL, 2, 24, 80, NULL, 0));
    IS(TICURSES_NULL, ticurses_open(&session, source, source_len, NULL, 0, 24, 80, NULL, 1));
    IS(TICURSES_NULL, ticurses_open(&session, source, (size_t)PTRDIFF_MAX + 1, NULL, 0, 24, 80, NULL, 0));
    IS(TICURSES_NULL, ticurses_open_without(NULL, source, source_len, NULL, 0, 24, 80));
    IS(TICURSES_NULL, ticurses_open_without(&session, NULL, 5, NULL, 0, 24, 80));
    IS(TICURSES_NULL, ticurses_left_out(NULL, room, 9, &needed));
    IS(TICURSES_NULL, ticurses_left_out(&session, NULL, 9, &needed));
    IS(TICURSES_NULL, ticurses_left_out(&session, room, 9, NULL));
    IS(TICURSES_NULL, ticurses_call(NULL, "doupdate", 8));
    IS(TICURSES_NULL, ticurses_call(&session, NULL, 8));
    IS(TICURSES_NULL, ticurses_call(&session, "doupdate", SIZE_MAX));
    IS(TICURSES_NULL, ticurses_callf(NULL, "doupdate"));
    IS(TICURSES_NULL, ticurses_failed(NULL, &needed));
    IS(TICURSES_NULL, ticurses_failed(&session, NULL));
    IS(TICURSES_NULL, ticurses_addstr(NULL, 0, "a", 1));
    IS(TICURSES_NULL, ticurses_addstr(&session, 0, NULL, 1));
    IS(TICURSES_NULL, ticurses_make(&session, NULL));
    IS(TICURSES_NULL, ticurses_border(&session, 0, NULL));
    IS(TICURSES_NULL, ticurses_move(NULL, 0, 0, 0));
    IS(TICURSES_NULL, ticurses_cursor(NULL, 0, &one, &other));
    IS(TICURSES_NULL, ticurses_cursor(&session, 0, NULL, &other));
    IS(TICURSES_NULL, ticurses_cursor(&session, 0, &one, NULL));
    IS(TICURSES_NULL, ticurses_window_size(NULL, 0, &one, &other));
    IS(TICURSES_NULL, ticurses_window_size(&session, 0, NULL, &other));
    IS(TICURSES_NULL, ticurses_cell_at(NULL, 0, 0, 0, &found));
    IS(TICURSES_NULL, ticurses_cell_at(&session, 0, 0, 0, NULL));
    IS(TICURSES_NULL, ticurses_lost(NULL));
    IS(TICURSES_NULL, ticurses_check(source, source_len, "vt", 2, 24, 80, room, 9, NULL));
    IS(TICURSES_NULL, ticurses_check(source, source_len, "vt", 2, 24, 80, NULL, 9, &needed));
    IS(TICURSES_NULL, ticurses_reason(source, source_len, "vt", 2, 24, 80, room, 9, NULL));
    IS(TICURSES_NULL, ticurses_verify(NULL, 1, NULL, 0, 24, 80, "", 0));
    IS(TICURSES_NULL, ticurses_string(source, source_len, "vt", 2, NULL, room, 9, &needed));
    IS(TICURSES_NULL, ticurses_string(source, source_len, "vt", 2, "el", NULL, 9, &needed));
    IS(TICURSES_NULL, ticurses_number(NULL, 1, "vt", 2, "cols", &number));
    IS(TICURSES_NULL, ticurses_number(source, source_len, "vt", 2, "cols", NULL));
    IS(TICURSES_NULL, ticurses_flag(source, source_len, "vt", 2, "am", NULL));
    IS(0, ticurses_cell_limit(NULL));
    IS(0, ticurses_most(NULL));
    IS(0, ticurses_waiting(NULL));
    IS(0, ticurses_output(NULL, room, 9));
    ticurses_close(NULL);
    IS(15, one + other);
    IS(27, found.byte + found.attrs + found.pair);
    IS(5, needed);
}

static void closed(void) {
    ticurses session = {0, 0};
    uint16_t one = 7, other = 8;
    ticurses_cell found = {9, 9, 9};
    size_t line = 5;
    IS(TICURSES_CLOSED, CALL(&session, "doupdate"));
    IS(TICURSES_CLOSED, CALL(&session, "none"));
    IS(TICURSES_CLOSED, ticurses_callf(&session, "doupdate"));
    IS(TICURSES_CLOSED, ticurses_callf(&session, "%1048577d", 1));
    IS(TICURSES_CLOSED, ticurses_failed(&session, &line));
    IS(TICURSES_CLOSED, ticurses_addstr(&session, 0, "a", 1));
    IS(TICURSES_CLOSED, ticurses_refresh(&session, 0));
    IS(TICURSES_CLOSED, ticurses_scrollok(&session, 0, 2));
    IS(TICURSES_CLOSED, ticurses_cursor(&session, 0, &one, &other));
    IS(TICURSES_CLOSED, ticurses_window_size(&session, 0, &one, &other));
    IS(TICURSES_CLOSED, ticurses_cell_at(&session, 0, 0, 0, &found));
    IS(TICURSES_CLOSED, ticurses_lost(&session));
    IS(0, ticurses_cell_limit(&session));
    IS(0, ticurses_most(&session));
    IS(0, ticurses_waiting(&session));
    IS(0, ticurses_output(&session, room, 9));
    ticurses_close(&session);
    ticurses_close(&session);
    IS(15, one + other);
    IS(27, found.byte + found.attrs + found.pair);
    IS(5, line);
    IS(TICURSES_CLOSED, ticurses_left_out(&session, room, 9, &line));
    IS(0, line);
}

static void opening(void) {
    ticurses session = {0, 0};
    static const char wrong[] = "w|w,\n\tclear=\\E[H\\E[2J, cup=\\E[%p1%d;%p2%dH, sgr0=\\E[m,\n";
    IS(TICURSES_BAD_SIZE, OPEN(&session, "vt", 1, 80));
    IS(TICURSES_BAD_SIZE, OPEN(&session, "vt", 201, 80));
    IS(TICURSES_BAD_SIZE, OPEN(&session, "vt", 24, 1));
    IS(TICURSES_BAD_SIZE, OPEN(&session, "vt", 24, 501));
    IS(TICURSES_BAD_ENTRY, OPEN(&session, "none", 24, 80));
    IS(TICURSES_BAD_ENTRY, OPEN(&session, "", 24, 80));
    IS(TICURSES_BAD_ENTRY, ticurses_open(&session, NULL, 0, NULL, 0, 24, 80, NULL, 0));
    IS(TICURSES_NO_CERTIFICATE, ticurses_open(&session, wrong, sizeof wrong - 1, "w", 1, 24, 80, NULL, 0));
    IS(TICURSES_OK, OPEN(&session, "mini", 2, 2));
    /* \E[2;2H, \E[m and the character */
    IS(6 + 3 + 1, ticurses_cell_limit(&session));
    IS(TICURSES_OK, CALL(&session, "move 0 1 1\nrefresh 0"));
    /* what was open stays so where nothing is opened, with all that it has, and can be ended */
    size_t waiting = ticurses_waiting(&session);
    IS(1, waiting > 5);
    IS(TICURSES_BAD_SIZE, OPEN(&session, "mini", 0, 0));
    IS(TICURSES_BAD_ENTRY, OPEN(&session, "none", 24, 80));
    IS(TICURSES_NO_CERTIFICATE, ticurses_open(&session, wrong, sizeof wrong - 1, "w", 1, 24, 80, NULL, 0));
    IS(waiting, ticurses_waiting(&session));
    IS(1001, cursor(&session, 0));
    IS(TICURSES_OK, CALL(&session, "endwin"));
    IS(1, ticurses_waiting(&session) > waiting);
    /* else it is closed, and nothing of it waits */
    IS(TICURSES_OK, OPEN(&session, "mini", 200, 500));
    /* \E[200;500H here */
    IS(10 + 3 + 1, ticurses_cell_limit(&session));
    IS(0, ticurses_waiting(&session));
    IS(0, cursor(&session, 0));
    IS(TICURSES_OK, OPEN(&session, "mini", 3, 9));
    IS(TICURSES_OUT_OF_WINDOW, CALL(&session, "move 0 3 0"));
    ticurses_close(&session);
    IS(TICURSES_CLOSED, CALL(&session, "refresh 0"));
    ticurses_close(&session);
}

/* The session goes without these lines. */
static void goes_without(ticurses *session, const char *lines) {
    size_t needed = 5, len = strlen(lines);
    memset(room, 'z', len + 1);
    IS(TICURSES_OK, ticurses_left_out(session, room, len, &needed));
    IS(len, needed);
    if (memcmp(room, lines, len)) printf("left out is %.*s, and %s was wanted\n", (int)needed, room, lines), faults++;
    IS('z', room[len]);
    if (len == 0) return;
    IS(TICURSES_NO_ROOM, ticurses_left_out(session, room, len - 1, &needed));
    IS(len, needed);
    IS(TICURSES_NO_ROOM, ticurses_left_out(session, NULL, 0, &needed));
}

/* Strings that are wrong are left out, if a terminal can do without them. */
static void leaving_out(void) {
    ticurses session = {0, 0};
    static const char basic[] = "w|w,\n\tclear=\\E[H\\E[2J, cup=\\E[%p1%d;%p2%dH, sgr0=\\E[m,\n";
    static const char left[] = "rev rev BadLook\nrmcup rmcup NotTame\nsmcup rmcup NotTame\n";
    size_t count;
    IS(TICURSES_NO_CERTIFICATE, ticurses_open(&session, some, sizeof some - 1, "w", 1, 24, 80, NULL, 0));
    IS(TICURSES_OK, ticurses_open_without(&session, some, sizeof some - 1, "w", 1, 24, 80));
    goes_without(&session, left);
    IS(TICURSES_OK, CALL(&session, "attrset 0 RB\naddstr 0 a\nrefresh 0\nendwin"));
    room[count = drain(&session, room)] = 0;
    IS(1, strstr(room, "\033[1m") && !strstr(room, "\033[4m") && !strstr(room, "\033[?1049") && !strchr(room, 'x'));
    IS(count, strlen(room));
    /* an entry with a certificate is whole, and sends the same */
    IS(TICURSES_OK, OPEN(&session, "xt", 24, 80));
    goes_without(&session, "");
    IS(TICURSES_OK, CALL(&session, "addstr 0 whole\nrefresh 0"));
    count = drain(&session, certificate);
    IS(TICURSES_OK, ticurses_open_without(&session, source, source_len, "xt", 2, 24, 80));
    goes_without(&session, "");
    IS(TICURSES_OK, CALL(&session, "addstr 0 whole\nrefresh 0"));
    /* what was open stays so where nothing is opened */
    IS(TICURSES_NO_CERTIFICATE, ticurses_open_without(&session, basic, sizeof basic - 1, "w", 1, 24, 80));
    IS(TICURSES_BAD_SIZE, ticurses_open_without(&session, some, sizeof some - 1, "w", 1, 1, 80));
    IS(TICURSES_BAD_ENTRY, ticurses_open_without(&session, some, sizeof some - 1, "v", 1, 24, 80));
    IS(TICURSES_BAD_ENTRY, ticurses_open_without(&session, NULL, 0, NULL, 0, 24, 80));
    IS(count, drain(&session, room));
    IS(0, memcmp(room, certificate, count));
    ticurses_close(&session);
}

static void certificates(void) {
    ticurses session = {0, 0};
    size_t needed = 0, last;
    IS(TICURSES_OK, ticurses_check(source, source_len, "vt", 2, 24, 80, certificate, sizeof certificate, &needed));
    certificate_len = needed;
    IS(1, needed > 1000);
    memset(room, 'z', needed + 1);
    IS(TICURSES_NO_ROOM, ticurses_check(source, source_len, "vt", 2, 24, 80, room, needed - 1, &last));
    IS(needed, last);
    IS('z', room[0]);
    IS(TICURSES_NO_ROOM, ticurses_check(source, source_len, "vt", 2, 24, 80, NULL, 0, &last));
    IS(TICURSES_OK, ticurses_check(source, source_len, "vt", 2, 24, 80, room, needed, &last));
    IS(0, memcmp(room, certificate, needed));
    IS('z', room[needed]);
    IS(TICURSES_OK, ticurses_verify(source, source_len, "vt", 2, 24, 80, certificate, needed));
    IS(TICURSES_BAD_CERTIFICATE, ticurses_verify(source, source_len, "vt", 2, 24, 80, certificate, needed - 1));
    IS(TICURSES_BAD_CERTIFICATE, ticurses_verify(source, source_len, "vt", 2, 24, 81, certificate, needed));
    IS(TICURSES_BAD_CERTIFICATE, ticurses_verify(source, source_len, "xt", 2, 24, 80, certificate, needed));
    IS(TICURSES_BAD_CERTIFICATE, ticurses_verify(source, source_len, "vt", 2, 24, 80, NULL, 0));
    IS(TICURSES_BAD_SIZE, ticurses_verify(source, source_len, "vt", 2, 1, 80, certificate, needed));
    IS(TICURSES_BAD_ENTRY, ticurses_verify(source, source_len, "none", 4, 24, 80, certificate, needed));
    IS(TICURSES_OK, ticurses_open(&session, source, source_len, "vt", 2, 24, 80, certificate, needed));
    IS(TICURSES_BAD_CERTIFICATE, ticurses_open(&session, source, source_len, "vt", 2, 24, 81, certificate, needed));
    IS(TICURSES_OUT_OF_WINDOW, CALL(&session, "move 0 0 80"));
    ticurses_close(&session);
    IS(TICURSES_BAD_CERTIFICATE, ticurses_open(&session, source, source_len, "vt", 2, 24, 81, certificate, needed));
    IS(TICURSES_CLOSED, CALL(&session, "doupdate"));
    ticurses_close(&session);
}

static void reasons(void) {
    static const char wrong[] =
        "w|w,\n\tclear=\\E[H\\E[2J, cup=\\E[%i%p1%d;%p2%dH, sgr0=\\E[m, op=\\E[m,\n\tsetaf=\\E[3%p1%dm, "
        "setab=\\E[4%p1%dm,\n";
    static const char text[] = "no op: WrongEffect";
    size_t needed = 9;
    IS(TICURSES_OK, ticurses_reason(source, source_len, "vt", 2, 24, 80, room, sizeof room, &needed));
    IS(0, needed);
    memset(room, 'z', 64);
    IS(TICURSES_OK, ticurses_reason(wrong, sizeof wrong - 1, "w", 1, 24, 80, room, 256, &needed));
    IS(sizeof text - 1, needed);
    IS(0, memcmp(room, text, sizeof text - 1));
    IS('z', room[sizeof text - 1]);
    memset(room, 'z', 64);
    IS(TICURSES_NO_ROOM, ticurses_reason(wrong, sizeof wrong - 1, "w", 1, 24, 80, room, 3, &needed));
    IS(sizeof text - 1, needed);
    IS('z', room[0]);
    IS(TICURSES_NO_ROOM, ticurses_reason(wrong, sizeof wrong - 1, "w", 1, 24, 80, NULL, 0, &needed));
    IS(TICURSES_BAD_SIZE, ticurses_reason(wrong, sizeof wrong - 1, "w", 1, 24, 1, room, 256, &needed));
    IS(0, needed);
    IS(TICURSES_BAD_ENTRY, ticurses_reason(wrong, sizeof wrong - 1, "v", 1, 24, 80, room, 256, &needed));
    IS(0, needed);
    IS(TICURSES_NO_CERTIFICATE, ticurses_check(wrong, sizeof wrong - 1, "w", 1, 24, 80, room, 256, &needed));
    IS(0, needed);
}

static void capabilities(void) {
    static const char text[] = "\033[K$<3>";
    size_t needed = 9;
    uint32_t number = 7;
    int is_on = 7;
    memset(room, 'z', 64);
    IS(TICURSES_OK, ticurses_string(source, source_len, "vt", 2, "el", room, 64, &needed));
    IS(sizeof text - 1, needed);
    IS(0, memcmp(room, text, needed));
    IS('z', room[needed]);
    IS(TICURSES_NO_ROOM, ticurses_string(source, source_len, "vt", 2, "el", NULL, 0, &needed));
    IS(sizeof text - 1, needed);
    IS(TICURSES_NO_CAP, ticurses_string(source, source_len, "vt", 2, "kcuu1", room, 64, &needed));
    IS(0, needed);
    IS(TICURSES_BAD_NAME, ticurses_string(source, source_len, "none", 4, "am", room, 64, &needed));
    IS(TICURSES_BAD_NAME, ticurses_string(source, source_len, "vt", 2, "", room, 64, &needed));
    IS(TICURSES_BAD_ENTRY, ticurses_string(source, source_len, "none", 4, "el", room, 64, &needed));
    IS(TICURSES_BAD_ENTRY, ticurses_string(source, source_len, NULL, 0, "el", room, 64, &needed));
    IS(TICURSES_NO_CAP, ticurses_number(source, source_len, "vt", 2, "colors", &number));
    IS(TICURSES_BAD_NAME, ticurses_number(source, source_len, "vt", 2, "el", &number));
    IS(TICURSES_BAD_NAME, ticurses_flag(source, source_len, "vt", 2, "cols", &is_on));
    IS(14, number + (uint32_t)is_on);
    IS(TICURSES_OK, ticurses_number(source, source_len, "vt", 2, "cols", &number));
    IS(80, number);
    IS(TICURSES_OK, ticurses_flag(source, source_len, "vt", 2, "am", &is_on));
    IS(1, is_on);
    IS(TICURSES_OK, ticurses_flag(source, source_len, "xt", 2, "am", &is_on));
    IS(0, is_on);
    allowed = 0;
    IS(TICURSES_NO_MEMORY, ticurses_flag(source, source_len, "vt", 2, "am", &is_on));
    allowed = -1;
}

/* A compiled entry of two flags, a number and a string, which takes no memory. */
static void packed_capabilities(void) {
    /* am; cols and it; cbt and bel, of which the first is absent */
    static const char packed[] =
        "\032\001" "\002\000" "\002\000" "\001\000" "\002\000" "\002\000" "p\000" "\000\001" "\204\000"
        "\377\377" "\000\000" "\007";
    size_t needed = 9;
    uint32_t number = 7;
    int is_on = 7;
    allowed = 0;
    IS(TICURSES_OK, ticurses_string(packed, sizeof packed, NULL, 0, "bel", room, 64, &needed));
    IS(1, needed);
    IS(7, room[0]);
    IS(TICURSES_NO_CAP, ticurses_string(packed, sizeof packed, NULL, 0, "cbt", room, 64, &needed));
    IS(TICURSES_OK, ticurses_number(packed, sizeof packed, NULL, 0, "cols", &number));
    IS(132, number);
    IS(TICURSES_OK, ticurses_flag(packed, sizeof packed, NULL, 0, "am", &is_on));
    IS(1, is_on);
    IS(TICURSES_OK, ticurses_flag(packed, sizeof packed, NULL, 0, "bw", &is_on));
    IS(0, is_on);
    allowed = -1;
}

/* Each refusal of a call of curses. */
static void refusals(void) {
    static const struct {
        const char *line;
        int code;
    } cases[] = {
        {"move 9 0 0", TICURSES_NO_WINDOW},
        {"move 0 6 0", TICURSES_OUT_OF_WINDOW},
        {"newwin 9 2 2 5 0", TICURSES_OUT_OF_SCREEN},
        {"delwin 1", TICURSES_HAS_CHILDREN},
        {"mvwin 2 0 0", TICURSES_IS_SUB},
        {"refresh 3", TICURSES_PAD_KIND},
        {"addch 4 61", TICURSES_NO_SCROLL},
        {"newpad 9 0 1", TICURSES_BAD_REGION},
        {"newwin 1 1 1 0 0", TICURSES_NUMBER_USED},
        {"addch 0 ff", TICURSES_BAD_CELL},
        {"move 64 0 0", TICURSES_FULL},
        {"delwin 0", TICURSES_IS_SCREEN},
        {"curs_set 0", TICURSES_NO_CAP},
        {"init_pair 0 1 1", TICURSES_BAD_PAIR},
        {"move 0 0", TICURSES_BAD_LINE},
        {"move 0 5 0", TICURSES_OK},
    };
    ticurses session = {0, 0};
    IS(TICURSES_OK, OPEN(&session, "vt", 6, 24));
    IS(TICURSES_OK, CALL(&session, "newwin 1 3 6 0 0\nderwin 2 1 1 2 0 0\nnewpad 3 4 4\nnewwin 4 1 1 0 0"));
    for (size_t at = 0; at < sizeof cases / sizeof *cases; at++) {
        int code = CALL(&session, cases[at].line);
        if (code != cases[at].code)
            printf("%s answers %d, and %d was wanted\n", cases[at].line, code, cases[at].code);
        faults += code != cases[at].code;
    }
    IS(TICURSES_OK, CALL(&session, "refresh 0"));
    IS(TICURSES_OK, ticurses_lost(&session));
    IS(TICURSES_IS_LOST, CALL(&session, "beep 0"));
    IS(TICURSES_OK, CALL(&session, "refresh 0\nbeep 0"));
    ticurses_close(&session);
}

static void lines(void) {
    ticurses session = {0, 0};
    size_t long_len = 1048577;
    char *text = (char *)malloc(long_len);
    IS(TICURSES_OK, OPEN(&session, "vt", 6, 24));
    /* a bad line has none of the lines done, a refused one those before it */
    IS(0, failed(&session));
    IS(TICURSES_BAD_LINE, CALL(&session, "move 0 1 1\nmove 0 2"));
    IS(2, failed(&session));
    IS(0, cursor(&session, 0));
    IS(TICURSES_OUT_OF_WINDOW, CALL(&session, "move 0 1 1\nmove 0 9 9\nmove 0 2 2"));
    IS(2, failed(&session));
    IS(1001, cursor(&session, 0));
    IS(TICURSES_OK, CALL(&session, "# a comment\n\nmove 0 3 4\n"));
    IS(0, failed(&session));
    IS(3004, cursor(&session, 0));
    /* lines that are skipped count, and what isn't a text of calls leaves the number as it is */
    IS(TICURSES_NO_WINDOW, CALL(&session, "#\n\n\nmove 0 0 0\n# more\nmove 9 0 0\nmove 9 9 9\n"));
    IS(6, failed(&session));
    IS(TICURSES_OK, ticurses_addstr(&session, 0, "a", 1));
    IS(TICURSES_NO_WINDOW, ticurses_addstr(&session, 5, "a", 1));
    IS(TICURSES_OK, ticurses_lost(&session));
    IS(6, failed(&session));
    IS(TICURSES_NO_WINDOW, CALL(&session, "delwin 9"));
    IS(1, failed(&session));
    IS(TICURSES_BAD_LINE, CALL(&session, "none"));
    IS(1, failed(&session));
    IS(TICURSES_BAD_LINE, CALL(&session, "\n\ndoupdate 1\nnone"));
    IS(3, failed(&session));
    IS(TICURSES_OK, ticurses_call(&session, NULL, 0));
    IS(0, failed(&session));
    memset(text, '\n', long_len);
    IS(TICURSES_OK, ticurses_call(&session, text, long_len - 1));
    memcpy(text + long_len - 9, "delwin 9", 8);
    IS(TICURSES_NO_WINDOW, ticurses_call(&session, text, long_len - 1));
    IS(long_len - 8, failed(&session));
    IS(TICURSES_TOO_LONG, ticurses_call(&session, text, long_len));
    IS(0, failed(&session));
    IS(TICURSES_BAD_LINE, CALL(&session, "none"));
    IS(TICURSES_TOO_LONG, ticurses_callf(&session, "%1048577d", 1));
    IS(0, failed(&session));
    free(text);
    IS(TICURSES_OK, ticurses_callf(&session, "move %d %d %u", 0, 5, 23U));
    IS(5023, cursor(&session, 0));
    IS(TICURSES_OK, ticurses_callf(&session, "#%600s\nmove 0 0 %d", "", 7));
    IS(TICURSES_BAD_LINE, ticurses_callf(&session, "%600s", "x"));
    ticurses_close(&session);
}

/* Queries of windows return what was drawn. */
static void questions(void) {
    ticurses session = {0, 0};
    uint16_t rows = 0, cols = 0;
    IS(TICURSES_OK, OPEN(&session, "xc", 6, 24));
    IS(TICURSES_OK, ticurses_window_size(&session, 0, &rows, &cols));
    IS(6024, rows * 1000 + cols);
    IS(TICURSES_OK, CALL(&session, "init_pair 5 1 2\nnewwin 1 3 10 2 4\nderwin 2 1 1 2 1 1\nnewpad 3 1000 7"));
    IS(TICURSES_OK, ticurses_window_size(&session, 1, &rows, &cols));
    IS(3010, rows * 1000 + cols);
    IS(TICURSES_OK, ticurses_window_size(&session, 3, &rows, &cols));
    IS(1000007, rows * 1000L + cols);
    IS(TICURSES_OK, CALL(&session, "color_set 1 5\nattrset 1 BU\nmove 1 1 2\naddch 1 41/R\nvline 1 - 2"));
    IS(1003, cursor(&session, 1));
    IS(5 * 65536L + (TICURSES_BOLD | TICURSES_UNDERLINE | TICURSES_REVERSE) * 256L + 'A', cell(&session, 1, 1, 2));
    IS(5 * 65536L + (TICURSES_BOLD | TICURSES_UNDERLINE | TICURSES_ALTCHARSET) * 256L + 'x',
       cell(&session, 1, 1, 3));
    IS(cell(&session, 1, 1, 2), cell(&session, 2, 0, 1));
    IS(' ', cell(&session, 1, 0, 0));
    IS(' ', cell(&session, 3, 999, 6));
    rows = cols = 77;
    IS(TICURSES_NO_WINDOW, ticurses_cursor(&session, 9, &rows, &cols));
    IS(TICURSES_FULL, ticurses_cursor(&session, 64, &rows, &cols));
    IS(TICURSES_FULL, ticurses_window_size(&session, SIZE_MAX, &rows, &cols));
    IS(TICURSES_NO_WINDOW, ticurses_window_size(&session, 63, &rows, &cols));
    IS(154, rows + cols);
    ticurses_cell found = {1, 2, 3};
    IS(TICURSES_OUT_OF_WINDOW, ticurses_cell_at(&session, 1, 3, 0, &found));
    IS(TICURSES_OUT_OF_WINDOW, ticurses_cell_at(&session, 1, 0, 10, &found));
    IS(TICURSES_NO_WINDOW, ticurses_cell_at(&session, 9, 0, 0, &found));
    IS(TICURSES_FULL, ticurses_cell_at(&session, 64, 0, 0, &found));
    IS(6, found.byte + found.attrs + found.pair);
    IS(0, ticurses_waiting(&session));
    ticurses_close(&session);
}

/* How many of the eight colors the bytes that wait select as a foreground. */
static int foregrounds(const char *sent) {
    int count = 0;
    for (char color = '0'; color < '8'; color++) {
        const char select[] = {'\033', '[', '3', color, 'm', '\0'};
        count += strstr(sent, select) != NULL;
    }
    return count;
}

/* A pair may have the terminal's default color on one of the eight, or on both sides. */
static void default_colors(void) {
    ticurses session = {0, 0};
    char sent[400] = "";
    IS(TICURSES_NULL, ticurses_init_pair_or_default(NULL, 1, -1, -1));
    IS(TICURSES_CLOSED, ticurses_init_pair_or_default(&session, 1, -1, -1));
    IS(TICURSES_OK, OPEN(&session, "xc", 6, 24));
    IS(TICURSES_BAD_PAIR, ticurses_init_pair_or_default(&session, 0, -1, -1));
    IS(TICURSES_BAD_PAIR, ticurses_init_pair_or_default(&session, 64, -1, -1));
    IS(TICURSES_BAD_PAIR, ticurses_init_pair_or_default(&session, 1, -2, 0));
    IS(TICURSES_BAD_PAIR, ticurses_init_pair_or_default(&session, 1, 0, INT_MIN));
    IS(TICURSES_BAD_PAIR, ticurses_init_pair_or_default(&session, 1, 8, 0));
    IS(TICURSES_BAD_PAIR, ticurses_init_pair(&session, 5, -1, 4));
    IS(TICURSES_OK, ticurses_init_pair_or_default(&session, 5, -1, 4));
    IS(TICURSES_OK, CALL(&session, "color_set 0 5\naddch 0 41\nrefresh 0"));
    IS(1, ticurses_waiting(&session) < sizeof sent);
    sent[ticurses_output(&session, sent, sizeof sent - 1)] = '\0';
    IS(0, foregrounds(sent));
    IS(1, strstr(sent, "\033[44m") != NULL);
    IS(TICURSES_OK, ticurses_init_pair_or_default(&session, 5, 3, -1));
    IS(TICURSES_OK, CALL(&session, "refresh 0"));
    sent[ticurses_output(&session, sent, sizeof sent - 1)] = '\0';
    IS(1, foregrounds(sent));
    IS(1, strstr(sent, "\033[33m") != NULL);
    IS(1, strstr(sent, "\033[44m") == NULL);
    ticurses_close(&session);
}

/* Whether the text is among the bytes that a refresh of the virtual screen sends. */
static int shows(ticurses *session, char *sent, size_t size, const char *text) {
    IS(TICURSES_OK, ticurses_doupdate(session));
    IS(1, ticurses_waiting(session) < size);
    sent[ticurses_output(session, sent, size - 1)] = '\0';
    return strstr(sent, text) != NULL;
}

/* Lines of a window are copied to the virtual screen, and a window in front of its other lines stays. */
static void copied_lines(void) {
    ticurses session = {0, 0};
    char sent[400] = "";
    IS(TICURSES_NULL, ticurses_noutrefresh_lines(NULL, 0, 0, 0));
    IS(TICURSES_CLOSED, ticurses_noutrefresh_lines(&session, 0, 0, 0));
    IS(TICURSES_OK, OPEN(&session, "vt", 6, 24));
    IS(TICURSES_OK, CALL(&session, "newwin 1 2 8 2 4\nnewpad 2 6 24\naddstr 1 ppp\nnoutrefresh 0\nrefresh 1"));
    sent[ticurses_output(&session, sent, sizeof sent - 1)] = '\0';
    IS(1, strstr(sent, "ppp") != NULL);
    IS(TICURSES_OK, CALL(&session, "addstr 0 bbb\nmove 0 2 4\naddstr 0 uuu\nmove 0 5 0\naddstr 0 ccc"));
    IS(TICURSES_FULL, ticurses_noutrefresh_lines(&session, 64, 0, 5));
    IS(TICURSES_NO_WINDOW, ticurses_noutrefresh_lines(&session, 3, 0, 5));
    IS(TICURSES_PAD_KIND, ticurses_noutrefresh_lines(&session, 2, 0, 5));
    IS(TICURSES_BAD_REGION, ticurses_noutrefresh_lines(&session, 0, -1, 5));
    IS(TICURSES_BAD_REGION, ticurses_noutrefresh_lines(&session, 0, 0, 6));
    IS(TICURSES_BAD_REGION, ticurses_noutrefresh_lines(&session, 0, 3, 2));
    IS(TICURSES_BAD_REGION, ticurses_noutrefresh_lines(&session, 0, INT_MAX, INT_MIN));
    IS(TICURSES_OK, ticurses_doupdate(&session));
    IS(0, ticurses_waiting(&session));
    IS(TICURSES_OK, ticurses_noutrefresh_lines(&session, 0, 0, 1));
    IS(1, shows(&session, sent, sizeof sent, "bbb"));
    IS(1, strstr(sent, "uuu") == NULL && strstr(sent, "ccc") == NULL);
    IS(TICURSES_OK, ticurses_noutrefresh_lines(&session, 0, 4, 5));
    IS(1, shows(&session, sent, sizeof sent, "ccc"));
    IS(1, strstr(sent, "uuu") == NULL);
    IS(TICURSES_OK, ticurses_noutrefresh(&session, 0));
    IS(1, shows(&session, sent, sizeof sent, "uuu"));
    ticurses_close(&session);
}

static void strings(void) {
    ticurses session = {0, 0};
    IS(TICURSES_OK, OPEN(&session, "vt", 6, 24));
    IS(TICURSES_OK, ticurses_addstr(&session, 0, "ab\ncd\te\001", 8));
    IS('b', cell(&session, 0, 0, 1));
    IS('c', cell(&session, 0, 1, 0));
    IS('e', cell(&session, 0, 1, 8));
    IS('^', cell(&session, 0, 1, 9));
    IS('A', cell(&session, 0, 1, 10));
    IS(1011, cursor(&session, 0));
    IS(TICURSES_BAD_CELL, ticurses_addstr(&session, 0, "x\377y", 3));
    IS('x', cell(&session, 0, 1, 11));
    IS(' ', cell(&session, 0, 1, 12));
    IS(TICURSES_OK, ticurses_addstr(&session, 0, NULL, 0));
    IS(TICURSES_NO_WINDOW, ticurses_addstr(&session, 1, "a", 1));
    IS(TICURSES_FULL, ticurses_addstr(&session, 64, "a", 1));
    IS(1012, cursor(&session, 0));
    ticurses_close(&session);
}

/* Answers of functions of numbers that no line has; numbers.c tries all others. */
static void numbers(void) {
    static const uint32_t kinds[] = {0, TICURSES_ENDWIN + 1, UINT32_MAX};
    const ticurses_cell none = ticurses_cell_of(0, 0, 0), plus = ticurses_cell_of('+', TICURSES_BOLD, 0);
    ticurses session = {0, 0};
    ticurses_frame frame = {none, none, none, none, plus, none, none, plus};
    ticurses_request request = ticurses_request_of(TICURSES_MOVE, 0, 99);
    IS(TICURSES_OK, OPEN(&session, "vt", 6, 24));
    /* what a call has no number for doesn't count */
    request.first = 3, request.second = 4, request.sixth = 9, request.flag = 7, request.attrs = -1;
    IS(TICURSES_OK, ticurses_make(&session, &request));
    IS(3004, cursor(&session, 0));
    /* numbers that are no call, and numbers that are refused, change nothing */
    for (size_t at = 0; at < sizeof kinds / sizeof *kinds; at++) {
        request.kind = kinds[at];
        IS(TICURSES_BAD_CALL, ticurses_make(&session, &request));
    }
    IS(TICURSES_BAD_CALL, ticurses_scrollok(&session, 0, 2));
    IS(TICURSES_BAD_CALL, ticurses_scrollok(&session, 9, -1));
    IS(TICURSES_BAD_CALL, ticurses_attron(&session, 0, 256));
    IS(TICURSES_BAD_CALL, ticurses_attrset(&session, 0, -1));
    IS(TICURSES_BAD_CALL, ticurses_copywin(&session, 0, 0, 0, 0, 0, 0, 1, 1, 2));
    IS(TICURSES_BAD_PAIR, ticurses_addch(&session, 0, ticurses_cell_of('a', 0, 64)));
    IS(TICURSES_BAD_CELL, ticurses_insch(&session, 0, none));
    IS(TICURSES_FULL, ticurses_erase(&session, SIZE_MAX));
    IS(TICURSES_NO_WINDOW, CALL(&session, "delwin 9"));
    IS(TICURSES_NO_WINDOW, ticurses_delwin(&session, 9));
    IS(TICURSES_OK, ticurses_idlok(&session, 0, 1));
    IS(1, failed(&session));
    IS(3004, cursor(&session, 0));
    IS(' ', cell(&session, 0, 3, 4));
    /* all of a cell 0 is the default in a border, and ^@ elsewhere */
    IS(TICURSES_OK, ticurses_addch(&session, 0, none));
    IS('^', cell(&session, 0, 3, 4));
    IS('@', cell(&session, 0, 3, 5));
    IS(TICURSES_OK, ticurses_border(&session, 0, &frame));
    IS(TICURSES_BOLD * 256L + '+', cell(&session, 0, 0, 0));
    IS(TICURSES_ALTCHARSET * 256L + 'k', cell(&session, 0, 0, 23));
    IS(TICURSES_ALTCHARSET * 256L + 'x', cell(&session, 0, 1, 0));
    IS(TICURSES_BAD_CELL, ticurses_box(&session, 0, ticurses_cell_of(0, TICURSES_BOLD, 0), none));
    IS(0, ticurses_waiting(&session));
    IS(TICURSES_OK, ticurses_refresh(&session, 0));
    IS(1, ticurses_waiting(&session) > 9);
    ticurses_close(&session);
}

static void output(void) {
    ticurses session = {0, 0};
    IS(TICURSES_OK, OPEN(&session, "vt", 6, 24));
    IS(0, ticurses_waiting(&session));
    IS(TICURSES_OK, CALL(&session, "addstr 0 hello\nrefresh 0"));
    size_t waiting = ticurses_waiting(&session);
    IS(1, waiting > 5);
    IS(0, ticurses_output(&session, NULL, 5));
    IS(0, ticurses_output(&session, room, 0));
    IS(waiting, ticurses_waiting(&session));
    room[1] = 'z';
    IS(1, ticurses_output(&session, room, 1));
    IS('z', room[1]);
    IS(waiting - 1, ticurses_waiting(&session));
    IS(waiting - 1, drain(&session, room + 1));
    IS(0, ticurses_output(&session, room, 5));
    memset(room, 'z', 64);
    IS(TICURSES_OK, CALL(&session, "addstr 0 a\nrefresh 0"));
    waiting = ticurses_waiting(&session);
    IS(1, waiting > 0 && waiting < 64);
    IS(waiting, ticurses_output(&session, room, 64));
    for (size_t at = waiting; at < 64; at++) IS('z', room[at]);
    /* nothing differs: nothing is sent; after a loss all is sent again */
    IS(TICURSES_OK, CALL(&session, "refresh 0"));
    IS(0, ticurses_waiting(&session));
    IS(TICURSES_OK, CALL(&session, "addstr 0 more\nrefresh 0"));
    IS(TICURSES_OK, ticurses_lost(&session));
    IS(0, ticurses_waiting(&session));
    IS(TICURSES_OK, CALL(&session, "refresh 0"));
    IS(1, ticurses_waiting(&session) > 9);
    ticurses_close(&session);
}

static void texts(void) {
    for (int code = 0; code <= TICURSES_BAD_NAME; code++)
        for (int other = 0; other < code; other++) IS(1, strcmp(ticurses_text(code), ticurses_text(other)) != 0);
    IS(0, strcmp("out of memory", ticurses_text(TICURSES_NO_MEMORY)));
    IS(0, strcmp("a pointer is null", ticurses_text(TICURSES_NULL)));
    IS(0, strcmp(ticurses_text(-1), ticurses_text(TICURSES_BAD_NAME + 1)));
}

/* The turn of one session among others: what it sends is kept. */
static void turn(ticurses *session, int number, int step, char *sent, size_t *count) {
    IS(TICURSES_OK,
       ticurses_callf(session, "move 0 %d %d\naddstr 0 %d-%d\nrefresh 0", step % 3, number % 9, number, step));
    *count += drain(session, sent + *count);
}

/* Fifty sessions in turn send what each sends alone. */
static void many_sessions(void) {
    enum { MANY = 50, STEPS = 6, SENT = 8192 };
    static const char *const names[] = {"mini", "vt", "xt", "xc"};
    static ticurses sessions[MANY];
    static char sent[MANY][SENT], alone[SENT];
    static size_t counts[MANY];
    for (int at = 0; at < MANY; at++)
        IS(TICURSES_OK, OPEN(&sessions[at], names[at % 4], 3 + at % 7, (uint16_t)(20 + at)));
    for (int step = 0; step < STEPS; step++)
        for (int at = 0; at < MANY; at++)
            turn(&sessions[(at * 7) % MANY], (at * 7) % MANY, step, sent[(at * 7) % MANY],
                 &counts[(at * 7) % MANY]);
    for (int at = 0; at < MANY; at += 2) ticurses_close(&sessions[at]);
    for (int at = 1; at < MANY; at += 2) turn(&sessions[at], at, STEPS, sent[at], &counts[at]);
    for (int at = 0; at < MANY; at++) {
        ticurses session = {0, 0};
        size_t count = 0;
        IS(TICURSES_OK, OPEN(&session, names[at % 4], 3 + at % 7, (uint16_t)(20 + at)));
        for (int step = 0; step < STEPS + at % 2; step++) turn(&session, at, step, alone, &count);
        IS(counts[at], count);
        IS(0, memcmp(alone, sent[at], count));
        ticurses_close(&session);
        ticurses_close(&sessions[at]);
    }
}

/* A hundred thousand calls take no more memory than the first thousand. */
static void many_calls(void) {
    ticurses session = {0, 0};
    long before = 0;
    IS(TICURSES_OK, OPEN(&session, "xt", 24, 80));
    IS(TICURSES_OK, CALL(&session, "newwin 1 10 40 3 5\nscrollok 1 1"));
    for (int step = 0; step < 25000 / scale; step++) {
        if (step == 250) before = bytes;
        IS(TICURSES_OK, ticurses_callf(&session, "move 0 %d %d\naddstr 1 %d \nnoutrefresh 0\nrefresh 1", step % 24,
                                       step % 80, step * 7));
        drain(&session, room);
    }
    IS(before, bytes);
    ticurses_close(&session);
}

/* Requests for memory that fail, one after the other: opening answers so and keeps nothing. */
static void no_memory_open_so(int is_whole) {
    ticurses session = {0, 0};
    long kept = blocks, count = 0;
    for (;; count += scale) {
        allowed = count;
        int code = is_whole ? ticurses_open(&session, source, source_len, "vt", 2, 24, 80, certificate, certificate_len)
                            : ticurses_open_without(&session, some, sizeof some - 1, "w", 1, 24, 80);
        int failed = allowed == 0;
        allowed = -1;
        if (code == TICURSES_OK && !failed) break;
        if (code == TICURSES_OK) continue;
        IS(TICURSES_NO_MEMORY, code);
        IS(kept, blocks);
        if (code != TICURSES_NO_MEMORY || count > 100000) break;
    }
    IS(1, count > 3);
    IS(TICURSES_OK, CALL(&session, "addstr 0 a\nrefresh 0"));
    ticurses_close(&session);
    IS(kept, blocks);
}

static void no_memory_open(void) {
    for (int is_whole = 0; is_whole < 2; is_whole++) no_memory_open_so(is_whole);
}

/* A refresh for which there is no memory: the next one begins anew. */
static void no_memory_call(void) {
    ticurses session = {0, 0};
    IS(TICURSES_OK, OPEN(&session, "vt", 24, 80));
    IS(TICURSES_OK, CALL(&session, "addstr 0 hello\nnoutrefresh 0"));
    for (long count = 0; count < 3; count++) {
        allowed = count;
        int code = CALL(&session, "doupdate");
        allowed = -1;
        if (code == TICURSES_OK) break;
        IS(1, code == TICURSES_NO_MEMORY || code == TICURSES_OUTPUT_FAILED);
        IS(TICURSES_OK, ticurses_lost(&session));
    }
    IS(TICURSES_OK, CALL(&session, "doupdate"));
    IS(1, drain(&session, room) > 5);
    allowed = 0;
    IS(TICURSES_NO_MEMORY, CALL(&session, "newwin 1 3 3 0 0"));
    allowed = -1;
    IS(1, failed(&session));
    IS(TICURSES_NO_WINDOW, CALL(&session, "move 1 0 0"));
    IS(TICURSES_OK, CALL(&session, "newwin 1 3 3 0 0"));
    /* one call takes none for reading it; several may, and none of them is done without */
    allowed = 0;
    IS(TICURSES_OK, CALL(&session, "move 0 1 1"));
    IS(TICURSES_OK, ticurses_move(&session, 0, 2, 1));
    IS(TICURSES_OK, ticurses_addch(&session, 0, ticurses_cell_of('a', 0, 0)));
    IS(TICURSES_NO_MEMORY, ticurses_newwin(&session, 2, 3, 3, 0, 0));
    IS(TICURSES_NO_MEMORY, CALL(&session, "move 0 3 3\nmove 9 0 0"));
    allowed = -1;
    IS(0, failed(&session));
    IS(2002, cursor(&session, 0));
    ticurses_close(&session);
}

int main(int argc, char **argv) {
    static void (*const parts[])(void) = {
        nulls,    closed, opening,   leaving_out, certificates, reasons, capabilities, packed_capabilities,
        refusals, lines,  questions, default_colors, copied_lines, strings, numbers, output, texts,
        many_sessions, many_calls, no_memory_open, no_memory_call,
    };
    FILE *file = argc >= 2 ? fopen(argv[1], "rb") : NULL;
    if (!file) return 2;
    if (argc > 2) scale = atol(argv[2]);
    source_len = fread(source, 1, sizeof source, file);
    fclose(file);
    for (size_t at = 0; at < sizeof parts / sizeof *parts; at++) {
        long kept = blocks;
        parts[at]();
        if (blocks != kept) printf("part %zu keeps %ld blocks\n", at, blocks - kept);
        faults += blocks != kept;
    }
    return faults != 0;
}
