/* formats: what ticurses_callf hands to the library, beside what snprintf writes: each directive that it writes by
 * itself, those that it leaves to printf, texts of all lengths about those that its buffer takes, and what printf can't
 * write. It has a call of its own in the library's place, and counts what is asked of malloc. Each fault is a line; the
 * status is 0 if there is none. */
#include <stddef.h>
#include <stdlib.h>

/* where malloc is asked for memory, how much at most, and whether it gives any */
static size_t most_asked;
static int has_memory = 1;

static void *asked(size_t size) {
    if (size > most_asked) most_asked = size;
    return has_memory ? (malloc)(size) : NULL;
}

#define malloc(size) asked(size)
#include <ticurses.h>
#undef malloc

#include <limits.h>
#include <string.h>
#include <wchar.h>

enum { LONGEST = 1200 };

static char wanted[1 << 12], handed[1 << 12], letters[LONGEST + 1];
static size_t handed_len;
static int faults;

int32_t ticurses_raw_call(ticurses *session, const uint8_t *text, size_t len) {
    (void)session;
    handed_len = len;
    memcpy(handed, text, len);
    return TICURSES_OK;
}

/* How many characters it writes by itself; -1 if it leaves them to printf. */
static int own(const char *format, ...) TICURSES_PRINTF(1, 2);
static int own(const char *format, ...) {
    char line[512];
    va_list rest;
    int len;
    va_start(rest, format);
    len = ticurses_format(line, sizeof line, format, rest);
    va_end(rest);
    return len;
}

static void compare(int line, const char *format, int len, int code) {
    if (code == TICURSES_OK && handed_len == (size_t)len && !memcmp(handed, wanted, handed_len)) return;
    printf("formats.c:%d: \"%s\" makes \"%.*s\", and \"%.*s\" was wanted\n", line, format, (int)handed_len, handed, len,
           wanted);
    faults++;
}

static void is(int line, int seen, int meant) {
    if (seen == meant) return;
    printf("formats.c:%d: %d, and %d was wanted\n", line, seen, meant);
    faults++;
}

#define MAKES(format, ...) \
    compare(__LINE__, format, snprintf(wanted, sizeof wanted, format, __VA_ARGS__), \
            ticurses_callf(&session, format, __VA_ARGS__))
#define OWN(format, ...) \
    do { \
        MAKES(format, __VA_ARGS__); \
        is(__LINE__, own(format, __VA_ARGS__), snprintf(wanted, sizeof wanted, format, __VA_ARGS__)); \
    } while (0)
#define LEFT(format, ...) \
    do { \
        MAKES(format, __VA_ARGS__); \
        is(__LINE__, own(format, __VA_ARGS__), -1); \
    } while (0)

static ticurses session;

static void numbers(void) {
    static const int tried[] = {0, 1, 9, 10, 15, 16, 99, 100, 127, 128, 255, 256, 4095, 4096, 65535, 99999, 100000,
                                INT_MAX - 1, INT_MAX, INT_MIN, INT_MIN + 1};
    for (size_t at = 0; at < sizeof tried / sizeof *tried; at++) {
        int number = tried[at], other = -1 - number;
        OWN("move %d %d %d", number, other, -5);
        OWN("scroll %u %u", (unsigned)number, (unsigned)other);
        OWN("addch 0 %02x/B:%d", (unsigned)number, number);
        OWN("%x%x", (unsigned)number, (unsigned)other);
        LEFT("move %3d %d", number, other);
        LEFT("addch %d %2x", number, (unsigned)number);
        LEFT("addch %d %03x", number, (unsigned)number);
        LEFT("addch %d %02X", number, (unsigned)number);
        LEFT("%ld %lu %zu", (long)number, (unsigned long)number, (size_t)number);
        LEFT("%i %o %+d %-4d.", number, (unsigned)number, number, other);
    }
}

static void characters(void) {
    for (int byte = 0; byte < 256; byte++) {
        OWN("addstr 0 %c%c", byte, 255 - byte);
        LEFT("addstr 0 %3c", byte);
    }
    OWN("%s 1 %s", "attron", "B");
    OWN("addstr 0 %s|%s", "", "a text, 100% of it, \t with %d\nrefresh 0");
    LEFT("addstr %d %.3s", 0, "a text");
    LEFT("addstr %d %8s", 0, "a text");
    LEFT("addstr %d 100%%", 0);
    LEFT("addstr %d %g", 0, 0.25);
    LEFT("addstr %d %%d%s", 0, "");
}

/* The buffer of ticurses_callf has 512 characters; what comes to the last of them is left to printf where a number may
 * not fit. */
static void lengths(void) {
    const char *text = letters + LONGEST;
    for (int len = 0; len < LONGEST; len++, text--) {
        MAKES("%s", text);
        MAKES("addstr 0 %s", text);
        MAKES("addstr 0 %s%d %d", text, INT_MIN, INT_MIN);
        MAKES("%s\nmove %d %02x", text, INT_MAX, UINT_MAX);
        is(__LINE__, own("%s", text), len <= 512 ? len : -1);
        if (len <= 480) is(__LINE__, own("%s%d", text, INT_MIN), len + 11);
    }
}

/* A format that printf refuses, or that makes too long a text, gets no line to the library and takes no memory. The
 * formats are wrong or never ending, so that the compiler may not see them. */
static void refused(void) {
    int (*volatile call)(ticurses *, const char *, ...) = ticurses_callf;
    static const wchar_t wide[] = {0x20ac, 0};
    most_asked = 0;
    is(__LINE__, call(&session, "addstr 0 %ls", wide), TICURSES_BAD_LINE);
    is(__LINE__, (int)handed_len, 0);
    is(__LINE__, call(&session, "addstr 0 100%"), TICURSES_BAD_LINE);
    is(__LINE__, (int)handed_len, 0);
    is(__LINE__, call(&session, "%20000000d", 1), TICURSES_TOO_LONG);
    is(__LINE__, call(&session, "%1048577d", 1), TICURSES_TOO_LONG);
    is(__LINE__, (int)handed_len, 0);
    is(__LINE__, (int)most_asked, 0);
    has_memory = 0;
    is(__LINE__, call(&session, "%600d", 1), TICURSES_NO_MEMORY);
    is(__LINE__, (int)handed_len, 0);
    has_memory = 1;
    is(__LINE__, (int)most_asked, 601);
    is(__LINE__, call(&session, NULL), TICURSES_NULL);
    is(__LINE__, call(NULL, "endwin"), TICURSES_NULL);
    is(__LINE__, call(&session, ""), TICURSES_OK);
    is(__LINE__, (int)handed_len, 0);
}

int main(void) {
    memset(letters, 'a', LONGEST);
    refused();
    numbers();
    characters();
    lengths();
    is(__LINE__, ticurses_callf(&session, "doupdate"), TICURSES_OK);
    is(__LINE__, (int)handed_len, 8);
    is(__LINE__, ticurses_callf(&session, "addstr 0 %s", letters), TICURSES_OK);
    is(__LINE__, (int)handed_len, 9 + LONGEST);
    return faults != 0;
}
