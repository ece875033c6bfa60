/* random_formats SEED COUNT: random formats, beside what snprintf writes. Directives take an int, a text, an int and a
 * text in turn; rooms have exactly the bytes that are allowed, so that the address sanitizer sees any other. */
#include <ticurses.h>

#include <limits.h>
#include <string.h>

static const char *const of_numbers[] = {"%d", "%u", "%x", "%02x", "%c", "%5d", "%-4d",
                                         "%X", "%o", "%i", "%+d", "%03x", "%%%d", "%.0d"};
static const char *const of_texts[] = {"%s", "%.3s", "%8s", "%-5s", "%.0s", "%s%%"};
static const char *const between[] = {"", " ", "move ", "\n", "addstr 0 a text of some length", "100%%", "/B", "\t"};
static unsigned long state;
static char handed[1 << 14];
static size_t handed_len;

static unsigned any(unsigned below) {
    state = state * 6364136223846793005ul + 1442695040888963407ul;
    return (unsigned)(state >> 33) % below;
}

int32_t ticurses_raw_call(ticurses *session, const uint8_t *text, size_t len) {
    (void)session;
    handed_len = len;
    if (len <= sizeof handed) memcpy(handed, text, len);
    return TICURSES_OK;
}

/* The text that the header writes by itself to a room of `len` bytes. */
static int own(char *room, size_t len, const char *format, ...) {
    va_list rest;
    int result;
    va_start(rest, format);
    result = ticurses_format(room, len, format, rest);
    va_end(rest);
    return result;
}

static int number(void) {
    static const int tried[] = {0, 1, -1, 9, 10, 99, 100, 255, 256, 1000, INT_MAX, INT_MIN};
    return any(3) ? tried[any(sizeof tried / sizeof *tried)] : (int)(state >> 20);
}

static char *text(size_t most) {
    size_t len = any(4) ? any(12) : any((unsigned)most);
    char *made = malloc(len + 1);
    for (size_t at = 0; at < len; at++) made[at] = (char)(1 + any(255));
    made[len] = 0;
    return made;
}

static void add(char *format, const char *const *kinds, unsigned count) {
    strcat(strcat(format, between[any(8)]), kinds[any(count)]);
}

static int try_one(void) {
    static ticurses session;
    static char wanted[1 << 14];
    char format[256] = "", *one = text(900), *other = text(900), *room;
    int first = number(), second = number(), len, made;
    size_t room_len = any(700);
    for (unsigned part = 0, parts = any(5); part < parts; part++)
        add(format, part % 2 ? of_texts : of_numbers, part % 2 ? 6 : 14);
    len = snprintf(wanted, sizeof wanted, format, first, one, second, other);
    handed_len = 0;
    made = ticurses_callf(&session, format, first, one, second, other);
    if (made != TICURSES_OK || handed_len != (size_t)len || memcmp(handed, wanted, handed_len)) {
        printf("\"%s\" makes %zu bytes, and snprintf %d\n", format, handed_len, len);
        return 1;
    }
    room = malloc(room_len ? room_len : 1);
    made = own(room, room_len, format, first, one, second, other);
    if (made >= 0 && (made != len || memcmp(room, wanted, (size_t)made))) {
        printf("\"%s\" alone makes %d bytes in a room of %zu, and snprintf %d\n", format, made, room_len, len);
        return 1;
    }
    free(room);
    free(one);
    free(other);
    return 0;
}

int main(int argc, char **argv) {
    if (argc != 3) return 2;
    state = strtoul(argv[1], NULL, 10);
    for (unsigned long left = strtoul(argv[2], NULL, 10); left > 0; left--)
        if (try_one()) return 1;
    return 0;
}
