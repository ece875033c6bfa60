/* Parameter strings, which the proved library expands. */
#include "private.h"

#include <stdarg.h>
#include <stdlib.h>
#include <string.h>

/* The bytes of the last two expansions. The next one goes to the place of the older, so that a program may expand the
 * bytes of the last one, or pass them as a text. */
static struct {
    char *bytes;
    size_t room;
} places[2], *place = places;

/* The static variables that count: the current terminal's, or those for no terminal. They belong to an entry without
 * capabilities. Null if memory ran out. */
static ticurses_terminfo *variables(void) {
    static ticurses_terminfo own;
    static bool has_own;
    ticurses_terminfo *entry = cur_term ? &cur_term->variables : &own;
    bool *is_open = cur_term ? &cur_term->has_variables : &has_own;
    if (!*is_open) *is_open = ticurses_terminfo_open_bare(entry) == TICURSES_TERMINFO_OK;
    return *is_open ? entry : NULL;
}

/* Makes room for bytes and a zero byte. */
static bool make_room(size_t len) {
    size_t wanted = len < 1023 ? 1024 : len + 1;
    char *at;
    if (place->room > len) return true;
    at = realloc(place->bytes, wanted);
    if (!at) return false;
    place->bytes = at;
    place->room = wanted;
    return true;
}

/* Ends the bytes with a zero byte. One that a string writes itself would end them too; it becomes 128, for which most
 * terminals do what they would do for a zero byte, nothing. */
static char *ended(size_t len) {
    char *bytes = place->bytes, *at = bytes;
    bytes[len] = 0;
    while ((at = memchr(at, 0, len - (size_t)(at - bytes))) != NULL) *at = (char)128;
    place = place == places ? places + 1 : places;
    return bytes;
}

/* The bytes that an expansion of `code` has left in the room, or whose number is `len`. */
static char *fetched(ticurses_terminfo *from, int code, size_t len) {
    if (code == TICURSES_TERMINFO_NO_ROOM && make_room(len))
        code = ticurses_terminfo_expanded(from, place->bytes, place->room - 1, &len);
    return code == TICURSES_TERMINFO_OK ? ended(len) : NULL;
}

/* Expands a string of this length. */
static char *expanded(const char *string, size_t string_len, const int32_t *numbers, size_t count) {
    ticurses_terminfo *from = variables();
    size_t len;
    int code;
    if (!from || !make_room(0)) return NULL;
    code = ticurses_terminfo_expand_numbers(from, string, string_len, numbers, count, place->bytes, place->room - 1,
                                            &len);
    return fetched(from, code, len);
}

char *tinfo_expand(const char *string, const int32_t *numbers, size_t count) {
    return string ? expanded(string, strlen(string), numbers, count) : NULL;
}

/* What is known of a string: its length, and how many parameters it names, which is the highest number after %p. */
struct known {
    const char *at;
    size_t len;
    int named;
    char text[108];
};

static int named(const char *string) {
    int most = 0;
    while (*string && most < TICURSES_TERMINFO_PARAMS) {
        if (*string++ != '%') continue;
        if (string[0] == 'p' && string[1] > '0' + most && string[1] <= '9') most = string[1] - '0';
        /* the character of %'c' is no code */
        if (string[0] == '\'' && string[1]) string++;
        if (*string) string++;
    }
    return most;
}

/* A program expands the same few strings again and again, so what is known of them stays, in a place that the string's
 * address picks. Another string may be there by now: so its text is compared. */
static const struct known *known(const char *string) {
    static struct known table[32], large;
    struct known *it = &table[(uintptr_t)string / 4 % 32];
    size_t len;
    if (it->at == string && strcmp(it->text, string) == 0) return it;
    len = strlen(string);
    if (len >= sizeof it->text) it = &large;
    else memcpy(it->text, string, len + 1);
    it->at = string;
    it->len = len;
    it->named = named(string);
    return it;
}

char *tparm(const char *string, ...) {
    int32_t numbers[TICURSES_TERMINFO_PARAMS];
    const struct known *it;
    va_list rest;
    if (!string) return NULL;
    it = known(string);
    va_start(rest, string);
    for (int at = 0; at < it->named; at++) numbers[at] = (int32_t)va_arg(rest, long);
    va_end(rest);
    return expanded(string, it->len, numbers, (size_t)it->named);
}

char *tiparm(const char *string, ...) {
    int32_t numbers[TICURSES_TERMINFO_PARAMS];
    const struct known *it;
    va_list rest;
    if (!string) return NULL;
    it = known(string);
    va_start(rest, string);
    for (int at = 0; at < it->named; at++) numbers[at] = va_arg(rest, int);
    va_end(rest);
    return expanded(string, it->len, numbers, (size_t)it->named);
}

char *tiparm_s(int count, int texts, const char *string, ...) {
    ticurses_terminfo_param given[TICURSES_TERMINFO_PARAMS] = {{NULL, 0, 0}};
    ticurses_terminfo *from = variables();
    size_t len;
    int code;
    va_list rest;
    if (!string || count < 0 || count > TICURSES_TERMINFO_PARAMS || named(string) > count) return NULL;
    va_start(rest, string);
    for (int at = 0; at < count; at++) {
        if (texts & 1 << at) {
            const char *text = va_arg(rest, const char *);
            given[at].text = text ? text : "";
            given[at].len = strlen(given[at].text);
        } else {
            given[at].number = va_arg(rest, int);
        }
    }
    va_end(rest);
    if (!from || !make_room(0)) return NULL;
    code = ticurses_terminfo_expand(from, string, strlen(string), given, (size_t)count, place->bytes, place->room - 1,
                                    &len);
    return fetched(from, code, len);
}
