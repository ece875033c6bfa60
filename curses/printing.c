/* printf and scanf for windows. */
#include "private.h"

#include <stdlib.h>
#include <string.h>

/* the largest width or precision that is printed */
enum { WIDEST = 1048576 };

/* Reads a width or a precision, which may be an argument. Returns 0 if there is none. */
static long number_of(const char **at, va_list *rest) {
    long number = 0;
    if (**at == '*') {
        (*at)++;
        return va_arg(*rest, int);
    }
    for (; **at >= '0' && **at <= '9'; (*at)++)
        if (number <= WIDEST) number = number * 10 + (**at - '0');
    return number;
}

static void skip_integer(char modifier, bool is_double, va_list *rest) {
    if (modifier == 'l' && !is_double) va_arg(*rest, long);
    else if (modifier == 'l') va_arg(*rest, long long);
    else if (modifier == 'j') va_arg(*rest, intmax_t);
    else if (modifier == 'z') va_arg(*rest, size_t);
    else if (modifier == 't') va_arg(*rest, ptrdiff_t);
    else va_arg(*rest, int);
}

/* Passes over the argument of a conversion. Returns false if it is none that the standard has. */
static bool skip_argument(const char **at, va_list *rest) {
    const char *modifier = *at;
    *at += strspn(*at, "hlLjzt");
    if (!**at) return false;
    if (strchr("diouxX", **at)) skip_integer(*modifier, modifier[0] == modifier[1], rest);
    else if (**at == 'c') va_arg(*rest, int);
    else if (strchr("aAeEfFgG", **at) && *modifier == 'L') va_arg(*rest, long double);
    else if (strchr("aAeEfFgG", **at)) va_arg(*rest, double);
    else if (strchr("spn", **at)) va_arg(*rest, void *);
    else return **at == '%';
    return true;
}

/* Whether the next directive of the format has a width or a precision that would keep printf busy for seconds. Passes
 * over it, and to the format's end after one that isn't known. */
static bool is_huge(const char **at, va_list *rest) {
    long width, precision = 0;
    *at += 1 + strspn(*at + 1, "-+ #0'");
    width = number_of(at, rest);
    if (**at == '.') {
        (*at)++;
        precision = number_of(at, rest);
    }
    if (!skip_argument(at, rest)) {
        *at += strlen(*at);
        return false;
    }
    /* that of a text only makes it shorter */
    if (*(*at)++ == 's') precision = 0;
    return width > WIDEST || width < -WIDEST || precision > WIDEST;
}

static bool has_huge(const char *format, va_list rest) {
    va_list again;
    bool is_found = false;
    va_copy(again, rest);
    while (!is_found && (format = strchr(format, '%'))) is_found = is_huge(&format, &again);
    va_end(again);
    return is_found;
}

int vw_printw(WINDOW *window, const char *format, va_list rest) {
    char room[512], *text = room;
    va_list again;
    int len, code;
    if (!tcu_is_own(window) || !format || has_huge(format, rest)) return ERR;
    va_copy(again, rest);
    len = vsnprintf(room, sizeof room, format, rest);
    if (len >= (int)sizeof room) {
        text = malloc((size_t)len + 1);
        if (text) vsnprintf(text, (size_t)len + 1, format, again);
    }
    va_end(again);
    code = len < 0 || !text ? ERR : waddnstr(window, text, len);
    if (text != room) free(text);
    return code;
}

int vwprintw(WINDOW *window, const char *format, va_list rest) {
    return vw_printw(window, format, rest);
}

int wprintw(WINDOW *window, const char *format, ...) {
    va_list rest;
    int code;
    va_start(rest, format);
    code = vw_printw(window, format, rest);
    va_end(rest);
    return code;
}

int printw(const char *format, ...) {
    va_list rest;
    int code;
    va_start(rest, format);
    code = vw_printw(stdscr, format, rest);
    va_end(rest);
    return code;
}

int mvprintw(int y, int x, const char *format, ...) {
    va_list rest;
    int code;
    if (move(y, x) != OK) return ERR;
    va_start(rest, format);
    code = vw_printw(stdscr, format, rest);
    va_end(rest);
    return code;
}

int mvwprintw(WINDOW *window, int y, int x, const char *format, ...) {
    va_list rest;
    int code;
    if (wmove(window, y, x) != OK) return ERR;
    va_start(rest, format);
    code = vw_printw(window, format, rest);
    va_end(rest);
    return code;
}

/* Reads a line of at most 255 characters. */
int vw_scanw(WINDOW *window, const char *format, va_list rest) {
    char line[256];
    if (!format || wgetnstr(window, line, (int)sizeof line - 1) != OK) return ERR;
    return vsscanf(line, format, rest);
}

int vwscanw(WINDOW *window, const char *format, va_list rest) {
    return vw_scanw(window, format, rest);
}

int wscanw(WINDOW *window, const char *format, ...) {
    va_list rest;
    int count;
    va_start(rest, format);
    count = vw_scanw(window, format, rest);
    va_end(rest);
    return count;
}

int scanw(const char *format, ...) {
    va_list rest;
    int count;
    va_start(rest, format);
    count = vw_scanw(stdscr, format, rest);
    va_end(rest);
    return count;
}

int mvscanw(int y, int x, const char *format, ...) {
    va_list rest;
    int count;
    if (move(y, x) != OK) return ERR;
    va_start(rest, format);
    count = vw_scanw(stdscr, format, rest);
    va_end(rest);
    return count;
}

int mvwscanw(WINDOW *window, int y, int x, const char *format, ...) {
    va_list rest;
    int count;
    if (wmove(window, y, x) != OK) return ERR;
    va_start(rest, format);
    count = vw_scanw(window, format, rest);
    va_end(rest);
    return count;
}
