/* Sending strings. */
#include "private.h"

#include <stdio.h>
#include <string.h>

/* The rest after the padding whose `$<` comes before `text`; null if that is none. Padding is what ncurses takes for
 * it: digits, or digits after a point, then any `*` and `/`, then one character, which is to be `>`. Somewhere in the
 * text there must be a `>`. */
static const char *after_padding(const char *text) {
    static const char digits[] = "0123456789";
    if (!*text || !strchr("0123456789.", *text) || !strchr(text, '>')) return NULL;
    text += strspn(text, digits);
    if (*text == '.') text += 1 + strspn(text + 1, digits);
    text += strspn(text, "*/");
    return *text ? text + 1 : text;
}

int tputs(const char *string, int lines, int (*put)(int)) {
    (void)lines;
    if (!string || string == (char *)-1) return ERR;
    while (*string) {
        const char *rest = string[0] == '$' && string[1] == '<' ? after_padding(string + 2) : NULL;
        if (rest) {
            string = rest;
        } else {
            /* the character after a dollar sign begins no padding */
            size_t count = string[0] == '$' && string[1] ? 2 : 1;
            while (count-- > 0) put((unsigned char)*string++);
        }
    }
    return OK;
}

static int put_out(int byte) {
    return putchar(byte);
}

int putp(const char *string) {
    return tputs(string, 1, put_out);
}
