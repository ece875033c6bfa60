/* Termcap's me. A program of termcap has no sgr and sets the other character set by itself, so what ends its
 * attributes must leave the character set as it is. sgr0 often doesn't: it has rmacs within, as ncurses' rule here
 * finds out from sgr. */
#include "private.h"

#include <ctype.h>
#include <stdlib.h>
#include <string.h>

/* The length of a control sequence's beginning; 0 if the text doesn't begin with one. The single byte that stands for
 * ESC [ counts as none, as in ncurses. */
static size_t opening(const char *text) {
    return text[0] == '\033' && text[1] == '[' ? 2 : 0;
}

/* The text after a parameter 0 of a control sequence. */
static const char *after_zero(const char *text) {
    if (text[0] != '0') return text;
    if (text[1] == ';') return text + 2;
    return isalpha((unsigned char)text[1]) ? text + 1 : text;
}

/* Whether one of the texts begins with the other, apart from a parameter 0. */
static bool are_similar(const char *one, const char *other) {
    size_t len, other_len;
    if (opening(one) && opening(one) == opening(other)) {
        one += opening(one);
        other += opening(other);
        if (*one != *other) {
            one = after_zero(one);
            other = after_zero(other);
        }
    }
    len = strlen(one);
    other_len = strlen(other);
    return len && other_len && strncmp(one, other, len < other_len ? len : other_len) == 0;
}

/* A copy of the text, in which `first` comes last if the text begins with it. Null if memory ran out. */
static char *turned(const char *text, const char *first) {
    size_t len = strlen(text), first_len = first ? strlen(first) : 0;
    char *copy = malloc(len + 1);
    if (!copy) return NULL;
    if (first_len >= len || strncmp(text, first ? first : "", first_len) != 0) first_len = 0;
    memcpy(copy, text + first_len, len - first_len);
    memcpy(copy + len - first_len, text, first_len);
    copy[len] = 0;
    return copy;
}

/* What sgr sends for no attribute, or for the other character set alone, with `first` last. */
static char *without_attributes(const TERMINAL *terminal, int is_alternate, const char *first) {
    int32_t numbers[9] = {0, 0, 0, 0, 0, 0, 0, 0, is_alternate};
    const char *bytes = tinfo_expand(terminal->strings[TINFO_AT_set_attributes], numbers, 9);
    return bytes ? turned(bytes, first) : NULL;
}

/* Removes `count` bytes of a text. */
static void cut(char *at, size_t count) {
    memmove(at, at + count, strlen(at + count) + 1);
}

/* The text after a delay. */
static const char *after_delay(const char *text) {
    if (text[0] != '$' || text[1] != '<') return text;
    text += 2 + strspn(text + 2, "0123456789/");
    return *text == '>' ? text + 1 : text;
}

/* The length of `part` at the beginning of the text, without a delay at its end; all delays are alike. 0 if it isn't
 * there. */
static size_t matched(const char *part, const char *text) {
    const char *begin = text, *end = text;
    while (*part) {
        if (*part != *text) return 0;
        if (after_delay(part) != part && after_delay(text) != text) {
            part = after_delay(part);
            text = after_delay(text);
        } else {
            part++;
            end = ++text;
        }
    }
    return (size_t)(end - begin);
}

/* Removes rmacs from what sgr sends for no attribute. Returns whether it was there. */
static bool cut_rmacs(char *off, const char *rmacs) {
    size_t last = strlen(off) > strlen(rmacs) ? strlen(off) - strlen(rmacs) : 0;
    for (size_t at = 0; last > 0 && at <= last; at++) {
        if (matched(rmacs, off + at) > 0) {
            cut(off + at, matched(rmacs, off + at));
            return true;
        }
    }
    return false;
}

/* Removes a parameter 10, which ends other fonts. Returns whether it was there. */
static bool cut_ten(char *off) {
    size_t begin = opening(off), len = strlen(off);
    const char *ten;
    char *found;
    if (!begin || off[len - 1] != 'm') return false;
    ten = after_zero(off + begin);
    if (ten[0] != '1' || after_zero(ten + 1) == ten + 1) return false;
    found = off + (ten - off);
    if (found[-1] == ';') found--;
    cut(found, (size_t)(after_zero(ten + 1) - found));
    return true;
}

/* The text that ends attributes and leaves the character set; null if it is sgr0 itself, or memory ran out. It may be
 * one of the three texts, which are changed. */
static char *chosen(const TERMINAL *terminal, char *on, char *off, char *end) {
    const char *rmacs = terminal->strings[TINFO_AT_exit_alt_charset_mode];
    char *found;
    if (!are_similar(off, end) || are_similar(off, on)) return NULL;
    if ((rmacs && cut_rmacs(off, rmacs)) || cut_ten(off)) return off;
    found = strstr(end, off);
    if (!found || strcmp(end, off) == 0) return off;
    cut(found, strlen(off));
    return end;
}

void tinfo_make_plain(TERMINAL *terminal) {
    char **strings = terminal->strings, *on, *off, *end, *plain = NULL;
    const char *all = strings[TINFO_AT_exit_attribute_mode], *rmacs = strings[TINFO_AT_exit_alt_charset_mode];
    if (terminal->plain || !all || !*all || !strings[TINFO_AT_set_attributes]) return;
    on = without_attributes(terminal, 1, strings[TINFO_AT_enter_alt_charset_mode]);
    off = without_attributes(terminal, 0, rmacs);
    end = turned(all, rmacs);
    if (on && off && end) plain = chosen(terminal, on, off, end);
    if (plain && strcmp(plain, all) != 0) terminal->plain = turned(plain, NULL);
    free(on);
    free(off);
    free(end);
}
