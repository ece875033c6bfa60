/* Termcap's calls, over the current terminal's entry. */
#include "private.h"

#include <stdlib.h>
#include <string.h>
#include <unistd.h>

char PC, *UP, *BC;
short ospeed;

/* The place of a code in a list, by its first two bytes; -1 if it isn't there. Of two with the same code (ML) it is the
 * last one, as in ncurses. */
static int place_of(const char *code, const char *const *list) {
    int found = -1;
    for (int at = 0; code[0] && list[at]; at++)
        if (list[at][0] == code[0] && list[at][1] == code[1]) found = at;
    return found;
}

/* The terminal of the last tgetent, and its buffer. */
static TERMINAL *last;
static const char *last_buffer;

void tinfo_forget(const TERMINAL *terminal) {
    if (last == terminal) last = NULL;
}

/* Frees the terminal of the last call if its buffer was the same: a program doesn't use its strings any more. */
static void replace_last(const char *buffer) {
    if (last && last != cur_term && last_buffer == buffer) del_curterm(last);
    last_buffer = buffer;
    last = cur_term;
}

/* Gives the obsolete capabilities the values that the others have, as termcap's programs know them. */
static void complete(TERMINAL *terminal) {
    char **strings = terminal->strings;
    const char *left = strings[TINFO_AT_cursor_left], *newline = strings[TINFO_AT_newline];
    int *numbers = terminal->numbers;
    if (left) {
        terminal->flags[TINFO_AT_backspaces_with_bs] = strcmp(left, "\b") == 0;
        if (strcmp(left, "\b") != 0) strings[TINFO_AT_backspace_if_not_bs] = strings[TINFO_AT_cursor_left];
    }
    terminal->flags[TINFO_AT_linefeed_is_newline] = newline && strcmp(newline, "\n") == 0;
    if (!strings[TINFO_AT_termcap_init2]) {
        strings[TINFO_AT_termcap_init2] = strings[TINFO_AT_init_3string];
        strings[TINFO_AT_init_3string] = NULL;
    }
    if (!strings[TINFO_AT_termcap_reset] && !strings[TINFO_AT_reset_1string] && !strings[TINFO_AT_reset_3string]) {
        strings[TINFO_AT_termcap_reset] = strings[TINFO_AT_reset_2string];
        strings[TINFO_AT_reset_2string] = NULL;
    }
    if (numbers[TINFO_AT_magic_cookie_glitch_ul] < 0 && strings[TINFO_AT_enter_underline_mode])
        tinfo_set_number(terminal, TINFO_AT_magic_cookie_glitch_ul, numbers[TINFO_AT_magic_cookie_glitch]);
}

int tgetent(char *buffer, const char *name) {
    int status = -1;
    tinfo_set_up(name, STDOUT_FILENO, &status, true);
    PC = 0;
    UP = BC = NULL;
    if (status != 1) return status;
    replace_last(buffer);
    complete(cur_term);
    if (cur_term->strings[TINFO_AT_pad_char]) PC = cur_term->strings[TINFO_AT_pad_char][0];
    UP = cur_term->strings[TINFO_AT_cursor_up];
    BC = cur_term->strings[TINFO_AT_backspace_if_not_bs];
    tinfo_make_plain(cur_term);
    return status;
}

int tgetflag(const char *code) {
    int at = cur_term ? place_of(code, boolcodes) : -1;
    return at < 0 ? 0 : cur_term->flags[at];
}

int tgetnum(const char *code) {
    int at = cur_term ? place_of(code, numcodes) : -1;
    return at < 0 ? -1 : cur_term->numbers[at];
}

char *tgetstr(const char *code, char **area) {
    int at = cur_term ? place_of(code, strcodes) : -1;
    char *string = at < 0 ? NULL : cur_term->strings[at];
    if (string && at == TINFO_AT_exit_attribute_mode && cur_term->plain) string = cur_term->plain;
    if (string && area && *area) {
        size_t len = strlen(string) + 1;
        string = memcpy(*area, string, len);
        *area += len;
    }
    return string;
}

char *tgoto(const char *string, int column, int line) {
    int32_t numbers[] = {line, column};
    return tinfo_expand(string, numbers, 2);
}
