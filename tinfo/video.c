/* Attributes and the cursor, by strings of the current terminal. */
#include "private.h"

#include <stdio.h>

static int put_out(int byte) {
    return putchar(byte);
}

/* Sends a string if there is one. */
static void send(const char *string, int (*put)(int)) {
    if (string) tputs(string, 1, put);
}

/* Sends the strings that set single attributes, after what ends all of them. */
static void send_each(attr_t attrs, int (*put)(int)) {
    static const struct {
        attr_t attr;
        int at;
    } modes[] = {
        {A_ALTCHARSET, TINFO_AT_enter_alt_charset_mode}, {A_BLINK, TINFO_AT_enter_blink_mode},
        {A_BOLD, TINFO_AT_enter_bold_mode},              {A_DIM, TINFO_AT_enter_dim_mode},
        {A_REVERSE, TINFO_AT_enter_reverse_mode},        {A_STANDOUT, TINFO_AT_enter_standout_mode},
        {A_INVIS, TINFO_AT_enter_secure_mode},           {A_UNDERLINE, TINFO_AT_enter_underline_mode},
    };
    send(cur_term->strings[TINFO_AT_exit_attribute_mode], put);
    for (size_t at = 0; at < sizeof modes / sizeof *modes; at++)
        if (attrs & modes[at].attr) send(cur_term->strings[modes[at].at], put);
}

/* Sends sgr for these attributes. */
static int send_all(attr_t attrs, int (*put)(int)) {
    static const attr_t order[] = {A_STANDOUT, A_UNDERLINE, A_REVERSE, A_BLINK,     A_DIM,
                                   A_BOLD,     A_INVIS,     A_PROTECT, A_ALTCHARSET};
    int32_t numbers[9];
    const char *bytes;
    for (size_t at = 0; at < 9; at++) numbers[at] = (attrs & order[at]) != 0;
    bytes = tinfo_expand(cur_term->strings[TINFO_AT_set_attributes], numbers, 9);
    return bytes ? tputs(bytes, 1, put) : ERR;
}

int vid_puts(attr_t attrs, short pair, void *options, int (*put)(int)) {
    static attr_t before;
    char **strings = cur_term ? cur_term->strings : NULL;
    (void)pair;
    attrs &= A_ATTRIBUTES & ~A_COLOR;
    if (options || !strings) return ERR;
    if (attrs == before) return OK;
    if (attrs == A_NORMAL && strings[TINFO_AT_exit_attribute_mode]) {
        if (before & A_ALTCHARSET) send(strings[TINFO_AT_exit_alt_charset_mode], put);
        send(strings[TINFO_AT_exit_attribute_mode], put);
    } else if (strings[TINFO_AT_set_attributes]) {
        if (send_all(attrs, put) != OK) return ERR;
    } else {
        send_each(attrs, put);
    }
    before = attrs;
    return OK;
}

int vid_attr(attr_t attrs, short pair, void *options) {
    return vid_puts(attrs, pair, options, put_out);
}

int vidputs(chtype attrs, int (*put)(int)) {
    return vid_puts(attrs, 0, NULL, put);
}

int vidattr(chtype attrs) {
    return vid_puts(attrs, 0, NULL, put_out);
}
