/* libvterm beside ticurses: feeds a file to a terminal of ROWS by COLS and prints its screen in the form
   of `ticurses feed`. With a fourth argument it prints only how many microseconds the feeding took.
   cc -O2 peer.c -lvterm */
#include <stdio.h>
#include <stdlib.h>
#include <string.h>
#include <time.h>
#include <vterm.h>

/* the Unicode characters that libvterm has for 0x60 to 0x7e of the graphic set */
static const unsigned graphic[31] = {
    0x25c6, 0x2592, 0x2409, 0x240c, 0x240d, 0x240a, 0x00b0, 0x00b1, 0x2424, 0x240b, 0x2518, 0x2510, 0x250c,
    0x2514, 0x253c, 0x23ba, 0x23bb, 0x2500, 0x23bc, 0x23bd, 0x251c, 0x2524, 0x2534, 0x252c, 0x2502, 0x2a7d,
    0x2a7e, 0x03c0, 0x2260, 0x00a3, 0x00b7,
};

struct look {
    char byte;
    char style[16];
};

static int color(VTermState *state, const VTermColor *c, int is_default)
{
    if (is_default)
        return -1;
    for (int i = 0; i < 8; i++) {
        VTermColor p;
        vterm_state_get_palette_color(state, i, &p);
        if (VTERM_COLOR_IS_INDEXED(c) ? c->indexed.idx == i : vterm_color_is_equal(c, &p))
            return i;
    }
    return 9;
}

static struct look look_at(VTerm *vt, VTermScreen *screen, int row, int col)
{
    VTermState *state = vterm_obtain_state(vt);
    VTermPos pos = {.row = row, .col = col};
    VTermScreenCell cell;
    struct look look = {' ', ""};
    char *s = look.style;
    int is_graphic = 0, fg, bg;

    vterm_screen_get_cell(screen, pos, &cell);
    if (cell.chars[0] >= 0x80) {
        look.byte = '?';
        for (int i = 0; i < 31; i++)
            if (graphic[i] == cell.chars[0]) {
                look.byte = (char)(0x60 + i);
                is_graphic = 1;
            }
    } else if (cell.chars[0]) {
        look.byte = (char)cell.chars[0];
    }
    fg = color(state, &cell.fg, VTERM_COLOR_IS_DEFAULT_FG(&cell.fg));
    bg = color(state, &cell.bg, VTERM_COLOR_IS_DEFAULT_BG(&cell.bg));
    if (!cell.chars[0]) {
        /* of an erased cell, which has no character, only the background is compared */
        if (bg >= 0)
            sprintf(s, "b%d", bg);
        return look;
    }
    if (cell.attrs.bold)
        *s++ = 'B';
    if (cell.attrs.underline)
        *s++ = 'U';
    if (cell.attrs.blink)
        *s++ = 'K';
    if (cell.attrs.reverse)
        *s++ = 'R';
    if (is_graphic)
        *s++ = 'G';
    if (fg >= 0)
        s += sprintf(s, "f%d", fg);
    if (bg >= 0)
        s += sprintf(s, "b%d", bg);
    return look;
}

static int shown = 1;

static int settermprop(VTermProp prop, VTermValue *val, void *user)
{
    (void)user;
    if (prop == VTERM_PROP_CURSORVISIBLE)
        shown = val->boolean;
    return 1;
}

static const VTermScreenCallbacks callbacks = {.settermprop = settermprop};

static void print_screen(VTerm *vt, VTermScreen *screen, int rows, int cols)
{
    VTermPos at;
    for (int r = 0; r < rows; r++) {
        for (int c = 0; c < cols; c++)
            putchar(look_at(vt, screen, r, c).byte);
        putchar('\n');
    }
    vterm_state_get_cursorpos(vterm_obtain_state(vt), &at);
    printf("cursor %d %d%s\n", at.row, at.col, shown ? "" : " hidden");
    for (int r = 0; r < rows; r++)
        for (int c = 0, first = 0; c < cols; c++) {
            struct look here = look_at(vt, screen, r, c);
            if (c + 1 < cols && !strcmp(here.style, look_at(vt, screen, r, c + 1).style))
                continue;
            if (here.style[0])
                printf("look %d %d-%d %s\n", r, first, c, here.style);
            first = c + 1;
        }
}

int main(int argc, char **argv)
{
    if (argc < 4)
        return 2;
    int rows = atoi(argv[1]), cols = atoi(argv[2]);
    FILE *file = fopen(argv[3], "rb");
    static char bytes[16777216];
    if (!file)
        return 3;
    size_t length = fread(bytes, 1, sizeof bytes, file);
    struct timespec from, to;

    VTerm *vt = vterm_new(rows, cols);
    VTermScreen *screen = vterm_obtain_screen(vt);
    vterm_set_utf8(vt, 0);
    vterm_screen_set_callbacks(screen, &callbacks, NULL);
    vterm_screen_reset(screen, 1);
    clock_gettime(CLOCK_MONOTONIC, &from);
    /* in pieces, as libvterm's text function puts four times the piece on the stack */
    for (size_t at = 0; at < length; at += 4096)
        vterm_input_write(vt, bytes + at, length - at < 4096 ? length - at : 4096);
    clock_gettime(CLOCK_MONOTONIC, &to);
    if (argc > 4)
        printf("%ld\n", (to.tv_sec - from.tv_sec) * 1000000 + (to.tv_nsec - from.tv_nsec) / 1000);
    else
        print_screen(vt, screen, rows, cols);
    vterm_free(vt);
    return 0;
}
