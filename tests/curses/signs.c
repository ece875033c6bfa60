/* signs: draws each character of ACS_* after its name, lines and a box of the default characters; after a key it ends
 * and says how the terminal's colors are answered. */
#include <curses.h>

#include <stdio.h>

int main(void) {
    initscr();
    noecho();
    const struct {
        const char *name;
        chtype sign;
    } signs[] = {
        {"LARROW", ACS_LARROW},     {"RARROW", ACS_RARROW},     {"UARROW", ACS_UARROW},     {"DARROW", ACS_DARROW},
        {"BLOCK", ACS_BLOCK},       {"BOARD", ACS_BOARD},       {"LANTERN", ACS_LANTERN},   {"DIAMOND", ACS_DIAMOND},
        {"CKBOARD", ACS_CKBOARD},   {"DEGREE", ACS_DEGREE},     {"PLMINUS", ACS_PLMINUS},   {"BULLET", ACS_BULLET},
        {"ULCORNER", ACS_ULCORNER}, {"LLCORNER", ACS_LLCORNER}, {"URCORNER", ACS_URCORNER}, {"LRCORNER", ACS_LRCORNER},
        {"LTEE", ACS_LTEE},         {"RTEE", ACS_RTEE},         {"BTEE", ACS_BTEE},         {"TTEE", ACS_TTEE},
        {"HLINE", ACS_HLINE},       {"VLINE", ACS_VLINE},       {"PLUS", ACS_PLUS},         {"S1", ACS_S1},
        {"S3", ACS_S3},             {"S7", ACS_S7},             {"S9", ACS_S9},             {"LEQUAL", ACS_LEQUAL},
        {"GEQUAL", ACS_GEQUAL},     {"PI", ACS_PI},             {"NEQUAL", ACS_NEQUAL},     {"STERLING", ACS_STERLING},
    };
    for (size_t at = 0; at < sizeof signs / sizeof *signs; at++) {
        mvprintw((int)(at % 16), at < 16 ? 0 : 20, "%-10s ", signs[at].name);
        addch(signs[at].sign);
        addch('|');
    }
    mvhline(17, 0, 0, 12);
    mvvline(17, 15, 0, 3);
    WINDOW *framed = newwin(4, 12, 18, 20);
    box(framed, 0, 0);
    refresh();
    wrefresh(framed);
    getch();
    int answer = start_color(), colors = has_colors();
    endwin();
    printf("start_color %d, has_colors %d\n", answer, colors);
    return 0;
}
