/* libtsm beside ticurses: feeds a file to its terminal, without history, and prints the text of the screen.
   tsm_peer ROWS COLS FILE
   cc -O2 tsm_peer.c -ltsm */
#include <libtsm.h>
#include <stdio.h>
#include <stdlib.h>

/* what the terminal answers to queries */
static void ignore(struct tsm_vte *vte, const char *bytes, size_t len, void *data) {
    (void)vte, (void)bytes, (void)len, (void)data;
}

/* Cells come row by row. */
static int print_cell(struct tsm_screen *screen, uint64_t id, const uint32_t *ch, size_t len, unsigned width, unsigned col,
                      unsigned row, const struct tsm_screen_attr *attr, tsm_age_t age, void *data) {
    (void)screen, (void)id, (void)width, (void)attr, (void)age, (void)data;
    if (col == 0 && row > 0) putchar('\n');
    putchar(len > 0 && ch[0] < 128 ? (int)ch[0] : len > 0 ? '?' : ' ');
    return 0;
}

int main(int argc, char **argv) {
    static char bytes[16777216];
    struct tsm_screen *screen;
    struct tsm_vte *vte;
    FILE *file;

    if (argc != 4) return 2;
    file = fopen(argv[3], "rb");
    if (!file || tsm_screen_new(&screen, NULL, NULL)) return 3;
    if (tsm_screen_resize(screen, (unsigned)atoi(argv[2]), (unsigned)atoi(argv[1]))) return 3;
    tsm_screen_set_max_sb(screen, 0);
    if (tsm_vte_new(&vte, screen, ignore, NULL, NULL, NULL)) return 3;
    tsm_vte_input(vte, bytes, fread(bytes, 1, sizeof bytes, file));
    tsm_screen_draw(screen, print_cell, NULL);
    putchar('\n');
    return 0;
}
