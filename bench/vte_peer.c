/* GNOME's terminal widget (libvte) beside ticurses: feeds a file to it, without history, and prints the text of its screen.
   The widget is never shown, but GTK needs a display: xvfb-run has one.   vte_peer ROWS COLS FILE
   cc -O2 vte_peer.c $(pkg-config --cflags --libs vte-2.91) */
#include <stdio.h>
#include <stdlib.h>
#include <string.h>
#include <vte/vte.h>

static void answered(VteTerminal *terminal, char *text, guint len, gpointer is_done) {
    (void)terminal, (void)text, (void)len;
    *(int *)is_done = 1;
}

/* Waits until the terminal has processed all its input, which it shows by its answer to a query at the end. */
static void settle(VteTerminal *terminal) {
    int is_done = 0;
    gulong handler = g_signal_connect(terminal, "commit", G_CALLBACK(answered), &is_done);

    vte_terminal_feed(terminal, "\033[5n", -1);
    while (!is_done) g_main_context_iteration(NULL, TRUE);
    g_signal_handler_disconnect(terminal, handler);
}

static void print_screen(VteTerminal *terminal, long rows, long cols) {
    long col, last;

    /* the widget counts rows from the first that ever was; the cursor, on the last row, says the number of that one */
    vte_terminal_feed(terminal, "\033[r\033[?6l\033[999;1H", -1);
    settle(terminal);
    vte_terminal_get_cursor_position(terminal, &col, &last);
    for (long row = last - rows + 1; row <= last; row++) {
        char *text = vte_terminal_get_text_range(terminal, row, 0, row, cols, NULL, NULL, NULL);

        text[strcspn(text, "\n")] = 0;
        puts(text);
        g_free(text);
    }
}

int main(int argc, char **argv) {
    static char bytes[16777216];
    FILE *file;
    VteTerminal *terminal;
    size_t len;

    if (argc != 4) return 2;
    file = fopen(argv[3], "rb");
    if (!file || !gtk_init_check(NULL, NULL)) return 3;
    len = fread(bytes, 1, sizeof bytes, file);
    terminal = VTE_TERMINAL(g_object_ref_sink(vte_terminal_new()));
    vte_terminal_set_size(terminal, atoi(argv[2]), atoi(argv[1]));
    vte_terminal_set_scrollback_lines(terminal, 0);
    vte_terminal_feed(terminal, bytes, (gssize)len);
    settle(terminal);
    print_screen(terminal, atoi(argv[1]), atoi(argv[2]));
    return 0;
}
