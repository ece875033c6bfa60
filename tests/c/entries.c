/* entries TERM: the length of the entry that is found, and the size of the terminal at standard output. */
#include <ticurses_terminal.h>

int main(int argc, char **argv) {
    static unsigned char room[TICURSES_ENTRY_MAX];
    uint16_t rows = 7, cols = 8;
    size_t length = ticurses_entry(argc > 1 ? argv[1] : NULL, room, sizeof room);
    int code = ticurses_size(STDOUT_FILENO, &rows, &cols);
    ticurses none = {0, 0};
    printf("%zu %d %d %d", length, code, rows, cols);
    printf(" %d %d", ticurses_size(STDOUT_FILENO, NULL, &cols), ticurses_send(NULL, STDOUT_FILENO));
    printf(" %d\n", ticurses_send(&none, STDOUT_FILENO));
    return 0;
}
