/* Sets up a peer's library: the terminal's name and size in the environment, and a file for its output. */
static int out;

static long position(void) {
    return lseek(out, 0, SEEK_CUR);
}

static void prepare(const char *entry, const char *output) {
    char size[16];
    setenv("TERM", entry, 1);
    snprintf(size, sizeof size, "%d", rows);
    setenv("LINES", size, 1);
    snprintf(size, sizeof size, "%d", cols);
    setenv("COLUMNS", size, 1);
    out = open(output, O_RDWR | O_CREAT | O_TRUNC, 0666);
    if (out < 0) exit(3);
}
