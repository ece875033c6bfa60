/* player SOURCE NAME ROWS COLS CERTIFICATE SCRIPT PIECE: makes the calls of a script, one line at a time, and writes
 * their output in pieces of PIECE bytes. For a line that isn't done it prints `call NUMBER: CODE` on standard error. A
 * name `-` means a compiled entry, and a certificate `-` none. */
#include <ticurses.h>

#include <string.h>

struct file {
    char *bytes;
    size_t len;
};

static struct file read_file(const char *path) {
    struct file file = {NULL, 0};
    FILE *stream = strcmp(path, "-") ? fopen(path, "rb") : NULL;
    char piece[4096];
    size_t count;
    if (!stream) return file;
    while ((count = fread(piece, 1, sizeof piece, stream)) > 0) {
        file.bytes = (char *)realloc(file.bytes, file.len + count);
        memcpy(file.bytes + file.len, piece, count);
        file.len += count;
    }
    fclose(stream);
    return file;
}

static void drain(ticurses *session, size_t size) {
    char *piece = (char *)malloc(size);
    size_t count;
    while ((count = ticurses_output(session, piece, size)) > 0) fwrite(piece, 1, count, stdout);
    free(piece);
}

static void play(ticurses *session, struct file script, size_t size) {
    int number = 0;
    for (size_t from = 0; from < script.len;) {
        const char *line = script.bytes + from, *end = (const char *)memchr(line, '\n', script.len - from);
        size_t len = end ? (size_t)(end - line) : script.len - from;
        if (len && *line != '#') {
            int code = ticurses_call(session, line, len);
            number++;
            if (code) fprintf(stderr, "call %d: %d\n", number, code);
        }
        drain(session, size);
        from += len + 1;
    }
}

int main(int argc, char **argv) {
    ticurses session = {0, 0};
    if (argc != 8) return 2;
    struct file entry = read_file(argv[1]), certificate = read_file(argv[5]), script = read_file(argv[6]);
    size_t name_len = strcmp(argv[2], "-") ? strlen(argv[2]) : 0;
    int code = ticurses_open(&session, entry.bytes, entry.len, argv[2], name_len, (uint16_t)atoi(argv[3]),
                             (uint16_t)atoi(argv[4]), certificate.bytes, certificate.len);
    if (code) fprintf(stderr, "open: %d\n", code);
    else play(&session, script, (size_t)atol(argv[7]));
    ticurses_close(&session);
    free(entry.bytes);
    free(certificate.bytes);
    free(script.bytes);
    return code != 0;
}
