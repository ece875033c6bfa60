/* cutter SOURCE NAME ROWS COLS REFRESHES: cuts what three refreshes send at each of its bytes, and has the next refresh
 * repair it. The file REFRESHES has the lines of a script, of which those that begin with `refresh` are the refreshes.
 * For each place it prints `cut PLACE REFRESH LENGTH`, and on the lines below these bytes: those that went out before
 * the cut and those of the repair, and a newline. Output is taken seven bytes at a time. */
#include <ticurses.h>

#include <string.h>

enum { ROOM = 1 << 16 };

static char source[ROOM], script[ROOM];
static char went[ROOM];
static size_t source_len, went_len;

static size_t read_file(const char *path, char *room) {
    FILE *stream = fopen(path, "rb");
    size_t len = stream ? fread(room, 1, ROOM - 1, stream) : 0;
    if (stream) fclose(stream);
    room[len] = 0;
    return len;
}

/* Takes the waiting bytes; returns 1 as soon as `most` bytes have gone out in all. */
static int drain(ticurses *session, size_t most) {
    char piece[7];
    size_t count;
    while ((count = ticurses_output(session, piece, sizeof piece)) > 0) {
        for (size_t at = 0; at < count; at++) {
            if (went_len == most) return 1;
            went[went_len++] = piece[at];
        }
    }
    return 0;
}

/* Makes the calls until a cut after the given number of bytes. Returns the number of the refresh that was cut, 0 for
 * none, and -1 if a call was refused. */
static int play(ticurses *session, size_t most) {
    int refreshes = 0;
    const char *line = script;
    went_len = 0;
    while (*line) {
        size_t len = strcspn(line, "\n");
        if (ticurses_call(session, line, len) != TICURSES_OK) return -1;
        refreshes += !strncmp(line, "refresh", 7);
        if (drain(session, most)) return refreshes;
        line += len + (line[len] == '\n');
    }
    return 0;
}

int main(int argc, char **argv) {
    ticurses session = {0, 0};
    if (argc != 6) return 2;
    source_len = read_file(argv[1], source);
    read_file(argv[5], script);
    for (size_t place = 0;; place++) {
        if (ticurses_open(&session, source, source_len, argv[2], strlen(argv[2]), (uint16_t)atoi(argv[3]),
                          (uint16_t)atoi(argv[4]), NULL, 0))
            return 1;
        int refresh = play(&session, place);
        if (refresh < 0) return 1;
        if (refresh == 0) break;
        if (ticurses_lost(&session) || ticurses_waiting(&session) || ticurses_call(&session, "doupdate", 8))
            return 1;
        drain(&session, ROOM);
        printf("cut %zu %d %zu\n", place, refresh, went_len);
        fwrite(went, 1, went_len, stdout);
        putchar('\n');
    }
    ticurses_close(&session);
    return 0;
}
