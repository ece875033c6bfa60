/* loser SOURCE NAME ROWS COLS SCRIPT PLACE..: plays the lines of SCRIPT, and loses the waiting bytes each time that as
 * many bytes as the next PLACE have gone out. Standard output has the bytes that went out. PLACEs rise. */
#include <ticurses.h>

#include <string.h>

enum { ROOM = 1 << 20 };

static char source[ROOM], script[ROOM];

struct places {
    char **next, **end;
};

static size_t read_file(const char *path, char *room) {
    FILE *stream = fopen(path, "rb");
    size_t len = stream ? fread(room, 1, ROOM - 1, stream) : 0;
    if (stream) fclose(stream);
    room[len] = 0;
    return len;
}

/* Sends what waits, up to the next place, where the rest is lost. `went` counts what went out in all. */
static void drain(ticurses *session, struct places *places, size_t *went) {
    char piece[4096];
    size_t count;
    while ((count = ticurses_output(session, piece, sizeof piece)) > 0) {
        size_t place = places->next < places->end ? strtoul(*places->next, NULL, 10) : SIZE_MAX;
        if (*went + count > place) {
            size_t kept = place > *went ? place - *went : 0;
            fwrite(piece, 1, kept, stdout);
            *went += kept;
            places->next++;
            ticurses_lost(session);
            return;
        }
        fwrite(piece, 1, count, stdout);
        *went += count;
    }
}

int main(int argc, char **argv) {
    ticurses session = {0, 0};
    size_t source_len, went = 0;
    if (argc < 6) return 2;
    struct places places = {argv + 6, argv + argc};
    source_len = read_file(argv[1], source);
    read_file(argv[5], script);
    if (ticurses_open(&session, source, source_len, argv[2], strlen(argv[2]), (uint16_t)atoi(argv[3]),
                      (uint16_t)atoi(argv[4]), NULL, 0))
        return 1;
    for (const char *line = script; *line;) {
        size_t len = strcspn(line, "\n");
        /* a refused call changes nothing */
        ticurses_call(&session, line, len);
        drain(&session, &places, &went);
        line += len + (line[len] == '\n');
    }
    ticurses_close(&session);
    return fflush(stdout) != 0;
}
