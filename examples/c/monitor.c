/* monitor FILE [LOG]: shows a part of a file, which keys move, and below it the last lines of a log as they come. It
 * needs POSIX: termios, poll and signals. */
#define _POSIX_C_SOURCE 200809L
#include <ticurses_terminal.h>

#include <ctype.h>
#include <fcntl.h>
#include <signal.h>
#include <sys/stat.h>

/* the windows: PAGE is a pad, the others are parts of the screen */
enum { FRAME = 1, PAGE, HEAD, LOG, STATUS, HELP };
/* the color pairs */
enum { LIGHT = 1, BAD, WARNING };
/* the most lines or columns of a pad, and the number of lines of the log that are kept */
enum { PAD_MAX = 1000, KEPT = 200 };
/* the kind of the last byte of a key */
enum { PLAIN, ESCAPE, INTRODUCER };

struct text {
    char **lines;
    size_t count, width;
};

struct log {
    int fd;
    char kept[KEPT][256], partial[256];
    size_t count, partial_len;
};

struct monitor {
    ticurses session;
    int code; /* of the first call that was refused */
    char entry[TICURSES_ENTRY_MAX];
    size_t entry_len;
    char *name;
    struct text text;
    struct log log;
    /* the screen and its parts */
    uint16_t rows, cols;
    int page_rows, page_cols, log_rows, pad_rows, pad_cols;
    int is_small, is_helping, is_changed, is_ending;
    /* the first line and column shown, and the first line in the pad */
    int top, left, base;
    /* the output: bytes from `sent` to `taken` of the piece are still to be written */
    int fd, failures;
    char piece[4096];
    size_t taken, sent;
    /* whether a session's screen is on the terminal, and the string that leaves it */
    int is_up;
    char rmcup[64];
    size_t rmcup_len;
    /* the input */
    int key, number;
    struct termios before;
};

static volatile sig_atomic_t resized, stopped, ended;

static void on_signal(int number) {
    /* the size may have changed while it was stopped */
    if (number == SIGWINCH || number == SIGCONT) resized = 1;
    else if (number == SIGTSTP) stopped = 1;
    else ended = number;
}

/* Notes the code of a call; a refused call ends the monitor, which then says why. */
static void note(struct monitor *m, int code) {
    if (code != TICURSES_OK && m->code == TICURSES_OK) m->code = code;
}

static int smaller(int one, int other) {
    return one < other ? one : other;
}
static int larger(int one, int other) {
    return one > other ? one : other;
}

/* -- the text and the log -- */

/* A line as it is drawn: tabs are spaces, and a character that no cell can hold is a question mark. */
static char *drawable(const char *bytes, size_t len) {
    char *line = malloc(PAD_MAX);
    size_t count = 0;
    for (size_t at = 0; line && at < len && count < PAD_MAX - 1; at++) {
        unsigned char byte = (unsigned char)bytes[at];
        size_t copies = byte == '\t' ? 8 - count % 8 : 1;
        while (copies-- > 0 && count < PAD_MAX - 1)
            line[count++] = byte == '\t' ? ' ' : byte < 32 || byte > 126 ? '?' : (char)byte;
    }
    if (line) line[count] = 0;
    return line;
}

static int add_line(struct text *text, const char *bytes, size_t len) {
    char **lines = realloc(text->lines, (text->count + 1) * sizeof *lines);
    if (!lines) return -1;
    text->lines = lines;
    lines[text->count] = drawable(bytes, len);
    if (!lines[text->count]) return -1;
    size_t width = strlen(lines[text->count++]);
    if (width > text->width) text->width = width;
    return 0;
}

static int read_text(struct text *text, const char *path) {
    FILE *file = fopen(path, "rb");
    char *line = NULL;
    size_t room = 0;
    ssize_t len;
    int result = file ? 0 : -1;
    while (result == 0 && (len = getline(&line, &room, file)) > 0)
        result = add_line(text, line, (size_t)len - (line[len - 1] == '\n'));
    if (file && ferror(file)) result = -1;
    free(line);
    if (file) fclose(file);
    return result;
}

static void free_text(struct text *text) {
    for (size_t at = 0; at < text->count; at++) free(text->lines[at]);
    free(text->lines);
}

/* Writes a line of the log below those that are there. */
static void show_logged(struct monitor *m, const char *line) {
    int pair = strstr(line, "error") ? BAD : strstr(line, "warning") ? WARNING : 0;
    if (m->is_small) return;
    note(m, ticurses_callf(&m->session, "scroll %d 1\nmove %d %d 0\ncolor_set %d %d", LOG, LOG, m->log_rows - 1,
                           LOG, pair));
    note(m, ticurses_addstr(&m->session, LOG, line, (size_t)smaller((int)strlen(line), m->cols - 1)));
    note(m, ticurses_callf(&m->session, "color_set %d 0", LOG));
    m->is_changed = 1;
}

static void add_logged(struct monitor *m, const char *bytes, size_t len) {
    char *line = drawable(bytes, len);
    if (!line) return;
    char *kept = m->log.kept[m->log.count++ % KEPT];
    snprintf(kept, sizeof m->log.kept[0], "%s", line);
    free(line);
    show_logged(m, kept);
}

/* Reads what was added to the log. A log that became shorter is read from its start. */
static void follow(struct monitor *m) {
    struct log *log = &m->log;
    char bytes[4096];
    ssize_t count;
    struct stat now;
    if (log->fd < 0) return;
    if (fstat(log->fd, &now) == 0 && now.st_size < lseek(log->fd, 0, SEEK_CUR)) {
        lseek(log->fd, 0, SEEK_SET);
        log->partial_len = 0;
    }
    while ((count = read(log->fd, bytes, sizeof bytes)) > 0) {
        for (ssize_t at = 0; at < count; at++) {
            if (bytes[at] == '\n') {
                add_logged(m, log->partial, log->partial_len);
                log->partial_len = 0;
            } else if (log->partial_len < sizeof log->partial) {
                log->partial[log->partial_len++] = bytes[at];
            }
        }
    }
}

/* -- the screen -- */

/* Writes the lines of the text that are in the pad. */
static void fill_page(struct monitor *m) {
    note(m, ticurses_callf(&m->session, "erase %d", PAGE));
    for (int row = 0; row < m->pad_rows && m->base + row < (int)m->text.count; row++) {
        const char *line = m->text.lines[m->base + row];
        note(m, ticurses_callf(&m->session, "move %d %d 0", PAGE, row));
        note(m, ticurses_addstr(&m->session, PAGE, line, strlen(line)));
    }
}

static void make_help(struct monitor *m) {
    static const char *const lines[] = {
        "up, down, k, j     a line",   "b, space           a page",    "left, right, h, l  eight columns",
        "g, G               the ends", "^L                 draw anew", "q                  quit",
    };
    note(m, ticurses_callf(&m->session, "newwin %d 8 36 1 %d\nbkgd %d 20:%d\nbox %d - -", HELP, (m->cols - 36) / 2,
                           HELP, LIGHT, HELP));
    for (int row = 0; row < 6; row++)
        note(m, ticurses_callf(&m->session, "move %d %d 2\naddstr %d %s", HELP, row + 1, HELP, lines[row]));
}

/* Makes the windows of a screen that is large enough. */
static void make_windows(struct monitor *m) {
    int frame_rows = m->rows - 2 - m->log_rows;
    note(m, ticurses_callf(&m->session, "newwin %d %d %d 0 0\nbox %d - -\nmove %d 0 2\nattron %d B", FRAME,
                           frame_rows, m->cols, FRAME, FRAME, FRAME));
    note(m, ticurses_callf(&m->session, "addstr %d  %.*s ", FRAME, m->cols - 6, m->name));
    note(m, ticurses_callf(&m->session, "newpad %d %d %d", PAGE, m->pad_rows, m->pad_cols));
    note(m, ticurses_callf(&m->session, "newwin %d 1 %d %d 0\nhline %d - %d\nmove %d 0 2\naddstr %d  log ", HEAD,
                           m->cols, frame_rows, HEAD, m->cols, HEAD, HEAD));
    note(m, ticurses_callf(&m->session, "newwin %d %d %d %d 0\nscrollok %d 1", LOG, m->log_rows, m->cols,
                           frame_rows + 1, LOG));
    note(m, ticurses_callf(&m->session, "newwin %d 1 %d %d 0\nbkgd %d 20:%d", STATUS, m->cols, m->rows - 1, STATUS,
                           LIGHT));
    make_help(m);
    fill_page(m);
    for (size_t at = m->log.count > KEPT ? m->log.count - KEPT : 0; at < m->log.count; at++)
        show_logged(m, m->log.kept[at % KEPT]);
}

/* -- the terminal -- */

/* Whether bytes are still to be written. */
static int is_pending(struct monitor *m) {
    return m->sent < m->taken || ticurses_waiting(&m->session) > 0;
}

/* The terminal may show anything, and the next refresh draws all of it. It begins with smcup, so a terminal that has got
 * one gets rmcup before: some keep the cursor of the last smcup alone, which would be this program's. */
static void lose(struct monitor *m) {
    note(m, ticurses_lost(&m->session));
    m->sent = 0;
    m->taken = m->is_up ? m->rmcup_len : 0;
    memcpy(m->piece, m->rmcup, m->taken);
    m->is_changed = 1;
}

/* Writes as much as the descriptor takes now. After an error the next refresh begins anew. */
static void drain(struct monitor *m) {
    for (;;) {
        if (m->sent == m->taken) {
            m->sent = 0;
            m->taken = ticurses_output(&m->session, m->piece, sizeof m->piece);
            if (m->taken == 0) return;
        }
        ssize_t now = write(m->fd, m->piece + m->sent, m->taken - m->sent);
        if (now > 0) {
            m->sent += (size_t)now;
            m->failures = 0;
        } else if (now < 0 && ticurses_is_full(errno)) {
            return;
        } else if (now == 0 || errno != EINTR) {
            lose(m);
            if (++m->failures >= 5) m->is_ending = 1;
            return;
        }
    }
}

/* Reads rmcup for `lose`: it must begin with an ESC, which ends whatever was cut off, and have no delay. */
static void read_rmcup(struct monitor *m) {
    size_t len;
    int code = ticurses_string(m->entry, m->entry_len, NULL, 0, "rmcup", m->rmcup, sizeof m->rmcup, &len);
    if (code == TICURSES_OK && len > 0 && m->rmcup[0] == 27 && !memchr(m->rmcup, '$', len)) m->rmcup_len = len;
}

/* Ends the screen that the session has on the terminal; waits at most two seconds for one that takes no bytes. */
static void leave(struct monitor *m) {
    if (!m->is_up) return;
    ticurses_callf(&m->session, "endwin");
    for (int turn = 0; turn < 20 && is_pending(m) && m->failures < 5; turn++) {
        struct pollfd room = {m->fd, POLLOUT, 0};
        poll(&room, 1, 100);
        drain(m);
    }
    m->is_up = 0;
}

/* Leaves the terminal as other programs need it. */
static void restore(struct monitor *m) {
    leave(m);
    if (is_pending(m)) tcsetattr(STDIN_FILENO, TCSANOW, &m->before);
    else ticurses_set_cooked(STDIN_FILENO, &m->before);
}

/* Opens the session for the size that the terminal has now, also after a change, and draws all windows. The one before
 * ends its screen first. */
static int open_session(struct monitor *m) {
    int code = ticurses_size(m->fd, &m->rows, &m->cols);
    leave(m);
    if (code == TICURSES_OK)
        code = ticurses_open(&m->session, m->entry, m->entry_len, NULL, 0, m->rows, m->cols, NULL, 0);
    if (code != TICURSES_OK) return code;
    /* the terminal may show anything, and may have got only a part of an earlier session's output */
    lose(m);
    m->is_small = m->rows < 10 || m->cols < 40;
    m->log_rows = (m->rows - 4) / 3;
    m->page_rows = m->rows - 4 - m->log_rows;
    m->page_cols = m->cols - 2;
    m->pad_rows = larger(m->page_rows, smaller((int)m->text.count, PAD_MAX));
    m->pad_cols = larger(m->page_cols, smaller((int)m->text.width + 1, PAD_MAX));
    m->base = 0;
    note(m,
         ticurses_callf(&m->session, "init_pair %d 7 4\ninit_pair %d 7 1\ninit_pair %d 0 3", LIGHT, BAD, WARNING));
    /* without strings for it the cursor stays visible */
    code = ticurses_callf(&m->session, "curs_set 0");
    if (code != TICURSES_NO_CAP) note(m, code);
    if (m->is_small) note(m, ticurses_callf(&m->session, "addstr 0 small"));
    else make_windows(m);
    return TICURSES_OK;
}

/* Keeps the part that is shown within the text, and the pad around it. */
static void place_page(struct monitor *m) {
    int count = (int)m->text.count;
    m->top = larger(0, smaller(m->top, count - m->page_rows));
    m->left = larger(0, smaller(m->left, m->pad_cols - m->page_cols));
    if (m->top < m->base || m->top + m->page_rows > m->base + m->pad_rows) {
        m->base = larger(0, smaller(m->top - (m->pad_rows - m->page_rows) / 2, count - m->pad_rows));
        fill_page(m);
    }
}

static void draw_status(struct monitor *m) {
    char line[512];
    int count = (int)m->text.count, last = smaller(count, m->top + m->page_rows);
    int len = snprintf(line, sizeof line, " lines %d-%d of %d, column %d, %d by %d; ? for help",
                       smaller(m->top + 1, last), last, count, m->left, m->rows, m->cols);
    note(m, ticurses_callf(&m->session, "erase %d", STATUS));
    note(m, ticurses_addstr(&m->session, STATUS, line, (size_t)smaller(len, m->cols - 1)));
}

/* Has the session make the terminal show all windows. */
static void draw(struct monitor *m) {
    m->is_changed = 0;
    m->is_up = 1;
    if (m->is_small) {
        note(m, ticurses_callf(&m->session, "refresh 0"));
        return;
    }
    place_page(m);
    draw_status(m);
    note(m, ticurses_callf(&m->session, "noutrefresh %d\npnoutrefresh %d %d %d 1 1 %d %d", FRAME, PAGE,
                           m->top - m->base, m->left, m->page_rows, m->page_cols));
    note(m, ticurses_callf(&m->session, "noutrefresh %d\nnoutrefresh %d\nnoutrefresh %d", HEAD, LOG, STATUS));
    if (m->is_helping) note(m, ticurses_callf(&m->session, "noutrefresh %d", HELP));
    note(m, ticurses_callf(&m->session, "doupdate"));
}

/* -- signals -- */

/* Stops the program after ^Z. When it continues, the terminal may show anything. */
static void stop(struct monitor *m) {
    stopped = 0;
    restore(m);
    raise(SIGSTOP);
    ticurses_set_raw(STDIN_FILENO, &m->before);
    lose(m);
}

static void take_signals(void) {
    static const int numbers[] = {SIGWINCH, SIGCONT, SIGTSTP, SIGINT, SIGTERM, SIGHUP, SIGQUIT};
    struct sigaction action;
    memset(&action, 0, sizeof action);
    action.sa_handler = on_signal;
    for (size_t at = 0; at < sizeof numbers / sizeof *numbers; at++) sigaction(numbers[at], &action, NULL);
    signal(SIGPIPE, SIG_IGN);
}

/* -- the keys -- */

/* The letter for a key that sends a sequence. */
static int letter_of(int byte, int number) {
    switch (byte) {
        case 'A': return 'k';
        case 'B': return 'j';
        case 'C': return 'l';
        case 'D': return 'h';
        case 'H': return 'g';
        case 'F': return 'G';
        case '~': return number == 1 ? 'g' : number == 4 ? 'G' : number == 5 ? 'b' : number == 6 ? ' ' : 0;
        default: return 0;
    }
}

static void act(struct monitor *m, int letter) {
    m->is_changed = 1;
    switch (letter) {
        case 'k': m->top--; break;
        case 'j': m->top++; break;
        case 'b': m->top -= m->page_rows; break;
        case ' ': m->top += m->page_rows; break;
        case 'h': m->left -= 8; break;
        case 'l': m->left += 8; break;
        case 'g': m->top = 0; break;
        case 'G': m->top = (int)m->text.count; break;
        case '?': m->is_helping = !m->is_helping; break;
        case 'L' - 64: leave(m), lose(m); break;
        case 'q': m->is_ending = 1; break;
        default: m->is_changed = 0;
    }
}

/* Takes a byte of a key; sequences may come in parts. */
static void take_byte(struct monitor *m, int byte) {
    if (m->key == ESCAPE) {
        m->key = byte == '[' || byte == 'O' ? INTRODUCER : PLAIN;
        m->number = 0;
    } else if (m->key == INTRODUCER && isdigit(byte)) {
        m->number = m->number < 100 ? m->number * 10 + byte - '0' : 1000;
    } else if (m->key == INTRODUCER) {
        m->key = PLAIN;
        act(m, letter_of(byte, m->number));
    } else if (byte == 27) {
        m->key = ESCAPE;
    } else {
        act(m, byte);
    }
}

static void take_keys(struct monitor *m) {
    unsigned char bytes[64];
    ssize_t count = read(STDIN_FILENO, bytes, sizeof bytes);
    if (count == 0 || (count < 0 && errno != EINTR && errno != EAGAIN)) m->is_ending = 1;
    for (ssize_t at = 0; at < count; at++) take_byte(m, bytes[at]);
}

/* Draws, writes and waits until a key or a signal ends it. It draws nothing while the terminal takes no more bytes, so
 * that a slow terminal gets the last state and not each one. */
static void run(struct monitor *m) {
    while (!m->is_ending && !ended && m->code == TICURSES_OK) {
        if (stopped) stop(m);
        if (resized) {
            resized = 0;
            note(m, open_session(m));
        }
        follow(m);
        if (m->is_changed && !is_pending(m)) draw(m);
        drain(m);
        struct pollfd both[2] = {{STDIN_FILENO, POLLIN, 0}, {m->fd, POLLOUT, 0}};
        if (poll(both, is_pending(m) ? 2 : 1, 100) > 0 && both[0].revents) take_keys(m);
    }
}

/* Says why the monitor ended. */
static void explain(struct monitor *m) {
    char reason[256];
    size_t len = 0;
    if (m->code == TICURSES_NO_CERTIFICATE)
        ticurses_reason(m->entry, m->entry_len, NULL, 0, m->rows, m->cols, reason, sizeof reason, &len);
    fprintf(stderr, "monitor: %s%s%.*s\n", ticurses_text(m->code), len ? ": " : "", (int)len, reason);
}

int main(int argc, char **argv) {
    static struct monitor m;
    m.log.fd = argc == 3 ? open(argv[2], O_RDONLY | O_NONBLOCK) : -1;
    if (argc < 2 || argc > 3 || (argc == 3 && m.log.fd < 0) || read_text(&m.text, argv[1]) != 0) {
        fprintf(stderr, "usage: monitor FILE [LOG], of files that can be read\n");
        return 2;
    }
    const char *name = strrchr(argv[1], '/') ? strrchr(argv[1], '/') + 1 : argv[1];
    m.name = drawable(name, strlen(name));
    m.fd = open("/dev/tty", O_WRONLY | O_NONBLOCK | O_NOCTTY);
    if (m.fd < 0 || !isatty(STDIN_FILENO)) {
        fprintf(stderr, "monitor: no terminal\n");
        return 2;
    }
    m.entry_len = ticurses_entry(NULL, m.entry, sizeof m.entry);
    read_rmcup(&m);
    note(&m, m.name ? open_session(&m) : TICURSES_NO_MEMORY);
    if (m.code == TICURSES_OK) {
        take_signals();
        if (ticurses_set_raw(STDIN_FILENO, &m.before) == 0) run(&m), restore(&m);
        else perror("monitor: standard input");
    }
    ticurses_close(&m.session);
    free_text(&m.text);
    free(m.name);
    if (m.code != TICURSES_OK) explain(&m);
    if (ended) {
        signal(ended, SIG_DFL);
        raise(ended);
    }
    return m.code != TICURSES_OK;
}
