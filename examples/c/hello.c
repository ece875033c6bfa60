/* hello: draws a box with a text on this terminal, and waits for a key. Signals restore the terminal first. */
#define _POSIX_C_SOURCE 200809L
#include <ticurses_terminal.h>

#include <signal.h>
#include <sys/select.h>

static char entry[TICURSES_ENTRY_MAX], reason[256];
static volatile sig_atomic_t ended;

static void on_signal(int number) {
    ended = number;
}

/* Has signals wait for `wait_for_key`, and writes to a terminal that is gone fail. */
static void hold_signals(sigset_t *before) {
    static const int numbers[] = {SIGHUP, SIGINT, SIGQUIT, SIGTERM, SIGTSTP};
    struct sigaction action = {0};
    sigset_t held;
    sigemptyset(&held);
    action.sa_handler = on_signal;
    for (size_t at = 0; at < sizeof numbers / sizeof *numbers; at++) {
        sigaction(numbers[at], &action, NULL);
        sigaddset(&held, numbers[at]);
    }
    sigprocmask(SIG_BLOCK, &held, before);
    signal(SIGPIPE, SIG_IGN);
}

static void wait_for_key(const sigset_t *signals) {
    fd_set keys;
    char key;
    FD_ZERO(&keys);
    FD_SET(STDIN_FILENO, &keys);
    if (pselect(STDIN_FILENO + 1, &keys, NULL, NULL, NULL, signals) > 0 && read(STDIN_FILENO, &key, 1) < 0)
        ended = SIGHUP;
}

int main(void) {
    ticurses session = {0};
    struct termios before;
    sigset_t signals;
    uint16_t rows, cols;
    size_t length = ticurses_entry(NULL, entry, sizeof entry), told = 0;
    int code = ticurses_size(STDOUT_FILENO, &rows, &cols), is_sent;
    if (code == TICURSES_OK) code = ticurses_open(&session, entry, length, NULL, 0, rows, cols, NULL, 0);
    if (code == TICURSES_NO_CERTIFICATE)
        ticurses_reason(entry, length, NULL, 0, rows, cols, reason, sizeof reason, &told);
    if (code != TICURSES_OK) {
        const char *text = length ? ticurses_text(code) : "TERM names no entry of terminfo";
        fprintf(stderr, "hello: %s%s%.*s\n", text, told ? ": " : "", (int)told, reason);
        return 1;
    }
    hold_signals(&signals);
    if (ticurses_set_raw(STDIN_FILENO, &before) != 0) {
        perror("hello: standard input");
        return 1;
    }
    code = ticurses_callf(&session,
                          "init_pair 1 7 4\nnewwin 1 5 24 %d %d\nbkgd 1 20:1\nbox 1 - -\n"
                          "move 1 2 6\nattron 1 B\naddstr 1 Hello from C\nrefresh 1",
                          (rows - 5) / 2, (cols - 24) / 2);
    is_sent = ticurses_send(&session, STDOUT_FILENO) == 0;
    if (code == TICURSES_OK && is_sent) wait_for_key(&signals);
    ticurses_callf(&session, "endwin");
    if (ticurses_send(&session, STDOUT_FILENO) != 0) is_sent = 0;
    ticurses_set_cooked(STDIN_FILENO, &before);
    ticurses_close(&session);
    if (!is_sent || code != TICURSES_OK)
        fprintf(stderr, "hello: %s\n", is_sent ? ticurses_text(code) : strerror(errno));
    if (ended) {
        signal(ended, SIG_DFL);
        sigprocmask(SIG_SETMASK, &signals, NULL);
        raise(ended);
    }
    return code != TICURSES_OK || !is_sent;
}
