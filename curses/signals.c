/* Signals: those that end the program restore the terminal first, ^Z stops it and draws anew, a change of size is a
 * key. A signal that the program handles or ignores itself is left alone.
 *
 * A handler makes no call of the session. While a call is being made, or bytes are being written, it only notes the
 * signal, and the end of the call acts on it; at other times a signal that ends the program writes `farewell`. */
#define _POSIX_C_SOURCE 200809L
#include "private.h"

#include <errno.h>
#include <signal.h>
#include <stdlib.h>
#include <string.h>
#include <sys/select.h>
#include <termios.h>
#include <time.h>
#include <unistd.h>

#include "calls.h"

enum { ENDING = 4 };
static const int ending_signals[ENDING] = {SIGHUP, SIGINT, SIGQUIT, SIGTERM};

static volatile sig_atomic_t depth, ending, is_stop_wanted, has_size_changed;
static bool has_begun, heeds_stop;
/* the strings by which a handler leaves the terminal as other programs need it */
static char farewell[512];
static size_t farewell_len;
static struct termios shell;
static bool has_shell;

/* Leaves the terminal as other programs need it, by calls that are safe in a handler. */
void signals_leave_terminal(void) {
    size_t sent = 0;
    if (tcu.is_ended) return;
    while (sent < farewell_len) {
        ssize_t now = write(tcu.output, farewell + sent, farewell_len - sent);
        if (now > 0) sent += (size_t)now;
        else if (now == 0 || errno != EINTR) break;
    }
    if (has_shell) tcsetattr(tcu.input, TCSANOW, &shell);
}

static void end_by(int number) {
    struct sigaction usual;
    sigset_t only;
    memset(&usual, 0, sizeof usual);
    usual.sa_handler = SIG_DFL;
    sigemptyset(&usual.sa_mask);
    sigaction(number, &usual, NULL);
    raise(number);
    sigemptyset(&only);
    sigaddset(&only, number);
    sigprocmask(SIG_UNBLOCK, &only, NULL);
}

static void on_ending(int number) {
    int error = errno;
    ending = number;
    if (depth == 0) {
        signals_leave_terminal();
        end_by(number);
    }
    errno = error;
}

static void on_stop(int number) {
    (void)number;
    is_stop_wanted = 1;
}

static void on_size(int number) {
    (void)number;
    has_size_changed = 1;
}

/* Has `handler` handle a signal that still has its default action. Returns whether it does. */
static bool handled(int number, void (*handler)(int), int flags) {
    struct sigaction now;
    if (sigaction(number, NULL, &now) != 0 || now.sa_flags & SA_SIGINFO || now.sa_handler != SIG_DFL) return false;
    memset(&now, 0, sizeof now);
    now.sa_handler = handler;
    now.sa_flags = flags;
    sigfillset(&now.sa_mask);
    return sigaction(number, &now, NULL) == 0;
}

static void add_farewell(const char *name) {
    const char *text = entry_string(name);
    if (text) farewell_len += beside_plain(text, farewell + farewell_len, sizeof farewell - farewell_len);
}

void signals_learn(void) {
    static const char *const strings[] = {"sgr0", "rmacs", "op", "cnorm", "rmkx"};
    farewell_len = 0;
    for (size_t at = 0; at < sizeof strings / sizeof *strings; at++) add_farewell(strings[at]);
    if (farewell_len + 2 <= sizeof farewell) {
        memcpy(farewell + farewell_len, "\r\n", 2);
        farewell_len += 2;
    }
    add_farewell("rmcup");
}

void signals_begin(void) {
    signals_learn();
    has_shell = tcgetattr(tcu.input, &shell) == 0;
    if (has_begun) return;
    has_begun = true;
    for (size_t at = 0; at < ENDING; at++) handled(ending_signals[at], on_ending, SA_RESTART);
    heeds_stop = handled(SIGTSTP, on_stop, SA_RESTART);
    /* without SA_RESTART, so that a wait of the program's own ends when the size changes */
    handled(SIGWINCH, on_size, 0);
}

/* Takes the terminal's present modes as those that a signal restores when it ends the program. */
void signals_forget(void) {
    has_shell = tcgetattr(tcu.input, &shell) == 0;
}

void signals_enter(void) {
    depth = depth + 1;
}

bool signals_is_ending(void) {
    return ending != 0;
}

/* Undoes one signals_enter. The last one ends the program if a signal has asked for it meanwhile. */
void signals_leave(void) {
    int number;
    /* from here on a handler acts by itself, and a signal noted before is seen below */
    depth = depth - 1;
    number = ending;
    if (number == 0 || depth > 0) return;
    if (tcu.is_open && !tcu.is_ended) {
        /* no handler writes during this, and another signal doesn't cut it off */
        depth = 1;
        ending = 0;
        if (tcu_suspend() != OK) signals_leave_terminal();
        depth = 0;
    }
    end_by(number);
}

bool signals_has_size_changed(void) {
    return has_size_changed != 0;
}

bool signals_take_size_change(void) {
    bool has_changed = has_size_changed != 0;
    has_size_changed = 0;
    return has_changed;
}

/* Stops the program if ^Z was pressed, with the terminal as the shell needs it, and draws anew when it continues. */
void signals_heed(void) {
    struct sigaction before, usual;
    sigset_t only;
    bool was_ended = tcu.is_ended;
    if (!heeds_stop || !is_stop_wanted) return;
    is_stop_wanted = 0;
    if (!was_ended) tcu_suspend();
    memset(&usual, 0, sizeof usual);
    usual.sa_handler = SIG_DFL;
    sigemptyset(&usual.sa_mask);
    sigaction(SIGTSTP, &usual, &before);
    raise(SIGTSTP);
    sigemptyset(&only);
    sigaddset(&only, SIGTSTP);
    sigprocmask(SIG_UNBLOCK, &only, NULL);
    /* the program continues here */
    sigaction(SIGTSTP, &before, NULL);
    if (was_ended) return;
    signals_forget();
    tcu_resume();
    doupdate();
}

/* Sets `left` to the time until `end`. Returns whether any is left. */
static bool is_left(const struct timespec *end, struct timespec *left) {
    struct timespec now;
    clock_gettime(CLOCK_MONOTONIC, &now);
    left->tv_sec = end->tv_sec - now.tv_sec;
    left->tv_nsec = end->tv_nsec - now.tv_nsec;
    if (left->tv_nsec < 0) {
        left->tv_sec--;
        left->tv_nsec += 1000000000L;
    }
    if (left->tv_sec >= 0) return true;
    left->tv_sec = left->tv_nsec = 0;
    return false;
}

/* Waits until `fd` has bytes, at most `milliseconds`, or without end if that is negative. With a negative `fd` it waits
 * for the time alone. Returns 1 if there are bytes, 0 if the time is over or the size has changed, -1 if `fd` is no
 * descriptor. The signals that handlers note are blocked except in pselect, so that the wait misses none. */
int signals_wait(int fd, int milliseconds) {
    struct timespec end, left;
    sigset_t noted, before;
    int found = 0, error = 0;
    bool is_time_left = true;
    clock_gettime(CLOCK_MONOTONIC, &end);
    if (milliseconds >= 0) {
        end.tv_sec += milliseconds / 1000;
        end.tv_nsec += milliseconds % 1000 * 1000000L;
        if (end.tv_nsec >= 1000000000L) {
            end.tv_sec++;
            end.tv_nsec -= 1000000000L;
        }
    }
    sigemptyset(&noted);
    sigaddset(&noted, SIGTSTP);
    sigaddset(&noted, SIGWINCH);
    for (size_t at = 0; at < ENDING; at++) sigaddset(&noted, ending_signals[at]);
    do {
        fd_set ready;
        signals_heed();
        FD_ZERO(&ready);
        if (fd >= 0) FD_SET(fd, &ready);
        if (milliseconds >= 0) is_time_left = is_left(&end, &left);
        signals_enter();
        sigprocmask(SIG_BLOCK, &noted, &before);
        if (ending || (heeds_stop && is_stop_wanted) || (fd >= 0 && has_size_changed)) {
            found = -1;
            error = EINTR;
        } else {
            found = pselect(fd + 1, &ready, NULL, NULL, milliseconds < 0 ? NULL : &left, &before);
            error = errno;
        }
        sigprocmask(SIG_SETMASK, &before, NULL);
        /* ends the program if a signal has asked for it */
        signals_leave();
        if (fd >= 0 && has_size_changed) return 0;
    } while (found < 0 && error == EINTR && is_time_left);
    return found < 0 && error == EINTR ? 0 : found;
}
