/* sends COUNT [BLOCKING]: sends COUNT bytes and `endwin` to the terminal at standard output, which doesn't block
 * unless that is said, while a timer interrupts it; again and again until a send fails, which it says on standard
 * error with what waits then and what the next refresh begins with. */
#define _XOPEN_SOURCE 700
#include <ticurses_terminal.h>

#include <signal.h>
#include <sys/time.h>

static void on_signal(int number) {
    (void)number;
}

int main(int argc, char **argv) {
    struct itimerval often = {{0, 500}, {0, 500}};
    struct sigaction action;
    struct termios before;
    ticurses session = {0, 0};
    char piece[8] = "";
    memset(&action, 0, sizeof action);
    action.sa_handler = on_signal;
    if (argc < 2 || ticurses_open(&session, "entry", 5, NULL, 0, 24, 80, NULL, 0)) return 2;
    if (ticurses_set_raw(STDOUT_FILENO, &before)) return 2;
    if (argc == 2) fcntl(STDOUT_FILENO, F_SETFL, O_NONBLOCK);
    sigaction(SIGALRM, &action, NULL);
    signal(SIGHUP, SIG_IGN);
    setitimer(ITIMER_REAL, &often, NULL);
    do {
        ticurses_callf(&session, "refresh %s\nendwin", argv[1]);
    } while (ticurses_send(&session, STDOUT_FILENO) == 0);
    fprintf(stderr, "%d %zu", errno, ticurses_waiting(&session));
    ticurses_callf(&session, "refresh 1");
    ticurses_output(&session, piece, sizeof piece - 1);
    fprintf(stderr, " %s\n", piece);
    ticurses_close(&session);
    return 0;
}
