/* Preloaded into both programs of a pair: a stopped clock and one number for each process, so that both programs read
 * the same values. */
#include <sys/time.h>
#include <sys/types.h>
#include <time.h>

enum { STILL = 1700000000 };

time_t time(time_t *at) {
    if (at) *at = STILL;
    return STILL;
}

int gettimeofday(struct timeval *restrict at, void *restrict zone) {
    (void)zone;
    at->tv_sec = STILL;
    at->tv_usec = 0;
    return 0;
}

pid_t getpid(void) {
    return 4242;
}
