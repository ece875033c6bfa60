/* Runs a program, with its output discarded or written to FILE, and prints its processor time in microseconds, its peak
   memory in KiB, and its exit status: spent [-o FILE] PROGRAM WORD.. */
#include <fcntl.h>
#include <stdio.h>
#include <string.h>
#include <sys/resource.h>
#include <sys/wait.h>
#include <unistd.h>

int main(int argc, char **argv)
{
    const char *output = "/dev/null";
    struct rusage usage;
    int status;
    pid_t child;

    if (argc > 2 && strcmp(argv[1], "-o") == 0) {
        output = argv[2];
        argc -= 2;
        argv += 2;
    }
    if (argc < 2)
        return 2;
    child = fork();
    if (child < 0)
        return 3;
    if (child == 0) {
        dup2(open(output, O_WRONLY | O_CREAT | O_TRUNC, 0666), 1);
        dup2(open("/dev/null", O_WRONLY), 2);
        execv(argv[1], argv + 1);
        _exit(127);
    }
    if (wait4(child, &status, 0, &usage) < 0)
        return 3;
    printf("%lld %ld %d\n", (usage.ru_utime.tv_sec + usage.ru_stime.tv_sec) * 1000000LL + usage.ru_utime.tv_usec + usage.ru_stime.tv_usec,
           usage.ru_maxrss, WIFEXITED(status) ? WEXITSTATUS(status) : 128 + WTERMSIG(status));
    return 0;
}
