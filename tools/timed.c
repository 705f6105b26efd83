/* timed STACK MEMORY SECONDS WRITTEN PROGRAM WORDS..: runs a program under a stack of so many KiB, so many KiB of addresses,
   so many seconds of processor time and so many KiB that it may write, and writes to descriptor 3 its exit status (or minus
   the signal that ended it), the microseconds of processor time that it took, and the greatest memory that it held, in
   KiB. */
#include <stdio.h>
#include <stdlib.h>
#include <sys/resource.h>
#include <sys/wait.h>
#include <unistd.h>

static long micro(struct timeval t)
{
    return t.tv_sec * 1000000L + t.tv_usec;
}

static void limit(int what, rlim_t most)
{
    struct rlimit l;
    getrlimit(what, &l);
    l.rlim_cur = most;
    setrlimit(what, &l);
}

int main(int count, char **words)
{
    if (count < 6)
        return 70;
    pid_t child = fork();
    if (child == 0) {
        close(3);
        limit(RLIMIT_STACK, (rlim_t)atol(words[1]) * 1024);
        limit(RLIMIT_AS, (rlim_t)atol(words[2]) * 1024);
        limit(RLIMIT_CPU, (rlim_t)atol(words[3]));
        limit(RLIMIT_FSIZE, (rlim_t)atol(words[4]) * 1024);
        execv(words[5], words + 5);
        _exit(70);
    }
    int status;
    struct rusage used;
    if (child < 0 || wait4(child, &status, 0, &used) < 0)
        return 70;
    long took = micro(used.ru_utime) + micro(used.ru_stime);
    dprintf(3, "%d %ld %ld\n", WIFEXITED(status) ? WEXITSTATUS(status) : -WTERMSIG(status), took, used.ru_maxrss);
    return 0;
}
