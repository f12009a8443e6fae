/*
 * runs ROUNDS SCRIPT PROGRAM...: in each round every program answers the script once, in turn, in a process of its
 * own. For each program: the least and the median processor time from fork to exit, in microseconds, which others on
 * the machine disturb less than the time of day, and its peak memory in kB.
 */
#define _GNU_SOURCE
#include <fcntl.h>
#include <stdio.h>
#include <stdlib.h>
#include <sys/resource.h>
#include <sys/wait.h>
#include <unistd.h>

static double microseconds(struct timeval t) { return (double)t.tv_sec * 1e6 + (double)t.tv_usec; }

static int by_size(const void *a, const void *b)
{
    double d = *(const double *)a - *(const double *)b;
    return (d > 0) - (d < 0);
}

/* The time of one run; raises `peak` to its memory. */
static double run(const char *program, const char *script, long *peak)
{
    struct rusage used;
    int status;
    pid_t child = fork();

    if (child == 0) {
        dup2(open(script, O_RDONLY), STDIN_FILENO);
        dup2(open("/dev/null", O_WRONLY), STDOUT_FILENO);
        execl(program, program, (char *)0);
        _exit(127);
    }
    if (child < 0 || wait4(child, &status, 0, &used) != child || status != 0) {
        fprintf(stderr, "runs: %s failed on %s\n", program, script);
        exit(1);
    }
    *peak = used.ru_maxrss > *peak ? used.ru_maxrss : *peak;
    return microseconds(used.ru_utime) + microseconds(used.ru_stime);
}

int main(int argc, char **argv)
{
    int rounds = argc > 3 ? atoi(argv[1]) : 0, programs = argc - 3;

    if (rounds < 1)
        return 2;
    double *times = calloc((size_t)programs * (size_t)rounds, sizeof *times);
    long *peaks = calloc((size_t)programs, sizeof *peaks);
    for (int r = 0; r < rounds; r++)
        for (int p = 0; p < programs; p++)
            times[p * rounds + r] = run(argv[p + 3], argv[2], &peaks[p]);
    for (int p = 0; p < programs; p++) {
        double *mine = times + p * rounds;
        qsort(mine, (size_t)rounds, sizeof *mine, by_size);
        printf("%s %.1f %.1f %ld\n", argv[p + 3], mine[0], mine[rounds / 2], peaks[p]);
    }
    return 0;
}
