/* turns RUNS NAME COUNT INPUT PROVED.. -- HAND..: runs two programs in turn, so often each, with
 * the file INPUT as standard input and nothing as standard output. Prints for the best runs of
 * both the processor time, user and system, and how many of COUNT that makes a second; the ratio
 * of these, and the median of the ratios of runs that stand side by side. If the environment has
 * PREPARE, the shell does that before each run; if it has CLOCK, a second line tells the same of
 * the time by the clock. */
#include <fcntl.h>
#include <stdio.h>
#include <stdlib.h>
#include <string.h>
#include <sys/resource.h>
#include <sys/time.h>
#include <sys/wait.h>
#include <time.h>
#include <unistd.h>

enum { MOST_RUNS = 99, PROCESSOR = 0, CLOCK = 1 };

/* Seconds by the processor and by the clock. */
typedef struct spent {
    double by[2];
} spent;

static double seconds(struct timeval time)
{
    return (double)time.tv_sec + 1e-6 * (double)time.tv_usec;
}

static double now(void)
{
    struct timespec at;
    clock_gettime(CLOCK_MONOTONIC, &at);
    return (double)at.tv_sec + 1e-9 * (double)at.tv_nsec;
}

static void fail(const char *what)
{
    fprintf(stderr, "turns: %s does not run\n", what);
    exit(1);
}

static void become(char **words, const char *input)
{
    int from = open(input, O_RDONLY), to = open("/dev/null", O_WRONLY);
    if (from < 0 || to < 0 || dup2(from, 0) < 0 || dup2(to, 1) < 0)
        _exit(1);
    execv(words[0], words);
    _exit(1);
}

static spent run(char **words, const char *input)
{
    struct rusage used;
    int status = 1;
    const char *prepare = getenv("PREPARE");
    if (prepare && system(prepare) != 0)
        fail(prepare);
    double start = now();
    pid_t child = fork();
    if (child == 0)
        become(words, input);
    if (child < 0 || wait4(child, &status, 0, &used) < 0 || status != 0)
        fail(words[0]);
    return (spent){{seconds(used.ru_utime) + seconds(used.ru_stime), now() - start}};
}

static int rising(const void *x, const void *y)
{
    double a = *(const double *)x, b = *(const double *)y;
    return (a > b) - (a < b);
}

static void print(const char *name, double count, spent found[][2], int runs, int by)
{
    double best[2] = {1e9, 1e9}, ratios[MOST_RUNS];
    for (int turn = 0; turn < runs; turn++) {
        for (int n = 0; n < 2; n++)
            if (found[turn][n].by[by] < best[n])
                best[n] = found[turn][n].by[by];
        ratios[turn] = found[turn][1].by[by] / found[turn][0].by[by];
    }
    qsort(ratios, (size_t)runs, sizeof *ratios, rising);
    printf("%-30s %-9s %8.3f s %8.3f s %9.0f %9.0f %7.2f %8.2f\n", name,
           by == CLOCK ? "clock" : "processor", best[0], best[1], count / best[0], count / best[1],
           best[1] / best[0], ratios[runs / 2]);
}

int main(int argc, char **argv)
{
    static spent found[MOST_RUNS][2];
    char **both[2] = {argv + 5, NULL};
    for (int k = 5; k < argc && !both[1]; k++)
        if (strcmp(argv[k], "--") == 0) {
            argv[k] = NULL;
            both[1] = argv + k + 1;
        }
    int runs = argc > 1 ? atoi(argv[1]) : 0;
    if (!both[1] || !both[1][0] || !both[0][0] || runs < 1 || runs > MOST_RUNS)
        return 2;
    for (int turn = 0; turn < runs; turn++)
        for (int n = 0; n < 2; n++) {
            int which = (turn + n) % 2;
            found[turn][which] = run(both[which], argv[4]);
        }
    print(argv[2], strtod(argv[3], NULL), found, runs, PROCESSOR);
    if (getenv("CLOCK"))
        print(argv[2], strtod(argv[3], NULL), found, runs, CLOCK);
    return 0;
}
