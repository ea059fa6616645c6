/*
 * Measures programs: the processor time of runs that take turns, and the smallest stack under which
 * a program still runs. It is compiled for the machine that it stands on, with that one's headers.
 */
#define _XOPEN_SOURCE 700

#include <errno.h>
#include <fcntl.h>
#include <stdio.h>
#include <stdlib.h>
#include <string.h>
#include <sys/personality.h>
#include <sys/resource.h>
#include <sys/time.h>
#include <sys/types.h>
#include <sys/wait.h>
#include <unistd.h>

enum { PARTS_MOST = 16, RUNS_MOST = 100000, TRIES = 5, STACK_MOST = 65536 };

/* What is run: a program with its words, and the file that it gets as standard input. */
struct part {
    const char *input;
    char **words;
};

/* Says what went wrong, with the system's reason where it has one; the status. */
static int fail(const char *what, const char *name)
{
    fprintf(stderr, "stopwatch: %s %s%s%s\n", what, name, errno ? ": " : "",
            errno ? strerror(errno) : "");
    return 1;
}

/* The child: standard input and output are put in place, and the program takes over. */
static void become(const struct part *part, long stack)
{
    char *none[] = {NULL};
    struct rlimit limit;
    int in = open(part->input, O_RDONLY), out = open("/dev/null", O_WRONLY);

    if (in < 0 || out < 0 || dup2(in, 0) < 0 || dup2(out, 1) < 0) {
        _exit(126);
    }
    if (stack > 0) {
        /* The same addresses each time, where that is allowed: else the stack's top moves. */
        (void)personality(ADDR_NO_RANDOMIZE);
        limit.rlim_cur = limit.rlim_max = (rlim_t)stack * 1024;
        if (setrlimit(RLIMIT_STACK, &limit) != 0) {
            _exit(126);
        }
    }
    execve(part->words[0], part->words, none);
    _exit(127);
}

/* Microseconds of processor time that all children so far have used. */
static long used(void)
{
    struct rusage u;

    if (getrusage(RUSAGE_CHILDREN, &u) != 0) {
        return 0;
    }
    return 1000000L * (long)(u.ru_utime.tv_sec + u.ru_stime.tv_sec)
        + (long)(u.ru_utime.tv_usec + u.ru_stime.tv_usec);
}

/* Runs a part once, with so many KiB of stack where that is not 0: its status, and what it took. */
static int run(const struct part *part, long stack, long *took)
{
    long before = used();
    int status;
    pid_t child = fork();

    if (child < 0) {
        return -1;
    }
    if (child == 0) {
        become(part, stack);
    }
    while (waitpid(child, &status, 0) < 0) {
        if (errno != EINTR) {
            return -1;
        }
    }
    *took = used() - before;
    return WIFEXITED(status) ? WEXITSTATUS(status) : 128;
}

/* The order of two times. */
static int by_size(const void *one, const void *other)
{
    long a = *(const long *)one, b = *(const long *)other;

    return (a > b) - (a < b);
}

/* The parts in another order each time, so that none always runs after the same one. */
static void shuffle(int *order, int count, unsigned long *dice)
{
    int i, j, kept;

    for (i = count - 1; i > 0; i--) {
        *dice = (*dice * 1103515245UL + 12345UL) & 0x7FFFFFFFUL;
        j = (int)((*dice >> 8) % (unsigned long)(i + 1));
        kept = order[i];
        order[i] = order[j];
        order[j] = kept;
    }
}

/* All parts in turn, so many times. What run r of part i took stands at runs * i + r. */
static int take_turns(const struct part *parts, int count, long runs, long *took)
{
    int order[PARTS_MOST], i;
    unsigned long dice = 1;
    long r;

    for (i = 0; i < count; i++) {
        order[i] = i;
    }
    for (r = 0; r < runs; r++) {
        shuffle(order, count, &dice);
        for (i = 0; i < count; i++) {
            errno = 0;
            if (run(&parts[order[i]], 0, &took[runs * order[i] + r]) != 0) {
                return fail("did not end well:", parts[order[i]].words[0]);
            }
        }
    }
    return 0;
}

/* A line for each part: the median, the lowest and the highest, in microseconds. */
static int measure(const struct part *parts, int count, long runs)
{
    long *took = calloc((size_t)count * (size_t)runs, sizeof *took), *of;
    int i, failed;

    if (took == NULL) {
        return fail("no room for", "the times");
    }
    failed = take_turns(parts, count, runs, took);
    for (i = 0; i < count && !failed; i++) {
        of = took + runs * i;
        qsort(of, (size_t)runs, sizeof *of, by_size);
        printf("%ld %ld %ld\n", of[runs / 2], of[0], of[runs - 1]);
    }
    free(took);
    return failed;
}

/* Whether a part runs to its end each time, with so many KiB of stack. */
static int runs_in(const struct part *part, long stack)
{
    long took;
    int i;

    for (i = 0; i < TRIES; i++) {
        if (run(part, stack, &took) != 0) {
            return 0;
        }
    }
    return 1;
}

/* The smallest stack in KiB, by halving: it runs in high, and in low it does not. */
static int smallest(const struct part *part)
{
    long low = 0, high = STACK_MOST, middle;

    errno = 0;
    if (!runs_in(part, high)) {
        return fail("did not end well:", part->words[0]);
    }
    while (high - low > 1) {
        middle = low + (high - low) / 2;
        if (runs_in(part, middle)) {
            high = middle;
        } else {
            low = middle;
        }
    }
    printf("%ld\n", high);
    return 0;
}

/* The parts stand after '--' each: an input, a program and its words. Their number, or 0. */
static int find_parts(int count, char **words, struct part *parts)
{
    int i, n = 0;

    for (i = 0; i < count; i++) {
        if (strcmp(words[i], "--") != 0) {
            continue;
        }
        words[i] = NULL;
        if (n == PARTS_MOST || i + 2 >= count) {
            return 0;
        }
        parts[n].input = words[i + 1];
        parts[n].words = &words[i + 2];
        n++;
    }
    return n;
}

/* How it is called; the status. */
static int usage(void)
{
    fprintf(stderr, "usage: stopwatch time RUNS {-- INPUT PROGRAM WORD..}..\n"
                    "       stopwatch stack -- INPUT PROGRAM WORD..\n");
    return 2;
}

/* time measures all parts in turn, stack the one part that there is. */
int main(int count, char **words)
{
    struct part parts[PARTS_MOST];
    long runs;
    int n;

    if (count < 5) {
        return usage();
    }
    runs = strtol(words[2], NULL, 10);
    if (strcmp(words[1], "time") == 0 && runs >= 1 && runs <= RUNS_MOST) {
        n = find_parts(count, words, parts);
        return n > 0 ? measure(parts, n, runs) : usage();
    }
    if (strcmp(words[1], "stack") == 0) {
        n = find_parts(count, words, parts);
        return n == 1 ? smallest(parts) : usage();
    }
    return usage();
}
