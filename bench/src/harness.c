/* The main program of every measured parser.
 *
 *   PROGRAM once FILE [TASK]      does the work once and prints how many values it gave
 *   PROGRAM N FILE [TASK]         does it N times and prints nothing; callgrind counts
 *   PROGRAM time FILE [TASK]      prints the nanoseconds for one file: the least mean of ten rounds
 *
 * Ends with 1 where the file is refused. */
#include "harness.h"

#include <stdio.h>
#include <stdlib.h>
#include <string.h>
#include <time.h>

enum { ROUNDS = 10, ROUND_NANOSECONDS = 5000000 };

static uint64_t now(void)
{
    struct timespec t;
    clock_gettime(CLOCK_MONOTONIC, &t);
    return (uint64_t)t.tv_sec * 1000000000u + (uint64_t)t.tv_nsec;
}

static void repeat(const struct input *in, size_t times)
{
    while (times--)
        if (work(in) == 0)
            stop("refused", in->name);
}

/* How long `times` repetitions take. */
static uint64_t lasting(const struct input *in, size_t times)
{
    uint64_t start = now();
    repeat(in, times);
    return now() - start;
}

static double nanoseconds(const struct input *in)
{
    size_t times = 1;
    while (lasting(in, times) < ROUND_NANOSECONDS)
        times *= 2;
    double least = 0;
    for (int round = 0; round < ROUNDS; round++) {
        double mean = (double)lasting(in, times) / (double)times;
        if (round == 0 || mean < least)
            least = mean;
    }
    return least;
}

int main(int argc, char **argv)
{
    if (argc < 3) {
        fprintf(stderr, "usage: %s once|time|N FILE [TASK]\n", argv[0]);
        return 2;
    }
    struct input in = read_input(argv[2]);
    if (!prepare(&in, argc > 3 ? argv[3] : NULL))
        stop("refused, or no such task", in.name);
    if (strcmp(argv[1], "once") == 0) {
        size_t values = work(&in);
        printf("%zu\n", values);
        return values == 0;
    }
    if (strcmp(argv[1], "time") == 0)
        printf("%.1f\n", nanoseconds(&in));
    else
        repeat(&in, strtoul(argv[1], NULL, 10));
    return 0;
}
