/*
 * Time per call of the library, of plain C and of C that checks the list for
 * refusal 16, over the same histories in one run, and the library's ratio to
 * both. Nothing is judged by it: times are those of the machine it runs on.
 * The figures that stay the same are the instructions, see bench/instructions.
 */
#define _POSIX_C_SOURCE 199309L

#include "cases.h"

#include <stdio.h>
#include <string.h>
#include <time.h>

enum { ROUNDS = 15 };

static double now(void)
{
    struct timespec t;
    clock_gettime(CLOCK_MONOTONIC, &t);
    return (double)t.tv_sec * 1e9 + (double)t.tv_nsec;
}

static double round_of(const struct bench_case *c, const struct implementation *at)
{
    put_back(at, NETWORK_BACK);
    double begin = now();
    for (unsigned i = 0; i < c->calls; i++) {
        if (c->restored != NOTHING_BACK)
            put_back(at, c->restored);
        c->call_once(at);
    }
    return (now() - begin) / c->calls;
}

/* The best of several rounds at each, in nanoseconds a call. They take turns, so that what else runs hits all alike. */
static void time_all(const struct bench_case *c, double least[IMPLEMENTATIONS])
{
    for (unsigned k = 0; k < IMPLEMENTATIONS; k++) {
        c->prepare(&implementations[k]);
        keep(&implementations[k]);
    }
    for (unsigned i = 0; i < ROUNDS; i++)
        for (unsigned k = 0; k < IMPLEMENTATIONS; k++) {
            double took = round_of(c, &implementations[k]);
            if (i == 0 || took < least[k])
                least[k] = took;
        }
}

int main(void)
{
    printf("%-48s %10s %10s %13s %9s %9s\n", "nanoseconds a call", implementations[LIBRARY].name,
           implementations[PLAIN_C].name, implementations[CHECKED_C].name, "/ plain", "/ checks");
    double top_speed = 0, worst = 0, byte = 0, buffer = 0, steps = 0, single_bytes = 0;
    for (unsigned i = 0; i < case_count; i++) {
        double took[IMPLEMENTATIONS];
        time_all(&cases[i], took);
        if (strstr(cases[i].name, "at top speed"))
            top_speed = took[LIBRARY];
        if (strstr(cases[i].name, "brake") && worst < took[LIBRARY])
            worst = took[LIBRARY];
        if (strcmp(cases[i].name, A_BYTE) == 0)
            byte = took[LIBRARY];
        if (strcmp(cases[i].name, A_BUFFER) == 0) {
            buffer = took[LIBRARY];
            steps = took[PLAIN_C];
        }
        if (strcmp(cases[i].name, SINGLE_BYTES) == 0)
            single_bytes = took[LIBRARY];
        printf("%-48s %10.0f %10.0f %13.0f %9.2f %9.2f\n", cases[i].name, took[LIBRARY], took[PLAIN_C],
               took[CHECKED_C], took[LIBRARY] / took[PLAIN_C], took[LIBRARY] / took[CHECKED_C]);
    }
    printf("the library's worst tick that brakes takes %.2f times one at top speed\n", worst / top_speed);
    printf("the library's buffer of noise takes %.2f times a byte and 64 steps of the receiver in plain C\n",
           buffer / (byte + steps));
    printf("its bytes singly take %.1f times the buffer\n", single_bytes / buffer);
    return 0;
}
