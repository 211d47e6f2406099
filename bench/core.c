/*
 * Whether another load shares the core. The two threads of a core share its
 * units, so a loop of independent additions, which keeps them busy and touches
 * no memory, takes longer beside another load. docs/DECISIONS.md has the
 * measurement that the bound below is taken from.
 */
#define _GNU_SOURCE
#include "core.h"

#include <math.h>
#include <sched.h>
#include <stdint.h>
#include <stdio.h>
#include <time.h>

enum { ROUNDS = 20000, FIRST_LOOKS = 10000 };
static const double SHARED_ABOVE = 1.35;

static double quietest_ns = INFINITY;

double now_ns(void)
{
    struct timespec t;
    clock_gettime(CLOCK_THREAD_CPUTIME_ID, &t);
    return 1e9 * (double)t.tv_sec + (double)t.tv_nsec;
}

static double look(void)
{
    uint64_t a = 1, b = 2, c = 3, d = 4, e = 5, f = 6;
    double start = now_ns();
    for (uint64_t i = 0; i < ROUNDS; i++) {
        a += i, b += i, c += i, d += i, e += i, f += i;
        /* the compiler may neither drop nor merge what passes here */
        __asm__ volatile("" : "+r"(a), "+r"(b), "+r"(c), "+r"(d), "+r"(e), "+r"(f));
    }
    double ns = now_ns() - start;
    quietest_ns = fmin(quietest_ns, ns);
    return ns;
}

int core_is_shared(void)
{
    /* some tenths of a second to learn how fast the loop can be */
    while (isinf(quietest_ns))
        for (int i = 0; i < FIRST_LOOKS; i++)
            look();
    return look() > SHARED_ABOVE * quietest_ns;
}

/* Staying on one CPU keeps its caches; where that is refused, the turns still even it out. */
void take_next_cpu(void)
{
    static cpu_set_t allowed;
    static int cpu, refused;
    if (refused)
        return;
    if (CPU_COUNT(&allowed) == 0)
        sched_getaffinity(0, sizeof allowed, &allowed);
    do
        cpu = (cpu + 1) % CPU_SETSIZE;
    while (CPU_COUNT(&allowed) > 0 && !CPU_ISSET((size_t)cpu, &allowed));
    cpu_set_t one;
    CPU_ZERO(&one);
    CPU_SET((size_t)cpu, &one);
    refused = sched_setaffinity(0, sizeof one, &one) != 0;
    if (refused)
        fprintf(stderr, "bench: not pinned to one CPU\n");
}
