#include "measure.h"
#include "core.h"
#include "sides.h"

#include <stdio.h>

enum { WARM_UP_TURNS = 2, FEWEST_TURNS = 9, MOST_LOOKS = 100 };
static const double TURN_NS = 4e5;

/* A call goes before, untimed, to fill the caches; a long one does that by itself. */
static double time_calls(const struct task *t, enum side side)
{
    if (t->repeats > 1)
        call(t, side, t->repeats);
    double start = now_ns();
    for (size_t i = 0; i < t->repeats; i++)
        call(t, side, i);
    return (now_ns() - start) / (double)t->repeats;
}

static void check_tasks(void)
{
    for (size_t i = 0; i < task_count; i++) {
        struct task *t = &tasks[i];
        make_ready(t);
        check_agreement(t);
        t->repeats = 1;
        t->repeats += (size_t)(TURN_NS / time_calls(t, PLAIN));
    }
}

/* The library and plain C change places with each turn. */
static void time_sides(const struct task *t, int turn, double ns[SIDES])
{
    const enum side first = turn % 2 == 0 ? LIBRARY : PLAIN;
    const enum side order[SIDES] = {first, first == LIBRARY ? PLAIN : LIBRARY, PACKED, PRINTED};
    for (int k = 0; k < SIDES; k++)
        if (has_side(t, order[k]))
            ns[order[k]] = time_calls(t, order[k]);
}

static int timed_alone(const struct task *t, int turn, double ns[SIDES])
{
    for (int looks = 0; core_is_shared(); looks++)
        if (looks == MOST_LOOKS)
            return 0;
    time_sides(t, turn, ns);
    return !core_is_shared();
}

/*
 * A timing that another load on the core spoilt is made again on the next CPU,
 * until the patience of the whole run is spent.
 */
static void time_task(const struct task *t, int turn, double ns[SIDES], double patience_ns,
                      struct disturbance *d)
{
    d->timings++;
    while (d->waited_ns < patience_ns) {
        double start = now_ns();
        if (timed_alone(t, turn, ns))
            return;
        take_next_cpu();
        d->waited_ns += now_ns() - start;
    }
    time_sides(t, turn, ns);
    d->kept++;
}

/*
 * A turn goes through all tasks, so that a slow minute of the machine falls on
 * all alike. Rather fewer turns than disturbed ones.
 */
struct disturbance measure_tasks(double patience_ns)
{
    struct disturbance d = {0, 0, 0};
    check_tasks();
    for (int turn = -WARM_UP_TURNS; turn < turns; turn++) {
        if (d.waited_ns >= patience_ns && turn >= FEWEST_TURNS) {
            turns = turn;
            break;
        }
        if (turn % 10 == 0)
            fprintf(stderr, "bench: turn %d of %d\n", turn, turns);
        for (size_t i = 0; i < task_count; i++) {
            double ns[SIDES] = {0};
            make_ready(&tasks[i]);
            time_task(&tasks[i], turn + WARM_UP_TURNS, ns, patience_ns, &d);
            for (int side = 0; side < SIDES && turn >= 0; side++)
                tasks[i].ns[side][turn] = ns[side];
        }
    }
    return d;
}
