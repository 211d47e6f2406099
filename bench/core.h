/* The core that measures: its time, and whether it has it to itself. */
#ifndef CORE_H
#define CORE_H

/* The thread's own time, so that other work on the machine counts for less. */
double now_ns(void);

/* Whether another load shares the core just now. */
int core_is_shared(void);

/* Stays on one of the CPUs that this process may use, each in its turn. */
void take_next_cpu(void);

#endif
