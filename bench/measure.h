/* All tasks timed on all sides, by turns. */
#ifndef MEASURE_H
#define MEASURE_H

/* What another load on the core did to the run. */
struct disturbance {
    int timings, kept; /* all, and those kept although the load was there */
    double waited_ns;
};

/* Waits at most this long in all for a quiet core; fewer turns may be made then. */
struct disturbance measure_tasks(double patience_ns);

#endif
