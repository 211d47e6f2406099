/*
 * The library beside plain C, by turns, in one run; with --beside it is beside
 * the library of an earlier commit, which bench/run has linked in place of plain
 * C. Before anything is timed, the sides are held to the published test vectors
 * and to the rule of records, and each task's outputs to each other. Prints
 * Markdown; bench/run makes a page of it.
 */
#include "core.h"
#include "measure.h"
#include "plot.h"
#include "report.h"
#include "sides.h"

#include <stdlib.h>
#include <string.h>

struct options {
    int strict, beside;
    double patience_ns;
    const char *svg;
};

static struct options read_options(int argc, char **argv)
{
    struct options o = {0, 0, 120e9, NULL};
    for (int i = 1; i < argc; i++)
        if (strcmp(argv[i], "--strict") == 0)
            o.strict = 1;
        else if (strcmp(argv[i], "--beside") == 0)
            o.beside = 1;
        else if (strcmp(argv[i], "--turns") == 0 && i + 1 < argc)
            turns = atoi(argv[++i]);
        else if (strcmp(argv[i], "--patience") == 0 && i + 1 < argc)
            o.patience_ns = 1e9 * atof(argv[++i]);
        else if (strcmp(argv[i], "--svg") == 0 && i + 1 < argc)
            o.svg = argv[++i];
        else
            turns = 0;
    if (turns < 1 || turns > MOST_TURNS)
        stop("usage: bench [--turns N] [--patience SECONDS] [--svg FILE] [--strict | --beside]");
    return o;
}

int main(int argc, char **argv)
{
    struct options o = read_options(argc, argv);
    struct scale scales[MOST_SCALES];
    take_next_cpu();
    check_sides();
    if (!o.beside)
        check_rule();
    draw_inputs();
    list_tasks(sides_have_pages());
    struct disturbance d = measure_tasks(o.patience_ns);
    if (o.beside) {
        print_beside(&d, other_side_takes_keys());
        return 0;
    }
    size_t scale_count = measure_scales(scales);
    int broken = print_report(&d, scales, scale_count);
    if (o.svg != NULL && !plot(o.svg, scales, scale_count))
        stop("the plot cannot be written");
    return o.strict && broken > 0 ? 2 : 0;
}
