/* The lines of a plan and of a file of trials, sorted. */
#ifndef PLANBOOK_CLI_LINES_H
#define PLANBOOK_CLI_LINES_H

#include <stdbool.h>
#include <stddef.h>
#include <stdint.h>

#include "book.h"
#include "memory.h"

/*
 * A line as read: a record for the plan; for the file of trials a trial, which is in the
 * record, and what belongs to it.
 */
struct line {
    struct record record;
    uint8_t start_block[PLANBOOK_BLOCK_BYTES];
    uint32_t replicates;
    size_t line;
};

/*
 * Sorting moves pointers alone: the C library sorts in memory of its own, which it does not wipe.
 */
struct lines {
    const char *name;
    struct line *all;
    const struct line **sorted;
    size_t count;
    struct bytes room[2];
};

/* Room for as many lines as the text can have. */
struct lines new_lines(struct bytes text, const char *name);
void release_lines(struct lines *lines);

/* By trial, where lines of one trial keep their order; by trial, row and column. */
void sort_by_trial(struct lines *lines);
void sort_by_plot(struct lines *lines);

/* Whether two records are on one plot. Those in reserve are on none. */
bool same_plot(const struct record *x, const struct record *y);

/*
 * How many lines from this one on are of the same trial, in lines that are sorted; and how many
 * trials there are.
 */
size_t trial_lines(const struct lines *lines, size_t from);
size_t count_trials(const struct lines *lines);

#endif
