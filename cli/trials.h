/* The file of trials: start blocks and numbers of replicates. */
#ifndef PLANBOOK_CLI_TRIALS_H
#define PLANBOOK_CLI_TRIALS_H

#include <stdbool.h>
#include <stdint.h>

#include "lines.h"
#include "memory.h"

struct trials {
    struct lines lines; /* sorted by trial */
    bool has_start_blocks;
    bool good; /* no fault was reported */
};

/* The file of trials; the name is for messages. */
struct trials read_trials(struct bytes text, const char *name);

/*
 * The number of replicates that the file has for a trial: where it has none that can be relied on,
 * the greatest there is.
 */
uint32_t replicates_for(const struct trials *trials, uint32_t trial);

/*
 * Reports trials of a sorted plan that the file does not have, and such as the plan does not have.
 */
void match_trials(const struct lines *plan, const struct trials *trials);

/* Reports start blocks that are zero or shared in an accepted clear book, or warns of them. */
void report_start_blocks(const char *name, struct bytes book);
void warn_of_start_blocks(const char *name, struct bytes book);

/* Warns that a plan alone does not say the numbers of replicates that an accepted book has. */
void warn_of_replicates(const char *name, struct bytes book);

/* The file of trials of an accepted book. */
struct bytes unpack_trials(struct bytes book);

#endif
