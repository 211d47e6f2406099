/* Plans as CSV become books, and books plans. */
#ifndef PLANBOOK_CLI_PLAN_H
#define PLANBOOK_CLI_PLAN_H

#include <stdbool.h>

#include "memory.h"

/* Whether an input is a plan rather than a book: it begins with text. */
bool is_plan(struct bytes input);

/*
 * Whether start blocks of a file of trials are used. Where there are none, or none are used, they
 * are drawn.
 */
enum start_blocks { AS_GIVEN, ALWAYS_DRAWN };

/*
 * The clear book of a plan, accepted by the library; the names are for messages. Where there is no
 * file of trials, trials is null.
 */
struct bytes pack_plan(struct bytes plan, const char *plan_name, const struct bytes *trials,
                       const char *trials_name, enum start_blocks start_blocks);

/* The plan of an accepted clear book. */
struct bytes unpack_plan(struct bytes book);

#endif
