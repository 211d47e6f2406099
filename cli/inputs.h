/* Files that are read. */
#ifndef PLANBOOK_CLI_INPUTS_H
#define PLANBOOK_CLI_INPUTS_H

#include <stdbool.h>
#include <stddef.h>

#include "memory.h"

bool is_standard(const char *name); /* null or "-": standard input or output */

/* What messages call it. */
const char *input_title(const char *name);

/*
 * The whole input, but never more than limit + 1 bytes: a caller sees by the length that there was
 * too much.
 */
struct bytes read_input(const char *name, size_t limit);

/* The same, with a warning if others may read the file. */
struct bytes read_secret_input(const char *name, size_t limit);

struct stat;
bool is_input(const struct stat *file);

#endif
