/* Files that are written. They appear whole or not at all. */
#ifndef PLANBOOK_CLI_OUTPUTS_H
#define PLANBOOK_CLI_OUTPUTS_H

#include <stdbool.h>
#include <stddef.h>

#include "memory.h"

/* Closed standard streams and signals, before anything is opened. */
void outputs_prepare(void);

/*
 * What becomes of an existing file. A key is kept whatever the user says: it may be the only one to
 * books that are sealed.
 */
enum existing { KEEP, KEEP_KEY, REPLACE };

struct output {
    const char *name;
    struct bytes bytes;
    bool secret; /* a new file gets mode 0600, whatever the umask permits */
    enum existing existing;
};

#define MAX_OUTPUTS 2

/* Makes all outputs or, as far as the system lets it, none. */
void write_outputs(const struct output *outputs, size_t count);

#endif
