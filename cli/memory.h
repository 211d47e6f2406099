/* Memory that is wiped before it is given back. */
#ifndef PLANBOOK_CLI_MEMORY_H
#define PLANBOOK_CLI_MEMORY_H

#include <stddef.h>
#include <stdint.h>

struct bytes {
    uint8_t *at;
    size_t len;
};

void memory_prepare(void);

/* Memory, or an exit. */
struct bytes new_bytes(size_t len);

/* Wipes and frees. */
void release(struct bytes *bytes);

/* All memory that is not released yet. */
void release_all(void);

#endif
