/*
 * Memory for keys, their words, books and text. The command asks for all of it here, and it is
 * wiped before it is given back: by release, or when the command ends, by whatever way.
 */
#define _DEFAULT_SOURCE
#include "memory.h"

#include "messages.h"
#include "planbook.h"

#include <stdlib.h>
#include <string.h>

#define MAX_HELD 32 /* no verb holds so many at once */

static struct bytes held[MAX_HELD];

static struct bytes *held_at(const uint8_t *at)
{
    for (size_t i = 0; i < MAX_HELD; i++)
        if (held[i].at == at)
            return &held[i];
    return NULL;
}

struct bytes new_bytes(size_t len)
{
    struct bytes *place = held_at(NULL);
    uint8_t *at = place == NULL ? NULL : malloc(len > 0 ? len : 1);
    if (at == NULL)
        fail("no memory for %zu bytes", len);
    *place = (struct bytes){at, len};
    return *place;
}

/* The length noted here counts, since a reader shortens its own. */
void release(struct bytes *bytes)
{
    struct bytes *place = bytes->at == NULL ? NULL : held_at(bytes->at);
    if (place != NULL) {
        explicit_bzero(place->at, place->len);
        free(place->at);
        *place = (struct bytes){NULL, 0};
    }
    *bytes = (struct bytes){NULL, 0};
}

void release_all(void)
{
    for (size_t i = 0; i < MAX_HELD; i++)
        if (held[i].at != NULL) {
            struct bytes bytes = held[i];
            release(&bytes);
        }
}

/*
 * What was called before is below this function on the stack, but for what an error has left in
 * the middle.
 */
static void wipe_at_exit(void)
{
    release_all();
    planbook_wipe_stack();
}

void memory_prepare(void)
{
    atexit(wipe_at_exit);
}
