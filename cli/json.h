/* Accepted books as JSON. */
#ifndef PLANBOOK_CLI_JSON_H
#define PLANBOOK_CLI_JSON_H

#include <stdbool.h>
#include <stddef.h>

#include "book.h"
#include "memory.h"

/* Whether the book was opened for this is said too. */
struct bytes show_json(struct bytes book, bool opened);
struct bytes labels_json(struct bytes book);
struct bytes record_json(const struct sheet *sheet, size_t place);

#endif
