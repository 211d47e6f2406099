/* Accepted books as tables for people. */
#ifndef PLANBOOK_CLI_TABLES_H
#define PLANBOOK_CLI_TABLES_H

#include <stdbool.h>
#include <stddef.h>

#include "book.h"
#include "memory.h"

/* Whether the book was opened for this is said too. */
struct bytes show_table(struct bytes book, bool opened);
struct bytes labels_table(struct bytes book);
struct bytes record_table(const struct sheet *sheet, size_t place);

#endif
