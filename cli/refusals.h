/* What the library refuses, in the words of the user's plan. */
#ifndef PLANBOOK_CLI_REFUSALS_H
#define PLANBOOK_CLI_REFUSALS_H

#include <stdint.h>

#include "book.h"
#include "memory.h"

/*
 * Why a book was refused that should have been a clear one, or a sealed one that was to be opened.
 */
void refuse_clear_book(const char *name, struct bytes book, uint32_t check)
    __attribute__((noreturn));
void refuse_sealed_book(const char *name, struct bytes book, uint32_t check)
    __attribute__((noreturn));

/*
 * Why the page of a sheet was refused: because of the clear book, or because it has no such sheet.
 */
void refuse_page(const char *name, struct bytes book, uint64_t sheet, uint32_t check)
    __attribute__((noreturn));

/* Why a note was refused, or its counter block. */
void refuse_note(const char *name, struct bytes counter, uint32_t check) __attribute__((noreturn));

/* What is wrong with a record or a trial number that the library has refused. */
const char *record_fault(const struct record *record, const struct sheet *sheet);

#endif
