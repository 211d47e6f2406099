/* The calls of the library. */
#ifndef PLANBOOK_CLI_LIBRARY_H
#define PLANBOOK_CLI_LIBRARY_H

#include <stddef.h>
#include <stdint.h>

#include "book.h"
#include "memory.h"

typedef uint64_t book_call(const uint8_t *words, size_t words_len, uint64_t way,
                           const uint8_t *book, size_t book_len, uint8_t *out, size_t out_len);

/*
 * One call for a key's words, a book, a page or a note; answers its check. Whatever it left on the
 * stack is wiped. The words are the expanded key, and as secret as the key.
 */
uint32_t call_for_words(struct bytes key, uint64_t way, struct bytes out);
uint32_t call_library(book_call *call, struct bytes words, uint64_t way, struct bytes book,
                      struct bytes out);
uint32_t call_for_page(struct bytes book, uint64_t sheet, struct bytes out);
uint32_t call_for_note(struct bytes words, uint64_t way, struct bytes counter, struct bytes note,
                       struct bytes out);

/*
 * The check at which the library refuses a clear or a sealed book, or 0. No key is needed for
 * either.
 */
uint32_t check_clear_book(struct bytes book);
uint32_t check_sealed_book(struct bytes book);

/*
 * The check of a clear book that has this record alone, in a sheet of this trial and number of
 * replicates.
 */
uint32_t check_record(const struct sheet *sheet, const uint8_t *record);

#endif
