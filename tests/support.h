/*
 * What the tests share beside making cases and comparing calls: answers, the
 * places in a book, books of a shape, and sealing by the reference. The
 * reference uses nothing of this.
 */
#ifndef SUPPORT_H
#define SUPPORT_H

#include "reference_book.h"

enum { MAX_TEST_SHEETS = 96 };

/* The numbers of records in the sheets of a book. */
typedef struct {
    size_t sheets;
    size_t counts[MAX_TEST_SHEETS];
} book_shape;

/* Sheets of the same number of records each. */
book_shape even_shape(size_t sheets, size_t count);

/* The answer of a call that this check refuses, and the check of an answer. */
uint64_t refusal(int check);
int check_of(uint64_t answer);

/* Numbers of two bytes, the highest first. */
size_t load_u16(const uint8_t *bytes);
void store_u16(uint8_t *bytes, size_t value);

/* What a book says, and where its parts are. Records are counted over all sheets. */
size_t sheets_of(const uint8_t *book);
size_t contents_length(const uint8_t *book); /* with the head */
uint8_t *entry_at(uint8_t *book, size_t i);
size_t records_of(const uint8_t *entry);
uint8_t *record_at(uint8_t *book, size_t j);

/* A clear book typed out by hand: a sheet of trial 41, and in it one record with entry 7, replicate
 * 2, row 12 and column 3. */
enum { ONE_RECORD_LENGTH = HEAD_LENGTH + ENTRY_LENGTH + RECORD_LENGTH };
extern const uint8_t one_record_book[ONE_RECORD_LENGTH];

/* Whether these are the bytes that the words of a key have. */
int is_words_length(uint64_t len);

/* A clear book sealed under these words by the reference; words_len must be that of a key's
 * words. */
void seal_by_reference(const uint8_t *words, size_t words_len, const uint8_t *clear, size_t len,
                       uint8_t *sealed);

#endif
