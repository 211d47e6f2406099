/* A book's parts. */
#ifndef PLANBOOK_CLI_BOOK_H
#define PLANBOOK_CLI_BOOK_H

#include <stdbool.h>
#include <stddef.h>
#include <stdint.h>

#include "memory.h"
#include "planbook.h"

struct sheet {
    uint32_t trial;
    uint32_t count;
    uint32_t replicates;        /* as written in the book, where 0 is the default */
    const uint8_t *start_block; /* the field's IV */
    const uint8_t *records;
};

struct record {
    uint32_t trial, entry, replicate, row, column;
};

/* The number of sheets that a book of at least four bytes says it has. */
size_t sheet_count(struct bytes book);

/* A sheet of the contents without its records, from a book whose contents are there. */
struct sheet read_entry(struct bytes book, size_t sheet);
bool entry_has_zero(struct bytes book, size_t sheet);

/* The number of replicates that is in force: 4 where the book has 0. */
uint32_t replicates_of(const struct sheet *sheet);

/* The sheets of an accepted book; answers how many. */
size_t read_sheets(struct bytes book, struct sheet sheets[PLANBOOK_MAX_SHEETS]);
struct record read_record(const struct sheet *sheet, size_t place);

/* Whether a record has no place in the field yet: row and column are 0. */
bool in_reserve(const struct record *record);

void put_head(uint8_t *at, size_t sheets);
void put_entry(uint8_t *at, const struct sheet *sheet); /* without the start block */
uint8_t *start_block_of(struct bytes book, size_t sheet);
void put_record(uint8_t *at, const struct record *record);

#endif
