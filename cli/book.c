/*
 * A book's parts. Whether a book is in order is decided by the library alone: these functions read
 * only what it has accepted so far, so they check nothing, and they write books for it to accept or
 * refuse.
 */
#include "book.h"

#include <string.h>

static uint32_t get_16(const uint8_t *at)
{
    return (uint32_t)at[0] << 8 | at[1];
}

static uint32_t get_32(const uint8_t *at)
{
    return get_16(at) << 16 | get_16(at + 2);
}

static void put_16(uint8_t *at, uint32_t number)
{
    at[0] = (uint8_t)(number >> 8);
    at[1] = (uint8_t)number;
}

static void put_32(uint8_t *at, uint32_t number)
{
    put_16(at, number >> 16);
    put_16(at + 2, number);
}

/* Head: kind, zero, number of sheets in two bytes. */
void put_head(uint8_t *at, size_t sheets)
{
    at[0] = PLANBOOK_CLEAR;
    at[1] = 0;
    put_16(at + 2, (uint32_t)sheets);
}

size_t sheet_count(struct bytes book)
{
    return get_16(book.at + 2);
}

/*
 * Contents entry: trial in four bytes, record count in two, number of replicates in one, a zero
 * byte, start block.
 */
void put_entry(uint8_t *at, const struct sheet *sheet)
{
    put_32(at, sheet->trial);
    put_16(at + 4, sheet->count);
    at[6] = (uint8_t)sheet->replicates;
    at[7] = 0;
}

static uint8_t *entry_of(struct bytes book, size_t sheet)
{
    return book.at + PLANBOOK_HEAD_BYTES + PLANBOOK_ENTRY_BYTES * sheet;
}

uint8_t *start_block_of(struct bytes book, size_t sheet)
{
    return entry_of(book, sheet) + 8;
}

bool entry_has_zero(struct bytes book, size_t sheet)
{
    return entry_of(book, sheet)[7] == 0;
}

struct sheet read_entry(struct bytes book, size_t sheet)
{
    const uint8_t *entry = entry_of(book, sheet);
    return (struct sheet){get_32(entry), get_16(entry + 4), entry[6], start_block_of(book, sheet),
                          NULL};
}

uint32_t replicates_of(const struct sheet *sheet)
{
    return sheet->replicates == 0 ? PLANBOOK_DEFAULT_REPLICATES : sheet->replicates;
}

size_t read_sheets(struct bytes book, struct sheet sheets[PLANBOOK_MAX_SHEETS])
{
    size_t n = sheet_count(book);
    const uint8_t *records = entry_of(book, n);
    for (size_t i = 0; i < n; i++) {
        sheets[i] = read_entry(book, i);
        sheets[i].records = records;
        records += PLANBOOK_RECORD_BYTES * sheets[i].count;
    }
    return n;
}

/*
 * Record: trial and entry in four bytes each, replicate in one, row and column in two each, three
 * zero bytes.
 */
struct record read_record(const struct sheet *sheet, size_t place)
{
    const uint8_t *at = sheet->records + PLANBOOK_RECORD_BYTES * place;
    return (struct record){get_32(at), get_32(at + 4), at[8], get_16(at + 9), get_16(at + 11)};
}

bool in_reserve(const struct record *record)
{
    return record->row == 0 && record->column == 0;
}

void put_record(uint8_t *at, const struct record *record)
{
    put_32(at, record->trial);
    put_32(at + 4, record->entry);
    at[8] = (uint8_t)record->replicate;
    put_16(at + 9, record->row);
    put_16(at + 11, record->column);
    memset(at + 13, 0, 3);
}
