#include "support.h"

book_shape even_shape(size_t sheets, size_t count)
{
    book_shape shape = {sheets, {0}};
    for (size_t i = 0; i < sheets; i++)
        shape.counts[i] = count;
    return shape;
}

uint64_t refusal(int check)
{
    return (uint64_t)check << 32;
}

int check_of(uint64_t answer)
{
    return (int)(answer >> 32);
}

size_t load_u16(const uint8_t *bytes)
{
    return (size_t)bytes[0] << 8 | bytes[1];
}

void store_u16(uint8_t *bytes, size_t value)
{
    bytes[0] = (uint8_t)(value >> 8);
    bytes[1] = (uint8_t)value;
}

size_t sheets_of(const uint8_t *book)
{
    return load_u16(book + 2);
}

size_t contents_length(const uint8_t *book)
{
    return HEAD_LENGTH + ENTRY_LENGTH * sheets_of(book);
}

uint8_t *entry_at(uint8_t *book, size_t i)
{
    return book + HEAD_LENGTH + ENTRY_LENGTH * i;
}

size_t records_of(const uint8_t *entry)
{
    return load_u16(entry + 4);
}

uint8_t *record_at(uint8_t *book, size_t j)
{
    return book + contents_length(book) + RECORD_LENGTH * j;
}

const uint8_t one_record_book[ONE_RECORD_LENGTH] = {
    0x01, 0x00, 0x00, 0x01, /* head: a clear book of one sheet */
    0x00, 0x00, 0x00, 0x29, 0x00, 0x01, 0x00, 0x00, /* entry: trial, records, replicates */
    0xb1, 0x05, 0x7e, 0x92, 0x3c, 0xd8, 0x40, 0xef, /* and the start block */
    0x66, 0x1a, 0x8b, 0x27, 0xf4, 0x53, 0x0c, 0xae,
    0x00, 0x00, 0x00, 0x29, 0x00, 0x00, 0x00, 0x07, /* record: trial, entry */
    0x02, 0x00, 0x0c, 0x00, 0x03, 0x00, 0x00, 0x00, /* and replicate, row, column */
};

int is_words_length(uint64_t len)
{
    return len == 160 || len == 192 || len == 224;
}

void seal_by_reference(const uint8_t *words, size_t words_len, const uint8_t *clear, size_t len,
                       uint8_t *sealed)
{
    reference_words loaded;
    reference_load_words(&loaded, words, words_len);
    reference_encrypt_bodies(&loaded, clear, len, sealed);
    sealed[0] = SEALED_BOOK;
}
