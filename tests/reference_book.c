#include "reference_book.h"

#include <stdio.h>
#include <stdlib.h>
#include <string.h>

static unsigned bit(int check)
{
    return 1u << check;
}

static size_t load_u16(const uint8_t *bytes)
{
    return (size_t)bytes[0] << 8 | bytes[1];
}

const char *call_name(call_kind kind)
{
    static const char *const names[CALLS] = {
        "constants",    "expand key",   "encrypt block", "decrypt block",
        "encrypt book", "decrypt book", "crypt note",    "page",
    };
    return names[kind];
}

int call_has_secret(call_kind kind)
{
    return kind != CALL_CONSTANTS && kind != CALL_PAGE;
}

int call_has_words(call_kind kind)
{
    return call_has_secret(kind) && kind != CALL_EXPAND_KEY;
}

int call_is_block(call_kind kind)
{
    return kind == CALL_ENCRYPT_BLOCK || kind == CALL_DECRYPT_BLOCK;
}

int call_is_book(call_kind kind)
{
    return kind == CALL_ENCRYPT_BOOK || kind == CALL_DECRYPT_BOOK || kind == CALL_PAGE;
}

int call_is_long(call_kind kind)
{
    return call_is_book(kind) || kind == CALL_CRYPT_NOTE;
}

int call_has_input(call_kind kind)
{
    return call_is_block(kind) || call_is_long(kind);
}

int check_place(call_kind kind, int check)
{
    if (check == CHECK_WORDS)
        return CHECK_KEY;
    return kind == CALL_PAGE && check == CHECK_OUTPUT_LENGTH ? LAST_CHECK + 1 : check;
}

/* What can be read of a book, whatever is wrong with it. */
typedef struct {
    const uint8_t *bytes;
    size_t len;
    size_t sheets;  /* as the head says */
    size_t entries; /* those that lie whole in the book */
    size_t records; /* the sum of the entries' counts */
} book_view;

static const uint8_t *entry_of(const book_view *book, size_t i)
{
    return book->bytes + HEAD_LENGTH + ENTRY_LENGTH * i;
}

static size_t count_of(const book_view *book, size_t i)
{
    return load_u16(entry_of(book, i) + 4);
}

static size_t contents_end(const book_view *book)
{
    return HEAD_LENGTH + ENTRY_LENGTH * book->sheets;
}

static book_view view_book(const uint8_t *bytes, size_t len)
{
    book_view book = {bytes, len, load_u16(bytes + 2), 0, 0};
    book.entries = (len - HEAD_LENGTH) / ENTRY_LENGTH;
    if (book.entries > book.sheets)
        book.entries = book.sheets;
    for (size_t i = 0; i < book.entries; i++)
        book.records += count_of(&book, i);
    return book;
}

/* Checks 1 to 4, 12 and 14. */

static int key_length_permitted(uint64_t len)
{
    return len == 16 || len == 24 || len == 32;
}

static int words_length_permitted(uint64_t len)
{
    return len == 160 || len == 192 || len == 224;
}

static size_t words_for(call_kind kind, uint64_t key_len)
{
    if (kind == CALL_CONSTANTS)
        return key_len == 16 ? 60 : key_len == 24 ? 84 : key_len == 32 ? 92 : 0;
    return key_len == 16 ? 40 : key_len == 24 ? 48 : key_len == 32 ? 56 : 0;
}

/* A heading, and a line for each record. */
static size_t page_length(const call_input *in)
{
    book_view book;
    if (in->input_len < HEAD_LENGTH)
        return 0;
    book = view_book(in->input, in->input_len);
    if (in->sheet >= book.entries || count_of(&book, in->sheet) > MAX_RECORDS)
        return 0;
    return LINE_LENGTH * (1 + count_of(&book, in->sheet));
}

size_t reference_output_length(const call_input *in)
{
    if (in->kind == CALL_PAGE)
        return page_length(in);
    if (call_is_long(in->kind))
        return in->input_len;
    if (call_is_block(in->kind))
        return REFERENCE_BLOCK;
    return 4 * words_for(in->kind, in->secret_len);
}

/* Two lines are the least, since no sheet is empty. */
static int page_may_have_length(size_t len)
{
    return len % LINE_LENGTH == 0 && len >= 2 * LINE_LENGTH && len <= MAX_PAGE_LENGTH;
}

static int output_length_wrong(const call_input *in)
{
    size_t len = in->out_len;
    if (in->kind == CALL_PAGE && page_length(in) == 0)
        return !page_may_have_length(len);
    if (call_has_input(in->kind) || key_length_permitted(in->secret_len))
        return len != reference_output_length(in);
    return len != 4 * words_for(in->kind, 16) && len != 4 * words_for(in->kind, 24) &&
           len != 4 * words_for(in->kind, 32);
}

static unsigned failing_without_book(const call_input *in)
{
    unsigned failing = 0;
    if ((in->kind == CALL_CONSTANTS || in->kind == CALL_EXPAND_KEY) &&
        !key_length_permitted(in->secret_len))
        failing |= bit(CHECK_KEY);
    if (call_has_words(in->kind) && !words_length_permitted(in->secret_len))
        failing |= bit(CHECK_WORDS);
    if (call_has_secret(in->kind) && in->way != 1 && in->way != 2 && in->way != 3)
        failing |= bit(CHECK_WAY);
    if (call_is_block(in->kind) && in->input_len != REFERENCE_BLOCK)
        failing |= bit(CHECK_BLOCK_LENGTH);
    if (in->kind == CALL_CRYPT_NOTE && in->counter_len != COUNTER_LENGTH)
        failing |= bit(CHECK_BLOCK_LENGTH);
    if (output_length_wrong(in))
        failing |= bit(CHECK_OUTPUT_LENGTH);
    if (in->kind == CALL_CRYPT_NOTE && in->input_len > MAX_NOTE_LENGTH)
        failing |= bit(CHECK_NOTE_LENGTH);
    return failing;
}

/* Books of past seasons have 0 in this byte, and replicates up to 4. */
unsigned reference_replicates(const uint8_t *entry)
{
    return entry[6] == 0 ? DEFAULT_REPLICATES : entry[6];
}

static int entry_holds(const book_view *book, size_t i)
{
    const uint8_t *entry = entry_of(book, i);
    uint32_t trial = reference_load_word(entry);
    uint32_t before = i == 0 ? 0 : reference_load_word(entry_of(book, i - 1));
    size_t count = count_of(book, i);
    return trial > before && count >= 1 && count <= MAX_RECORDS &&
           reference_replicates(entry) <= MAX_REPLICATES && entry[7] == 0;
}

static int some_entry_broken(const book_view *book)
{
    for (size_t i = 0; i < book->entries; i++)
        if (!entry_holds(book, i))
            return 1;
    return 0;
}

/* The records of a sheet that lie whole in the book, from *at on; moves *at
 * after the sheet's body. */
static size_t records_there(const book_view *book, size_t sheet, size_t *at)
{
    size_t start = *at;
    *at += RECORD_LENGTH * count_of(book, sheet);
    if (*at <= book->len)
        return count_of(book, sheet);
    return start < book->len ? (book->len - start) / RECORD_LENGTH : 0;
}

/* A plot in reserve has neither row nor column. A plot that has one of them
 * has both, and neither is above its limit. */
static int plot_holds(size_t row, size_t column)
{
    if (row == 0 || column == 0)
        return row == column;
    return row <= MAX_ROW && column <= MAX_COLUMN;
}

static int record_holds(const uint8_t *record, const uint8_t *entry)
{
    return memcmp(record, entry, 4) == 0 && reference_load_word(record + 4) != 0 &&
           record[8] >= 1 && record[8] <= reference_replicates(entry) &&
           plot_holds(load_u16(record + 9), load_u16(record + 11)) && record[13] == 0 &&
           record[14] == 0 && record[15] == 0;
}

/* CBC. */

static void xor_block(uint8_t *to, const uint8_t *a, const uint8_t *b)
{
    for (unsigned i = 0; i < REFERENCE_BLOCK; i++)
        to[i] = a[i] ^ b[i];
}

static void encrypt_record(const reference_words *words, const uint8_t *chain, const uint8_t *in,
                           uint8_t *out)
{
    uint8_t block[REFERENCE_BLOCK];
    xor_block(block, in, chain);
    reference_encrypt_block(words, block, out);
}

static void decrypt_record(const reference_words *words, const uint8_t *chain, const uint8_t *in,
                           uint8_t *out)
{
    uint8_t block[REFERENCE_BLOCK];
    reference_decrypt_block(words, in, block);
    xor_block(out, block, chain);
}

/* Whether some record that is there breaks its rule. clear is a copy of the
 * book; with words, its records are decrypted up to the first that does. */
static int some_record_breaks_rule(const book_view *book, const reference_words *words,
                                   uint8_t *clear)
{
    size_t next = contents_end(book);
    if (book->entries < book->sheets)
        return 0;
    for (size_t i = 0; i < book->sheets; i++) {
        const uint8_t *chain = entry_of(book, i) + 8;
        size_t at = next;
        size_t there = records_there(book, i, &next);
        for (size_t j = 0; j < there; j++, at += RECORD_LENGTH) {
            if (words != NULL)
                decrypt_record(words, chain, book->bytes + at, clear + at);
            chain = book->bytes + at;
            if (!record_holds(clear + at, entry_of(book, i)))
                return 1;
        }
    }
    return 0;
}

/* Each sheet begins at its own iv. */
void reference_encrypt_bodies(const reference_words *words, const uint8_t *bytes, size_t len,
                              uint8_t *out)
{
    book_view book = view_book(bytes, len);
    size_t next = contents_end(&book);
    memcpy(out, bytes, len);
    if (book.entries < book.sheets)
        return;
    for (size_t i = 0; i < book.sheets; i++) {
        const uint8_t *chain = entry_of(&book, i) + 8;
        size_t at = next;
        size_t there = records_there(&book, i, &next);
        for (size_t j = 0; j < there; j++, at += RECORD_LENGTH) {
            encrypt_record(words, chain, bytes + at, out + at);
            chain = out + at;
        }
    }
}

/* The planting page of a sheet; the count is its lines. A page is asked for only where no check
 * fails. */

static void write_line(const uint8_t *record, uint8_t *out)
{
    char text[64];
    int len = snprintf(text, sizeof text, "%10lu %10lu %1u %3u %3u\n",
                       (unsigned long)reference_load_word(record),
                       (unsigned long)reference_load_word(record + 4), record[8],
                       (unsigned)load_u16(record + 9), (unsigned)load_u16(record + 11));
    if (len != LINE_LENGTH) {
        fprintf(stderr, "reference: a line of %d bytes\n", len);
        exit(2);
    }
    memcpy(out, text, LINE_LENGTH);
}

static uint64_t write_page(const book_view *book, size_t sheet, uint8_t *out)
{
    static const char heading[] = "     TRIAL      ENTRY R ROW COL\n";
    const uint8_t *record = book->bytes + contents_end(book);
    size_t count = count_of(book, sheet);
    for (size_t i = 0; i < sheet; i++)
        record += RECORD_LENGTH * count_of(book, i);
    memcpy(out, heading, LINE_LENGTH);
    for (size_t j = 0; j < count; j++)
        write_line(record + RECORD_LENGTH * j, out + LINE_LENGTH * (j + 1));
    return count + 1;
}

/* Checks 5 to 11, and 13. */

static unsigned failing_head(const call_input *in)
{
    unsigned permitted = in->kind == CALL_DECRYPT_BOOK ? SEALED_BOOK : CLEAR_BOOK;
    unsigned failing = 0;
    if (in->input_len < HEAD_LENGTH || in->input_len > MAX_BOOK_LENGTH)
        failing |= bit(CHECK_BOOK_LENGTH);
    if ((in->input_len > 0 && in->input[0] != permitted) ||
        (in->input_len > 1 && in->input[1] != 0))
        failing |= bit(CHECK_HEAD);
    return failing;
}

static unsigned failing_contents(const call_input *in, const book_view *book)
{
    unsigned failing = 0;
    if (in->kind == CALL_PAGE && in->sheet >= book->sheets)
        failing |= bit(CHECK_SHEET_INDEX);
    if (book->sheets > MAX_SHEETS)
        failing |= bit(CHECK_SHEET_NUMBER);
    if (book->len < contents_end(book))
        failing |= bit(CHECK_CONTENTS_LENGTH);
    if (some_entry_broken(book))
        failing |= bit(CHECK_ENTRY);
    if (book->len != contents_end(book) + RECORD_LENGTH * book->records)
        failing |= bit(CHECK_LENGTH);
    return failing;
}

static uint8_t *allocate(size_t len)
{
    uint8_t *bytes = malloc(len);
    if (bytes == NULL) {
        fprintf(stderr, "reference: no memory for a book of %zu bytes\n", len);
        exit(2);
    }
    return bytes;
}

/* What the book becomes. clear is a copy of it in which the records are decrypted already. Answers
 * the count. */
static uint64_t write_book(const call_input *in, const book_view *book,
                           const reference_words *words, const uint8_t *clear, uint8_t *out)
{
    if (in->kind == CALL_PAGE)
        return write_page(book, in->sheet, out);
    if (in->kind == CALL_ENCRYPT_BOOK)
        reference_encrypt_bodies(words, book->bytes, book->len, out);
    else
        memcpy(out, clear, book->len);
    out[0] = in->kind == CALL_ENCRYPT_BOOK ? SEALED_BOOK : CLEAR_BOOK;
    return book->records;
}

/* The verdict on a book whose head is there; failing are the checks that
 * were seen to fail before. */
static verdict book_verdict(const call_input *in, unsigned failing, uint8_t *out)
{
    book_view book = view_book(in->input, in->input_len);
    uint8_t *clear = allocate(book.len);
    verdict v = {failing | failing_contents(in, &book), 0};
    int decrypting = in->kind == CALL_DECRYPT_BOOK;
    int has_words = call_has_words(in->kind) && words_length_permitted(in->secret_len);
    reference_words words;

    if (has_words)
        reference_load_words(&words, in->secret, in->secret_len);
    memcpy(clear, book.bytes, book.len);
    if ((!decrypting || has_words) &&
        some_record_breaks_rule(&book, decrypting ? &words : NULL, clear))
        v.failing |= bit(CHECK_RECORD);
    if (v.failing == 0)
        v.answer = write_book(in, &book, &words, clear, out);
    free(clear);
    return v;
}

/* Counter mode. */

/* The next counter block. No carry leaves the bytes that count. */
static void count_up(uint8_t *counter)
{
    for (int i = COUNTER_LENGTH - 1; i >= COUNTER_PREFIX_LENGTH; i--)
        if (++counter[i] != 0)
            return;
}

static uint64_t crypt_note(const reference_words *words, const call_input *in, uint8_t *out)
{
    uint8_t counter[COUNTER_LENGTH], encrypted[REFERENCE_BLOCK];
    memcpy(counter, in->counter, COUNTER_LENGTH);
    for (size_t at = 0; at < in->input_len; at += REFERENCE_BLOCK) {
        reference_encrypt_block(words, counter, encrypted);
        for (size_t i = 0; i < REFERENCE_BLOCK && at + i < in->input_len; i++)
            out[at + i] = in->input[at + i] ^ encrypted[i];
        count_up(counter);
    }
    return in->input_len;
}

/* Accepted outputs of the other calls; each answers its count. */

static uint64_t write_constants(uint64_t key_len, uint8_t *out)
{
    size_t count;
    const uint32_t *words = reference_constants(key_len, &count);
    for (size_t i = 0; i < count; i++)
        reference_store_word(out + 4 * i, words[i]);
    return count;
}

static uint64_t write_expanded_key(const call_input *in, uint8_t *out)
{
    reference_words words;
    reference_expand_key(&words, in->secret, in->secret_len);
    return reference_store_words(out, &words);
}

static uint64_t accepted(const call_input *in, uint8_t *out)
{
    reference_words words;
    if (in->kind == CALL_CONSTANTS)
        return write_constants(in->secret_len, out);
    if (in->kind == CALL_EXPAND_KEY)
        return write_expanded_key(in, out);
    reference_load_words(&words, in->secret, in->secret_len);
    switch (in->kind) {
    case CALL_ENCRYPT_BLOCK: reference_encrypt_block(&words, in->input, out); return 1;
    case CALL_CRYPT_NOTE: return crypt_note(&words, in, out);
    default: reference_decrypt_block(&words, in->input, out); return 1;
    }
}

static uint64_t answer_of(call_kind kind, unsigned failing, uint64_t count)
{
    int first = 0;
    for (int check = 1; check <= LAST_CHECK; check++)
        if ((failing & bit(check)) &&
            (first == 0 || check_place(kind, check) < check_place(kind, first)))
            first = check;
    return first == 0 ? count : (uint64_t)first << 32;
}

verdict reference_call(const call_input *in, uint8_t *out)
{
    verdict v = {failing_without_book(in), 0};
    if (call_is_book(in->kind)) {
        v.failing |= failing_head(in);
        if (in->input_len >= HEAD_LENGTH)
            v = book_verdict(in, v.failing, out);
    } else if (v.failing == 0) {
        v.answer = accepted(in, out);
    }
    v.answer = answer_of(in->kind, v.failing, v.answer);
    return v;
}
