/*
 * The rules of the calls, of the plan book, of the notes and of the planting
 * pages, written a second time.
 *
 * The library stops at the first check that fails. Here every check is judged
 * by itself, and the answer is the first in the call's order that fails: the
 * two can agree only if the order of the checks is right too.
 *
 * A check that reads bytes is judged on those that are there:
 *   1 to 5   always, in the calls that have them, and so are 12 and 14; 4
 *            fails beside a wrong key length if the output fits none of the
 *            permitted ones, and beside a sheet whose record count is not
 *            there or above 1,024 if no page is as long as the output;
 *   6        if a byte that is there shows it;
 *   7, 8     if the head is there;
 *   9        if some entry that lies whole in the book is broken;
 *   10       if the head is there; R is summed over the entries that are there;
 *   11       if the contents are whole; each record that lies whole in the book
 *            is held against the entry whose count reaches it. When decrypting
 *            it needs words of a permitted length;
 *   13       if the head is there.
 * Two checks fail together on an input if both fail in this sense. The test
 * counts such a pair where the earlier of the two is the answer.
 */
#ifndef REFERENCE_BOOK_H
#define REFERENCE_BOOK_H

#include "reference_clefia.h"

enum {
    CHECK_KEY = 1,
    CHECK_WAY,
    CHECK_BLOCK_LENGTH,
    CHECK_OUTPUT_LENGTH,
    CHECK_BOOK_LENGTH,
    CHECK_HEAD,
    CHECK_SHEET_NUMBER,
    CHECK_CONTENTS_LENGTH,
    CHECK_ENTRY,
    CHECK_LENGTH,
    CHECK_RECORD,
    CHECK_NOTE_LENGTH,
    CHECK_SHEET_INDEX,
    CHECK_WORDS,
    LAST_CHECK = CHECK_WORDS
};

enum {
    HEAD_LENGTH = 4,
    ENTRY_LENGTH = 24,
    RECORD_LENGTH = REFERENCE_BLOCK,
    CLEAR_BOOK = 1,
    SEALED_BOOK = 2,
    MAX_BOOK_LENGTH = 65532,
    MAX_SHEETS = 64,
    MAX_RECORDS = 1024,
    MAX_REPLICATES = 8,
    DEFAULT_REPLICATES = 4, /* where an entry has 0 */
    MAX_ROW = 999,
    MAX_COLUMN = 999
};

enum {
    MAX_NOTE_LENGTH = 16384,
    COUNTER_LENGTH = REFERENCE_BLOCK,
    COUNTER_PREFIX_LENGTH = 12 /* the bytes that do not count */
};

enum { LINE_LENGTH = 32, MAX_PAGE_LENGTH = LINE_LENGTH * (MAX_RECORDS + 1) };

typedef enum {
    CALL_CONSTANTS,
    CALL_EXPAND_KEY,
    CALL_ENCRYPT_BLOCK,
    CALL_DECRYPT_BLOCK,
    CALL_ENCRYPT_BOOK,
    CALL_DECRYPT_BOOK,
    CALL_CRYPT_NOTE,
    CALL_PAGE,
    CALLS
} call_kind;

/* Calls without a counter block are written down without its two fields, which
 * are then null and 0, and those without a sheet without that. */
#ifdef __GNUC__
#pragma GCC diagnostic ignored "-Wmissing-field-initializers"
#endif

/* What is passed to one call. The secret is the key where one is expanded, and
 * the words in the calls for blocks, books and notes. Constants have no secret,
 * way or input; secret_len is then the key length that is given as a number.
 * Only a note has a counter block; the note itself is the input. Only a page
 * has a sheet, and no secret or way. */
typedef struct {
    call_kind kind;
    const uint8_t *secret;
    uint64_t secret_len;
    uint64_t way;
    const uint8_t *input;
    size_t input_len;
    size_t out_len;
    const uint8_t *counter;
    size_t counter_len;
    uint64_t sheet;
} call_input;

typedef struct {
    unsigned failing; /* bit c is set if check c fails */
    uint64_t answer;
} verdict;

const char *call_name(call_kind kind);
int call_has_words(call_kind kind);
int call_has_secret(call_kind kind); /* the bytes of a key or of words, and a way */
int call_is_block(call_kind kind);
int call_is_book(call_kind kind); /* the input is a book */
int call_is_long(call_kind kind); /* it is a book or a note */
int call_has_input(call_kind kind);

/* The place of a check in a call's order: its number; but 14 is where 1 is in
 * the call with a key, and 4 comes last in a page, whose length the book says. */
int check_place(call_kind kind, int check);

/* The bytes of output that a call asks for where its other lengths are right;
 * 0 where the key length is not permitted and decides it, or where the sheet's
 * record count does and is not there or above 1,024. */
size_t reference_output_length(const call_input *in);

/* The number of replicates that an entry gives its sheet, within the limit or
 * not. */
unsigned reference_replicates(const uint8_t *entry);

/* The verdict on a call. At entry out holds the out_len bytes that the
 * output holds before the call, at exit those that it must hold afterwards. */
verdict reference_call(const call_input *in, uint8_t *out);

/* Encrypts the records of each sheet that are there, whatever else is wrong
 * with the book, and copies all other bytes. */
void reference_encrypt_bodies(const reference_words *words, const uint8_t *book, size_t len,
                              uint8_t *out);

#endif
