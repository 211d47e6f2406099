/*
 * The calls of the library. It alone decides whether a key, a way, a book, a sheet, a counter block
 * or a note is in order.
 */
#include "library.h"

#include <string.h>

uint32_t call_for_words(struct bytes key, uint64_t way, struct bytes out)
{
    uint64_t answer = planbook_expand_key(key.at, key.len, way, out.at, out.len);
    planbook_wipe_stack(); /* the key and its words are there */
    return planbook_check(answer);
}

uint32_t call_library(book_call *call, struct bytes words, uint64_t way, struct bytes book,
                      struct bytes out)
{
    uint64_t answer = call(words.at, words.len, way, book.at, book.len, out.at, out.len);
    planbook_wipe_stack(); /* the words are there */
    return planbook_check(answer);
}

uint32_t call_for_page(struct bytes book, uint64_t sheet, struct bytes out)
{
    uint64_t answer = planbook_page(book.at, book.len, sheet, out.at, out.len);
    planbook_wipe_stack(); /* numbers of clear records may be there */
    return planbook_check(answer);
}

uint32_t call_for_note(struct bytes words, uint64_t way, struct bytes counter, struct bytes note,
                       struct bytes out)
{
    uint64_t answer = planbook_crypt_note(words.at, words.len, way, counter.at, counter.len,
                                          note.at, note.len, out.at, out.len);
    planbook_wipe_stack(); /* as for a book */
    return planbook_check(answer);
}

/*
 * Checks 5 to 10 do not depend on the words, and for a clear book 11 does not either, so any words
 * serve.
 */
static uint32_t check_by(book_call *call, struct bytes book)
{
    static uint8_t any_words[PLANBOOK_EXPANDED128_BYTES];
    struct bytes dropped = new_bytes(book.len);
    uint32_t check = call_library(call, (struct bytes){any_words, sizeof any_words},
                                  PLANBOOK_WAY_WORD_TABLES, book, dropped);
    release(&dropped);
    return check;
}

uint32_t check_clear_book(struct bytes book)
{
    return check_by(planbook_encrypt_book, book);
}

/*
 * Check 11 comes last and is about the words here: a book that gets so far has passed all that can
 * be seen without the right ones.
 */
uint32_t check_sealed_book(struct bytes book)
{
    uint32_t check = check_by(planbook_decrypt_book, book);
    return check == PLANBOOK_CHECK_RECORD ? PLANBOOK_ACCEPTED : check;
}

uint32_t check_record(const struct sheet *sheet, const uint8_t *record)
{
    struct sheet alone = {sheet->trial, 1, sheet->replicates, NULL, NULL};
    struct bytes book =
        new_bytes(PLANBOOK_HEAD_BYTES + PLANBOOK_ENTRY_BYTES + PLANBOOK_RECORD_BYTES);
    memset(book.at, 0, book.len);
    put_head(book.at, 1);
    put_entry(book.at + PLANBOOK_HEAD_BYTES, &alone);
    memcpy(book.at + PLANBOOK_HEAD_BYTES + PLANBOOK_ENTRY_BYTES, record, PLANBOOK_RECORD_BYTES);
    uint32_t check = check_clear_book(book);
    release(&book);
    return check;
}
