/*
 * The eight calls of include/planbook.h once more, in plain C: the opponent of
 * the benchmark. Same parameters, same checks, same answers; the header of the
 * library says what they are. Not part of the library and not proved.
 */
#ifndef PLAIN_H
#define PLAIN_H

#include <stddef.h>
#include <stdint.h>

uint64_t plain_constants(uint64_t key_length, uint8_t *out, size_t out_len);
uint64_t plain_expand_key(const uint8_t *key, size_t key_len, uint64_t way, uint8_t *out,
                          size_t out_len);
uint64_t plain_encrypt_block(const uint8_t *words, size_t words_len, uint64_t way,
                             const uint8_t *block, size_t block_len, uint8_t *out, size_t out_len);
uint64_t plain_decrypt_block(const uint8_t *words, size_t words_len, uint64_t way,
                             const uint8_t *block, size_t block_len, uint8_t *out, size_t out_len);
uint64_t plain_encrypt_book(const uint8_t *words, size_t words_len, uint64_t way,
                            const uint8_t *book, size_t book_len, uint8_t *out, size_t out_len);
uint64_t plain_decrypt_book(const uint8_t *words, size_t words_len, uint64_t way,
                            const uint8_t *book, size_t book_len, uint8_t *out, size_t out_len);
uint64_t plain_crypt_note(const uint8_t *words, size_t words_len, uint64_t way,
                          const uint8_t *counter, size_t counter_len, const uint8_t *note,
                          size_t note_len, uint8_t *out, size_t out_len);
uint64_t plain_page(const uint8_t *book, size_t book_len, uint64_t sheet, uint8_t *out,
                    size_t out_len);

/* Sealing a book and a page by packed.c, and a page by snprintf: timed for comparison only. */
uint64_t packed_encrypt_book(const uint8_t *words, size_t words_len, uint64_t way,
                             const uint8_t *book, size_t book_len, uint8_t *out, size_t out_len);
uint64_t packed_page(const uint8_t *book, size_t book_len, uint64_t sheet, uint8_t *out,
                     size_t out_len);
uint64_t printed_page(const uint8_t *book, size_t book_len, uint64_t sheet, uint8_t *out,
                      size_t out_len);

#endif
