/*
 * Another CLEFIA, to hold the library against.
 *
 * It is written from the tables that Sony's specification (version 1.0, 2010)
 * prints and from its steps, in the plainest form, and shares no source with
 * the library: a slip there is unlikely to be here too.
 */
#ifndef REFERENCE_CLEFIA_H
#define REFERENCE_CLEFIA_H

#include <stddef.h>
#include <stdint.h>

enum {
    REFERENCE_MAX_CONSTANTS = 92,
    REFERENCE_MAX_ROUND_KEYS = 52,
    REFERENCE_MAX_WORDS_LENGTH = 4 * (4 + REFERENCE_MAX_ROUND_KEYS),
    REFERENCE_BLOCK = 16
};

/* The words that a key is expanded to, or any others. */
typedef struct {
    unsigned rounds;
    uint32_t whitening[4];
    uint32_t round_keys[REFERENCE_MAX_ROUND_KEYS];
} reference_words;

/* The bytes of a word, the highest first. */
uint32_t reference_load_word(const uint8_t *bytes);
void reference_store_word(uint8_t *bytes, uint32_t word);

/* The constants for a key of 16, 24 or 32 bytes and, in *count, how many
 * words they are; NULL and 0 for any other length. */
const uint32_t *reference_constants(uint64_t key_len, size_t *count);

/* key_len is 16, 24 or 32. */
void reference_expand_key(reference_words *words, const uint8_t *key, size_t key_len);

/* Words as bytes: the whitening keys, then the round keys of 18, 22 or 26
 * rounds. len is 160, 192 or 224, and says how many. */
void reference_load_words(reference_words *words, const uint8_t *bytes, size_t len);

/* Answers how many words they are. */
size_t reference_store_words(uint8_t *bytes, const reference_words *words);

void reference_encrypt_block(const reference_words *words, const uint8_t in[REFERENCE_BLOCK],
                             uint8_t out[REFERENCE_BLOCK]);
void reference_decrypt_block(const reference_words *words, const uint8_t in[REFERENCE_BLOCK],
                             uint8_t out[REFERENCE_BLOCK]);

/* Whether each printed byte table takes every value once, as a slip of one
 * entry would not. */
int reference_tables_are_permutations(void);

#endif
