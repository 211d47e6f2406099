/*
 * What section 2.5 of the CLEFIA specification prints: for each key length one
 * plaintext with its ciphertext, and from 2.5.1 the whitening and round keys.
 *
 * One round key is misprinted and corrected here: RK15 of the 192-bit key,
 * printed 92cf98e, true 92cfc98e.
 */
#ifndef VECTORS_H
#define VECTORS_H

#include <stddef.h>
#include <stdint.h>

enum { KEY_LENGTHS = 3 };

typedef struct {
    size_t key_len;
    uint8_t key[32];
    uint8_t plaintext[16];
    uint8_t ciphertext[16];
    size_t words;
    uint32_t expanded[56]; /* whitening keys, then round keys */
} paper_vector;

extern const paper_vector paper_vectors[KEY_LENGTHS];

/* The printed words as bytes; answers how many bytes they are. */
size_t printed_words(const paper_vector *v, uint8_t bytes[224]);

enum { NOTE_VECTORS = 2, MAX_VECTOR_NOTE = 64 };

/*
 * Notes under the keys of the vectors above. No paper prints such: the sealed
 * bytes are those of the reference, and of a third CLEFIA, in Python, that was
 * written for them alone. They are here so that the reference and the library
 * cannot both go wrong in one way.
 */
typedef struct {
    uint8_t counter[16];
    const char *note;
    uint8_t sealed[KEY_LENGTHS][MAX_VECTOR_NOTE];
} note_vector;

extern const note_vector note_vectors[NOTE_VECTORS];

#endif
