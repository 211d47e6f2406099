/*
 * Inputs of every call, made from a seed: valid ones, ones in which given
 * checks are made to fail, and random ones.
 */
#ifndef CASES_H
#define CASES_H

#include "support.h"

typedef struct {
    uint64_t state;
} generator;

uint64_t random_number(generator *g);
uint64_t random_below(generator *g, uint64_t limit);
uint64_t random_between(generator *g, uint64_t least, uint64_t most);
int random_chance(generator *g, uint64_t one_in);
void random_fill(generator *g, uint8_t *bytes, size_t len);

enum {
    MAX_SECRET = 512, /* lengths that 8 bits make permitted ones are below */
    MAX_COUNTER = 64,
    MAX_INPUT = 100000,
    MAX_OUTPUT = MAX_INPUT + 64
};

typedef struct {
    call_input in; /* points into secret, counter and input */
    uint8_t secret[MAX_SECRET];
    uint8_t counter[MAX_COUNTER];
    uint8_t input[MAX_INPUT];
} test_case;

/* The checks that a call has, as bits. */
unsigned checks_of(call_kind kind);

/* The words of a key drawn at random, 160, 192 or 224 bytes. */
void make_words(generator *g, uint8_t *words, size_t len);

/* Writes a clear book of this shape, otherwise valid; returns its length. */
size_t make_clear_book(generator *g, const book_shape *shape, uint8_t *book);

/* A case in which the checks of the set are made to fail, as far as they can
 * together; an empty set gives an accepted case. */
void make_case(generator *g, call_kind kind, unsigned damages, test_case *c);

/* An accepted case whose words have this length. */
void make_case_of_length(generator *g, call_kind kind, size_t words_len, test_case *c);

/* A valid case with a few bytes changed, or one of random bytes and lengths. */
void make_changed_case(generator *g, call_kind kind, test_case *c);
void make_random_case(generator *g, call_kind kind, test_case *c);

#endif
