/*
 * One call, held against the reference: its answer, every byte of the output,
 * the bytes beside it, and the inputs, which must stay as they were.
 */
#ifndef COMPARE_H
#define COMPARE_H

#include "cases.h"

enum { WAYS = 3 };

/* Everything random comes from here. */
extern generator random_source;

/* Reads the arguments [SEED [SHORTER]]. SHORTER divides the numbers of random
 * cases, for runs under slow tools. */
void start_test(const char *name, int argc, char **argv);
uint64_t scaled(uint64_t number);

/* The call in words: its name and what it is given. */
void describe_call(const call_input *in, char *text, size_t len);

/* Say what went wrong and end the test. */
void fail(const char *format, ...);
void fail_call(const call_input *in, const char *what, const char *how, ...);
void fail_answer(const call_input *in, const char *what, uint64_t answer, uint64_t expected);

/* Compares one call and returns the reference's verdict. */
verdict compare_call(const call_input *in, const char *what);

/* The same against an answer that is known without the reference, which must
 * then have it too; and that by each way. */
verdict compare_stated(const call_input *in, uint64_t answer, const char *what);
void compare_ways(const call_input *in, uint64_t answer, const char *what);

/* The library's output of the last call that was compared. */
const uint8_t *last_output(void);

#endif
