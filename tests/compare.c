#include "compare.h"
#include "library.h"

#include <inttypes.h>
#include <stdarg.h>
#include <stdio.h>
#include <stdlib.h>
#include <string.h>

enum { FENCE = 64 };

generator random_source;

static const char *program;
static uint64_t seed = 1;
static uint64_t shorter = 1;

static uint64_t read_number(const char *text)
{
    char *end;
    uint64_t number = strtoull(text, &end, 10);
    if (*text == '\0' || *end != '\0' || number == 0) {
        fprintf(stderr, "usage: %s [SEED [SHORTER]], both numbers from 1 on\n", program);
        exit(2);
    }
    return number;
}

void start_test(const char *name, int argc, char **argv)
{
    program = name;
    setvbuf(stdout, NULL, _IOLBF, 0); /* a long run is watched through pipes too */
    if (argc > 1)
        seed = read_number(argv[1]);
    if (argc > 2)
        shorter = read_number(argv[2]);
    random_source.state = seed;
}

uint64_t scaled(uint64_t number)
{
    return number < shorter ? 1 : number / shorter;
}

void fail(const char *format, ...)
{
    va_list arguments;
    fflush(stdout);
    fprintf(stderr, "%s: FAILED (seed %" PRIu64 "): ", program, seed);
    va_start(arguments, format);
    vfprintf(stderr, format, arguments);
    va_end(arguments);
    fputc('\n', stderr);
    exit(1);
}

void describe_call(const call_input *in, char *text, size_t len)
{
    snprintf(text, len,
             "%s (%s %" PRIu64 " bytes, way %" PRIu64
             ", counter block %zu bytes, input %zu bytes, sheet %" PRIu64 ", output %zu bytes)",
             call_name(in->kind), call_has_words(in->kind) ? "words" : "key", in->secret_len,
             in->way, in->counter_len, in->input_len, in->sheet, in->out_len);
}

void fail_call(const call_input *in, const char *what, const char *how, ...)
{
    char call[250], text[200];
    va_list arguments;
    va_start(arguments, how);
    vsnprintf(text, sizeof text, how, arguments);
    va_end(arguments);
    describe_call(in, call, sizeof call);
    fail("%s: %s: %s", what, call, text);
}

void fail_answer(const call_input *in, const char *what, uint64_t answer, uint64_t expected)
{
    fail_call(in, what, "check %d and count %" PRIu64 ", expected check %d and count %" PRIu64,
              check_of(answer), answer & UINT32_MAX, check_of(expected), expected & UINT32_MAX);
}

/* Inputs are passed in blocks of just their length, so that a memory checker
 * sees a byte read after them. */
static uint8_t *copy_alone(const uint8_t *bytes, size_t len)
{
    uint8_t *copy = malloc(len == 0 ? 1 : len);
    if (copy == NULL)
        fail("no memory for %zu bytes", len);
    if (len > 0)
        memcpy(copy, bytes, len);
    return copy;
}

static size_t first_difference(const uint8_t *a, const uint8_t *b, size_t len)
{
    size_t i = 0;
    while (i < len && a[i] == b[i])
        i++;
    return i;
}

static uint8_t output_before[FENCE + MAX_OUTPUT + FENCE];
static uint8_t expected_output[FENCE + MAX_OUTPUT + FENCE];
static uint8_t output[FENCE + MAX_OUTPUT + FENCE];

const uint8_t *last_output(void)
{
    return output + FENCE;
}

/* Fills the output and its two fences, and has the reference give its verdict
 * and the output that is due. */
static verdict expect_call(const call_input *in)
{
    size_t len = FENCE + in->out_len + FENCE;
    random_fill(&random_source, output_before, len);
    memcpy(expected_output, output_before, len);
    return reference_call(in, expected_output + FENCE);
}

static void compare_output(const call_input *in, const char *what)
{
    size_t len = FENCE + in->out_len + FENCE;
    size_t at = first_difference(expected_output, output, len);
    if (at == len)
        return;
    if (at < FENCE || at >= FENCE + in->out_len)
        fail_call(in, what, "a byte beside the output was changed");
    fail_call(in, what, "output byte %zu is %02x, expected %02x", at - FENCE, output[at],
              expected_output[at]);
}

/* Makes the call that expect_call was asked about. */
static void make_call(const call_input *in, uint64_t expected, const char *what)
{
    size_t secret_len = call_has_secret(in->kind) ? in->secret_len : 0;
    uint8_t *secret = copy_alone(in->secret, secret_len);
    uint8_t *counter = copy_alone(in->counter, in->counter_len);
    uint8_t *input = copy_alone(in->input, in->input_len);
    call_input given = *in;
    uint64_t answer;
    memcpy(output, output_before, FENCE + in->out_len + FENCE);
    given.secret = secret;
    given.counter = counter;
    given.input = input;
    answer = library_call(&given, output + FENCE);
    if (answer != expected)
        fail_answer(in, what, answer, expected);
    compare_output(in, what);
    if (secret_len > 0 && memcmp(secret, in->secret, secret_len) != 0)
        fail_call(in, what, "the key or the words were changed");
    if (in->counter_len > 0 && memcmp(counter, in->counter, in->counter_len) != 0)
        fail_call(in, what, "the counter block was changed");
    if (in->input_len > 0 && memcmp(input, in->input, in->input_len) != 0)
        fail_call(in, what, "the input was changed");
    free(secret);
    free(counter);
    free(input);
}

verdict compare_call(const call_input *in, const char *what)
{
    verdict v = expect_call(in);
    make_call(in, v.answer, what);
    return v;
}

/* The reference must have the stated answer. */
static verdict expect_stated(const call_input *in, uint64_t answer)
{
    verdict v = expect_call(in);
    if (v.answer != answer)
        fail_answer(in, "the reference itself", v.answer, answer);
    return v;
}

verdict compare_stated(const call_input *in, uint64_t answer, const char *what)
{
    verdict v = expect_stated(in, answer);
    make_call(in, answer, what);
    return v;
}

void compare_ways(const call_input *in, uint64_t answer, const char *what)
{
    call_input by_way = *in;
    expect_stated(in, answer);
    for (by_way.way = 1; by_way.way <= WAYS; by_way.way++)
        make_call(&by_way, answer, what);
}
