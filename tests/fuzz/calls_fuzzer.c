// sources: tests/compare.c tests/cases.c tests/support.c tests/library.c tests/reference_book.c
/*
 * A libFuzzer target: one call, made from the fuzzer's bytes and held against the reference
 * (compare.c), which ends the program where answer, output, a byte beside it or an input is not as
 * it must be. The library itself carries no marks for the fuzzer; it is the reference's branches
 * that lead it on.
 *
 * Most bytes would be refused at the first look. So the bytes are a recipe: a case that cases.c
 * makes, accepted or with some checks made to fail, and then changes of single bytes and numbers;
 * or they are the input itself.
 */
#include "../compare.h"

#include <string.h>

/* The reference's cipher is built in here, without marks for the fuzzer: they take most of the time
 * (1,700 runs a second became 6,600), and which way the cipher's loops go says nothing about a
 * book. */
#if defined(__clang__) && __clang_major__ >= 13
#pragma clang attribute push(__attribute__((no_sanitize("coverage"))), apply_to = function)
#endif
#include "../reference_clefia.c"
#if defined(__clang__) && __clang_major__ >= 13
#pragma clang attribute pop
#endif

int LLVMFuzzerInitialize(int *argc, char ***argv);
int LLVMFuzzerTestOneInput(const uint8_t *data, size_t len);

/* Longer books are the differential test's: here they would cost many short ones. */
enum { LONG_INPUT = 3000 };

typedef struct {
    const uint8_t *at;
    size_t len;
} recipe;

/* The next bytes as a number; after the end there are zeros. */
static uint64_t take(recipe *r, unsigned bytes)
{
    uint64_t number = 0;
    for (; bytes > 0; bytes--) {
        number <<= 8;
        if (r->len > 0) {
            number |= *r->at++;
            r->len--;
        }
    }
    return number;
}

static void change_byte(uint8_t *bytes, size_t len, uint64_t place, uint64_t by)
{
    if (len > 0)
        bytes[place % len] ^= (uint8_t)by;
}

/* A length moved by up to 128 bytes, or seldom to anywhere (which costs time); never beyond the
 * memory that is there. */
static uint64_t changed_length(recipe *r, uint64_t len, uint64_t most)
{
    uint64_t by = take(r, 1);
    len = by == 255 ? take(r, 2) : len + by - 128;
    return len <= most ? len : most;
}

static void change_case(recipe *r, test_case *c)
{
    call_input *in = &c->in;
    size_t contents = in->input_len < 100 ? in->input_len : 100; /* of a book, head and entries */
    uint64_t place;
    switch (take(r, 1) % 11) {
    case 0: in->way = take(r, 8); break;
    case 1: in->out_len = changed_length(r, in->out_len, MAX_INPUT); break;
    case 2: in->input_len = changed_length(r, in->input_len, MAX_INPUT); break;
    case 3:
        in->secret_len =
            call_has_secret(in->kind) ? changed_length(r, in->secret_len, MAX_SECRET) : take(r, 8);
        break;
    case 4: in->out_len = reference_output_length(in); break;
    case 5:
        place = take(r, 1); /* words have at most 224 bytes */
        change_byte(c->secret, MAX_SECRET, place, take(r, 1));
        break;
    case 6:
        place = take(r, 1);
        change_byte(c->input, contents, place, take(r, 1));
        break;
    case 7:
        if (in->kind == CALL_CRYPT_NOTE)
            in->counter_len = changed_length(r, in->counter_len, MAX_COUNTER);
        break;
    case 8:
        place = take(r, 1);
        change_byte(c->counter, in->counter_len, place, take(r, 1));
        break;
    case 9: in->sheet = take(r, 1) % 2 == 0 ? take(r, 1) : take(r, 8); break;
    default:
        place = take(r, 2);
        change_byte(c->input, in->input_len, place, take(r, 1));
        break;
    }
}

/* The rest of the recipe in place of the input; the output of a book, a note or a page follows in
 * length. */
static void give_input(recipe *r, test_case *c)
{
    size_t len = r->len < MAX_INPUT ? r->len : MAX_INPUT;
    if (!call_has_input(c->in.kind))
        return;
    if (len > 0)
        memcpy(c->input, r->at, len);
    c->in.input_len = len;
    c->in.out_len = reference_output_length(&c->in);
}

/* One check or two that are made to fail, or none. Books and notes above the greatest length are
 * not made, see LONG_INPUT. */
static unsigned take_damages(recipe *r, call_kind kind)
{
    unsigned damages = 1u << take(r, 1) % 16;
    damages |= 1u << take(r, 1) % 16;
    return damages & checks_of(kind) & ~(1u << CHECK_BOOK_LENGTH | 1u << CHECK_NOTE_LENGTH);
}

int LLVMFuzzerInitialize(int *argc, char ***argv)
{
    start_test("calls_fuzzer", *argc > 0 ? 1 : 0, *argv);
    return 0;
}

int LLVMFuzzerTestOneInput(const uint8_t *data, size_t len)
{
    static test_case c;
    recipe r = {data, len};
    call_kind kind = (call_kind)(take(&r, 1) % CALLS);
    int whole_input = take(&r, 1) % 4 == 0;
    unsigned damages = take_damages(&r, kind);
    random_source.state = take(&r, 4); /* the same bytes are the same case */
    make_case(&random_source, kind, damages, &c);
    if (c.in.input_len > LONG_INPUT)
        return 0;
    if (whole_input)
        give_input(&r, &c);
    else
        while (r.len > 0)
            change_case(&r, &c);
    compare_call(&c.in, "fuzzed");
    return 0;
}
