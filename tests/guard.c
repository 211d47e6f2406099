/*
 * What a call may touch: everything passed to it is fenced by pages that cannot
 * be read or written, inputs are read-only, and where a call is to be refused it
 * is made again with its output read-only.
 *
 *   guard [SEED [SHORTER]]
 */
#define _DEFAULT_SOURCE

#include "compare.h"
#include "library.h"

#include <inttypes.h>
#include <signal.h>
#include <stdio.h>
#include <string.h>
#include <sys/mman.h>
#include <unistd.h>

enum { GUARD_CASES = 2500 /* for each call */ };

typedef enum { AT_END, AT_START } placement;

typedef struct {
    uint8_t *mapping;
    size_t mapped;
    uint8_t *room; /* the pages between the two fences */
    size_t room_len;
    uint8_t *bytes; /* the bytes passed, against one of the fences */
} fenced;

static size_t page;

/* A forbidden access ends the test; the text says which call was made. */
static char current_call[300];

static void report_fault(int signal_number)
{
    static const char text[] = "guard: FAILED: a call touched memory that it must not touch: ";
    (void)signal_number;
    if (write(2, text, sizeof text - 1) < 0 || write(2, current_call, strlen(current_call)) < 0 ||
        write(2, "\n", 1) < 0)
        _exit(2);
    _exit(1);
}

static void name_call(const call_input *in, const char *what)
{
    int written = snprintf(current_call, sizeof current_call, "%s, ", what);
    describe_call(in, current_call + written, sizeof current_call - (size_t)written);
}

static void protect(uint8_t *from, size_t len, int access)
{
    if (len > 0 && mprotect(from, len, access) != 0)
        fail("mprotect refuses");
}

/* Room for len bytes with a fence on either side. The rest of the room, less
 * than a page, is filled at random and looked at afterwards. */
static fenced new_fenced(size_t len, placement where)
{
    fenced f;
    f.room_len = (len + page - 1) / page * page;
    f.mapped = f.room_len + 2 * page;
    f.mapping = mmap(NULL, f.mapped, PROT_NONE, MAP_PRIVATE | MAP_ANONYMOUS, -1, 0);
    if (f.mapping == MAP_FAILED)
        fail("mmap refuses %zu bytes", f.mapped);
    f.room = f.mapping + page;
    protect(f.room, f.room_len, PROT_READ | PROT_WRITE);
    random_fill(&random_source, f.room, f.room_len);
    f.bytes = where == AT_END ? f.room + f.room_len - len : f.room;
    return f;
}

static fenced fenced_input(const uint8_t *bytes, size_t len, placement where)
{
    fenced f = new_fenced(len, where);
    if (len > 0)
        memcpy(f.bytes, bytes, len);
    protect(f.room, f.room_len, PROT_READ);
    return f;
}

static void unmap_fenced(fenced *f)
{
    if (munmap(f->mapping, f->mapped) != 0)
        fail("munmap refuses");
}

/* The room of the output after the call: the bytes passed as the reference has
 * them, all others as before. */
static void compare_room(const call_input *in, const fenced *out, const uint8_t *expected)
{
    for (size_t i = 0; i < out->room_len; i++)
        if (out->room[i] != expected[i])
            fail_call(in, "fenced", "byte %td of the output is %02x, expected %02x",
                      out->room + i - out->bytes, out->room[i], expected[i]);
}

static verdict fenced_call(const call_input *in, placement where, int output_access)
{
    static uint8_t expected[MAX_OUTPUT + 2 * 65536];
    size_t secret_len = call_has_secret(in->kind) ? in->secret_len : 0;
    fenced secret = fenced_input(in->secret, secret_len, where);
    fenced counter = fenced_input(in->counter, in->counter_len, where);
    fenced input = fenced_input(in->input, in->input_len, where);
    fenced out = new_fenced(in->out_len, where);
    call_input given = *in;
    verdict v;
    uint64_t answer;
    memcpy(expected, out.room, out.room_len);
    v = reference_call(in, expected + (out.bytes - out.room));
    given.secret = secret.bytes;
    given.counter = counter.bytes;
    given.input = input.bytes;
    protect(out.room, out.room_len, output_access);
    name_call(in, output_access == PROT_READ ? "read-only output of a refusal" : "fenced");
    answer = library_call(&given, out.bytes);
    if (answer != v.answer)
        fail_answer(in, "fenced", answer, v.answer);
    compare_room(in, &out, expected);
    unmap_fenced(&secret);
    unmap_fenced(&counter);
    unmap_fenced(&input);
    unmap_fenced(&out);
    return v;
}

static uint64_t accepted, refused;

static void guard_case(const test_case *c)
{
    verdict v = fenced_call(&c->in, AT_END, PROT_READ | PROT_WRITE);
    fenced_call(&c->in, AT_START, PROT_READ | PROT_WRITE);
    if (v.failing == 0) {
        accepted++;
        return;
    }
    refused++;
    fenced_call(&c->in, AT_END, PROT_READ);
}

/* A valid case with every length that its key or words, counter block, input
 * or output can be given, and every sheet, up to a little above the right one. */
static void guard_lengths(call_kind kind, uint64_t way)
{
    static test_case c;
    call_input right;
    do
        make_case(&random_source, kind, 0, &c);
    while (call_is_long(kind) && (c.in.input_len < 50 || c.in.input_len > 300));
    c.in.way = way;
    right = c.in;
    if (kind != CALL_PAGE)
        for (c.in.secret_len = 0; c.in.secret_len <= MAX_SECRET; c.in.secret_len++)
            guard_case(&c);
    c.in = right;
    for (c.in.out_len = 0; c.in.out_len <= right.out_len + 20; c.in.out_len++)
        guard_case(&c);
    c.in = right;
    if (kind == CALL_CRYPT_NOTE)
        for (c.in.counter_len = 0; c.in.counter_len <= MAX_COUNTER; c.in.counter_len++)
            guard_case(&c);
    if (kind == CALL_PAGE)
        for (c.in.sheet = 0; c.in.sheet <= MAX_SHEETS + 1; c.in.sheet++)
            guard_case(&c);
    if (!call_has_input(kind))
        return;
    c.in = right;
    for (c.in.input_len = 0; c.in.input_len <= right.input_len + 20; c.in.input_len++) {
        c.in.out_len = reference_output_length(&c.in);
        guard_case(&c);
    }
}

/* The longest note and one that is too long, by each way. */
static void guard_long_notes(void)
{
    static test_case c;
    make_case(&random_source, CALL_CRYPT_NOTE, 1u << CHECK_NOTE_LENGTH, &c);
    for (c.in.way = 1; c.in.way <= WAYS; c.in.way++)
        for (size_t len = MAX_NOTE_LENGTH; len <= MAX_NOTE_LENGTH + 1; len++) {
            c.in.input_len = c.in.out_len = len;
            guard_case(&c);
        }
}

/* The longest pages, of the longest book and of the longest sheet alone; and with a sheet index
 * whose entry would be far away. */
static void guard_long_pages(void)
{
    static const book_shape shapes[] = {{5, {1, 1015, 1024, 1024, 1024}}, {1, {MAX_RECORDS}}};
    static test_case c;
    for (size_t i = 0; i < sizeof shapes / sizeof shapes[0]; i++) {
        size_t len = make_clear_book(&random_source, &shapes[i], c.input);
        c.in = (call_input){CALL_PAGE, NULL, 0, 0, c.input, len, MAX_PAGE_LENGTH};
        c.in.sheet = shapes[i].sheets - 1;
        guard_case(&c);
        c.in.sheet = shapes[i].sheets;
        guard_case(&c);
        c.in.sheet = UINT64_MAX / ENTRY_LENGTH;
        guard_case(&c);
    }
}

static void guard_calls(void)
{
    static test_case c;
    uint64_t cases = scaled(GUARD_CASES);
    for (int kind = 0; kind < CALLS; kind++)
        for (uint64_t i = 0; i < cases; i++) {
            unsigned damages =
                checks_of((call_kind)kind) & 1u << random_between(&random_source, 1, LAST_CHECK);
            if (random_chance(&random_source, 8))
                make_random_case(&random_source, (call_kind)kind, &c);
            else
                make_case(&random_source, (call_kind)kind, damages, &c);
            guard_case(&c);
        }
    /* Each refusal and each length for certain, in a short run too. */
    for (int kind = 0; kind < CALLS; kind++) {
        for (int check = 1; check <= LAST_CHECK; check++)
            if (checks_of((call_kind)kind) >> check & 1) {
                make_case(&random_source, (call_kind)kind, 1u << check, &c);
                guard_case(&c);
            }
        for (uint64_t way = 1; way <= WAYS; way++)
            guard_lengths((call_kind)kind, way);
    }
    guard_long_notes();
    guard_long_pages();
    printf("guard: %" PRIu64 " accepted and %" PRIu64 " refused calls between guard pages\n",
           accepted, refused);
}

/* Answers that are stated here, for memory that the reference is not asked about. */
static unsigned stated;

static void expect(const call_input *in, uint8_t *out, int check, const char *what)
{
    uint64_t answer;
    name_call(in, what);
    answer = library_call(in, out);
    if (answer != refusal(check))
        fail_answer(in, what, answer, refusal(check));
    stated++;
}

static void null_pointers(void)
{
    uint8_t out[368] = {0}, key[16] = {0}, words[160] = {0}, block[16] = {0},
            book[4] = {0, 0, 0, 0};
    stated = 0;
    expect(&(call_input){CALL_CONSTANTS, NULL, 16, 0, NULL, 0, 0}, NULL, 4, "null output");
    expect(&(call_input){CALL_CONSTANTS, NULL, 17, 0, NULL, 0, 0}, NULL, 1, "null output");
    for (uint64_t way = 1; way <= WAYS; way++) {
        expect(&(call_input){CALL_EXPAND_KEY, NULL, 0, way, NULL, 0, 160}, out, 1, "null key");
        expect(&(call_input){CALL_EXPAND_KEY, key, 16, way, NULL, 0, 0}, NULL, 4, "null output");
        expect(&(call_input){CALL_EXPAND_KEY, NULL, 0, way, NULL, 0, 0}, NULL, 1,
               "null key and output");
        for (int kind = CALL_ENCRYPT_BLOCK; kind <= CALL_DECRYPT_BLOCK; kind++) {
            expect(&(call_input){(call_kind)kind, NULL, 0, way, block, 16, 16}, out, 14,
                   "null words");
            expect(&(call_input){(call_kind)kind, words, 160, way, NULL, 0, 16}, out, 3,
                   "null block");
            expect(&(call_input){(call_kind)kind, words, 160, way, block, 16, 0}, NULL, 4,
                   "null output");
            expect(&(call_input){(call_kind)kind, NULL, 0, way, NULL, 0, 0}, NULL, 14, "all null");
        }
        for (int kind = CALL_ENCRYPT_BOOK; kind <= CALL_DECRYPT_BOOK; kind++) {
            book[0] = kind == CALL_ENCRYPT_BOOK ? CLEAR_BOOK : SEALED_BOOK;
            expect(&(call_input){(call_kind)kind, NULL, 0, way, book, 4, 4}, out, 14, "null words");
            expect(&(call_input){(call_kind)kind, words, 160, way, NULL, 0, 4}, out, 4,
                   "null book");
            expect(&(call_input){(call_kind)kind, words, 160, way, book, 4, 0}, NULL, 4,
                   "null output");
            expect(&(call_input){(call_kind)kind, words, 160, way, NULL, 0, 0}, NULL, 5,
                   "null book and output");
            expect(&(call_input){(call_kind)kind, NULL, 0, way, NULL, 0, 0}, NULL, 14, "all null");
        }
        expect(&(call_input){CALL_CRYPT_NOTE, NULL, 0, way, block, 16, 16, block, 16}, out, 14,
               "null words");
        expect(&(call_input){CALL_CRYPT_NOTE, words, 160, way, block, 16, 16, NULL, 0}, out, 3,
               "null counter block");
        expect(&(call_input){CALL_CRYPT_NOTE, words, 160, way, NULL, 0, 16, block, 16}, out, 4,
               "null note");
        expect(&(call_input){CALL_CRYPT_NOTE, words, 160, way, block, 16, 0, block, 16}, NULL, 4,
               "null output");
        expect(&(call_input){CALL_CRYPT_NOTE, words, 160, way, NULL, 0, 0, block, 16}, NULL, 0,
               "null note and output");
        expect(&(call_input){CALL_CRYPT_NOTE, NULL, 0, way, NULL, 0, 0, NULL, 0}, NULL, 14,
               "all null");
    }
    book[0] = CLEAR_BOOK;
    expect(&(call_input){CALL_PAGE, NULL, 0, 0, NULL, 0, 64}, out, 5, "null book");
    expect(&(call_input){CALL_PAGE, NULL, 0, 0, NULL, 0, 0}, NULL, 5, "null book and output");
    expect(&(call_input){CALL_PAGE, NULL, 0, 0, book, 4, 0}, NULL, 13, "null output");
    expect(&(call_input){CALL_PAGE, NULL, 0, 0, one_record_book, sizeof one_record_book, 0}, NULL,
           4, "null output");
    for (size_t i = 0; i < sizeof out; i++)
        if (out[i] != 0)
            fail("a call with a null pointer changed output byte %zu", i);
    printf("guard: %u calls with null pointers of length 0\n", stated);
}

/* Words of a permitted length and 2^32 bytes more. */
static void expect_wide_words(call_input in, uint8_t *m, size_t wide)
{
    for (size_t len = 160; len <= 224; len += 32) {
        in.secret = m;
        in.secret_len = wide + len;
        expect(&in, m, 14, "wide words");
    }
}

/* Lengths of 2^32 and a permitted rest, in memory that is there: a length cut
 * to 32 bits would be accepted. */
static void wide_lengths(void)
{
    const size_t wide = (size_t)1 << 32;
    const size_t mapped = wide + 4096;
    uint8_t *m = mmap(NULL, mapped, PROT_READ, MAP_PRIVATE | MAP_ANONYMOUS | MAP_NORESERVE, -1, 0);
    uint8_t key[16] = {0}, words[160] = {0}, block[16] = {0}, book[4] = {0, 0, 0, 0};
    if (m == MAP_FAILED) {
        printf("guard: no address space for lengths above 2^32, skipped\n");
        return;
    }
    stated = 0;
    expect(&(call_input){CALL_CONSTANTS, NULL, 16, 0, NULL, 0, wide + 240}, m, 4, "wide output");
    for (uint64_t way = 1; way <= WAYS; way++) {
        expect(&(call_input){CALL_EXPAND_KEY, m, wide + 16, way, NULL, 0, 160}, m, 1, "wide key");
        expect(&(call_input){CALL_EXPAND_KEY, key, 16, way, NULL, 0, wide + 160}, m, 4,
               "wide output");
        for (int kind = CALL_ENCRYPT_BLOCK; kind <= CALL_DECRYPT_BLOCK; kind++) {
            expect_wide_words((call_input){(call_kind)kind, m, 0, way, block, 16, 16}, m, wide);
            expect(&(call_input){(call_kind)kind, words, 160, way, m, wide + 16, 16}, m, 3,
                   "wide block");
            expect(&(call_input){(call_kind)kind, words, 160, way, block, 16, wide + 16}, m, 4,
                   "wide output");
        }
        for (int kind = CALL_ENCRYPT_BOOK; kind <= CALL_DECRYPT_BOOK; kind++) {
            book[0] = kind == CALL_ENCRYPT_BOOK ? CLEAR_BOOK : SEALED_BOOK;
            expect_wide_words((call_input){(call_kind)kind, m, 0, way, book, 4, 4}, m, wide);
            expect(&(call_input){(call_kind)kind, words, 160, way, book, 4, wide + 4}, m, 4,
                   "wide output");
            expect(&(call_input){(call_kind)kind, words, 160, way, m, wide + 4, 4}, m, 4,
                   "wide book");
            expect(&(call_input){(call_kind)kind, words, 160, way, m, wide + 4, wide + 4}, m, 5,
                   "wide book and output");
        }
        expect_wide_words((call_input){CALL_CRYPT_NOTE, m, 0, way, block, 16, 16, block, 16}, m,
                          wide);
        expect(&(call_input){CALL_CRYPT_NOTE, words, 160, way, block, 16, 16, m, wide + 16}, m, 3,
               "wide counter block");
        expect(&(call_input){CALL_CRYPT_NOTE, words, 160, way, block, 16, wide + 16, block, 16}, m,
               4, "wide output");
        expect(&(call_input){CALL_CRYPT_NOTE, words, 160, way, m, wide + 16, 16, block, 16}, m, 4,
               "wide note");
        expect(&(call_input){CALL_CRYPT_NOTE, words, 160, way, m, wide + 16, wide + 16, block, 16},
               m, 12, "wide note and output");
    }
    expect(&(call_input){CALL_PAGE, NULL, 0, 0, m, wide + 4, 64}, m, 5, "wide book");
    expect(&(call_input){CALL_PAGE, NULL, 0, 0, one_record_book, sizeof one_record_book, wide + 64},
           m, 4, "wide output");
    expect(&(call_input){CALL_PAGE, NULL, 0, 0, one_record_book, sizeof one_record_book, 64, NULL,
                         0, wide},
           m, 13, "wide sheet");
    munmap(m, mapped);
    printf("guard: %u calls with lengths above 2^32\n", stated);
}

int main(int argc, char **argv)
{
    struct sigaction action;
    memset(&action, 0, sizeof action);
    action.sa_handler = report_fault;
    start_test("guard", argc, argv);
    page = (size_t)sysconf(_SC_PAGESIZE);
    if (sigaction(SIGSEGV, &action, NULL) != 0 || sigaction(SIGBUS, &action, NULL) != 0)
        fail("no handler for forbidden accesses");
    guard_calls();
    null_pointers();
    wide_lengths();
    printf("guard: passed\n");
    return 0;
}
