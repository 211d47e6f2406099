/*
 * What a call leaves on the stack, and how much of it a call uses. Each call is made on a stack of
 * its own, which is then searched for the words of the key and of what it is expanded to, or the
 * words that were passed, for those of the clear block, record or note, and of the encrypted
 * counter blocks, which open the sealed note: after planbook_wipe_stack there must be none; without
 * it there must be some where a key or words were used, or this test could not fail.
 *
 * And so with planbook_wipe, where a function has the words in a buffer of its own.
 *
 *   stack [SEED]
 */
#define _XOPEN_SOURCE 600

#include "compare.h"
#include "library.h"
#include "planbook.h"

#include <inttypes.h>
#include <stdio.h>
#include <string.h>
#include <ucontext.h>

enum {
    OWN_STACK_BYTES = 128 * 1024,
    FILL = 0xa5, /* what the stack holds before the call */
    /* how much less than PLANBOOK_STACK_BYTES is used, the frames of this file included */
    MARGIN = 4096,
    RECORDS = 5,
    NOTE_BYTES = 5 * REFERENCE_BLOCK + 8,
    MAX_SECRETS = 8 + 56 + 2 * (NOTE_BYTES / 4)
};

static uint8_t stack[OWN_STACK_BYTES];
static ucontext_t outside, inside;

/* One call, as the function on the other stack finds it: nothing secret goes through this file's
 * own frames. */
static call_input in;
static uint8_t secret[REFERENCE_MAX_WORDS_LENGTH], counter[COUNTER_LENGTH], input[256],
    output[PLANBOOK_CONSTANTS256_BYTES];
static uint64_t answer;
static int wipe;

static uint32_t secrets[MAX_SECRETS];
static size_t secret_count;

static void call_and_wipe(void)
{
    answer = library_call(&in, output);
    if (wipe)
        planbook_wipe_stack();
}

static void run_on_own_stack(void (*function)(void))
{
    memset(stack, FILL, sizeof stack);
    if (getcontext(&inside) != 0)
        fail("no context");
    inside.uc_stack.ss_sp = stack;
    inside.uc_stack.ss_size = sizeof stack;
    inside.uc_link = &outside;
    makecontext(&inside, function, 0);
    if (swapcontext(&outside, &inside) != 0)
        fail("no other stack");
}

/* The bytes from the stack's upper end down to the lowest one that was written. */
static size_t depth(void)
{
    size_t untouched = 0;
    while (untouched < sizeof stack && stack[untouched] == FILL)
        untouched++;
    return sizeof stack - untouched;
}

static uint32_t turned(uint32_t word)
{
    return word >> 24 | (word >> 8 & 0xff00) | (word << 8 & 0xff0000) | word << 24;
}

/* How many of the secret words are somewhere between two places of the stack, in either order of
 * their bytes. */
static size_t secrets_between(size_t first, size_t end)
{
    size_t found = 0;
    for (size_t s = 0; s < secret_count; s++) {
        uint32_t word = secrets[s], other = turned(word);
        for (size_t i = first; i + 4 <= end; i++) {
            uint32_t there = reference_load_word(stack + i);
            if (there == word || there == other) {
                found++;
                break;
            }
        }
    }
    return found;
}

static size_t secrets_found(void)
{
    return secrets_between(sizeof stack - depth(), sizeof stack);
}

static void add_secrets(const uint8_t *bytes, size_t len)
{
    for (size_t i = 0; i + 4 <= len; i += 4)
        secrets[secret_count++] = reference_load_word(bytes + i);
}

static void add_expanded_key(void)
{
    uint8_t bytes[REFERENCE_MAX_WORDS_LENGTH];
    reference_words expanded;
    reference_expand_key(&expanded, secret, in.secret_len);
    add_secrets(bytes, 4 * reference_store_words(bytes, &expanded));
}

/* A book of two sheets. The first three words of each record are secrets; trials, entries and plots
 * are made high, since small numbers may be on the stack for another reason. Row and column are one
 * word here, 935 and 709 in the first record. */
static size_t make_book(uint8_t *book)
{
    static const book_shape shape = {2, {3, RECORDS - 3}};
    size_t len = make_clear_book(&random_source, &shape, book);
    uint8_t *entries = entry_at(book, 0), *record = record_at(book, 0);
    reference_store_word(entries, 0x5b3c9d01);
    reference_store_word(entries + ENTRY_LENGTH, 0x6e1f8a27);
    for (uint32_t i = 0; i < RECORDS; i++, record += RECORD_LENGTH) {
        memcpy(record, entries + (i < 3 ? 0 : ENTRY_LENGTH), 4);
        reference_store_word(record + 4, 0xc8e17f35 - 0x01030507 * i);
        reference_store_word(record + 9, 0x03a702c5 - 0x00050003 * i);
        add_secrets(record, 12);
    }
    return len;
}

static void make_block_input(void)
{
    uint8_t clear[REFERENCE_BLOCK];
    reference_words words;
    random_fill(&random_source, clear, sizeof clear);
    add_secrets(clear, sizeof clear);
    memcpy(input, clear, sizeof clear);
    reference_load_words(&words, secret, in.secret_len);
    if (in.kind == CALL_DECRYPT_BLOCK)
        reference_encrypt_block(&words, clear, input);
    in.input_len = sizeof clear;
}

static void make_book_input(void)
{
    uint8_t clear[sizeof input];
    in.input_len = make_book(clear);
    memcpy(input, clear, in.input_len);
    if (in.kind == CALL_DECRYPT_BOOK)
        seal_by_reference(secret, in.secret_len, clear, in.input_len, input);
}

/* The encrypted counter blocks are the sealed note exclusive-ored with the text. */
static void make_note_input(void)
{
    uint8_t encrypted[NOTE_BYTES];
    random_fill(&random_source, counter, sizeof counter);
    random_fill(&random_source, input, NOTE_BYTES);
    add_secrets(input, NOTE_BYTES);
    in.counter = counter;
    in.counter_len = sizeof counter;
    in.input_len = in.out_len = NOTE_BYTES;
    if (reference_call(&in, encrypted).failing != 0)
        fail_call(&in, "stack", "the reference refuses it");
    for (size_t i = 0; i < NOTE_BYTES; i++)
        encrypted[i] ^= input[i];
    add_secrets(encrypted, NOTE_BYTES);
}

static void make_call(call_kind kind, uint64_t way, uint64_t key_len)
{
    memset(&in, 0, sizeof in);
    in.kind = kind;
    in.way = way;
    in.secret = secret;
    in.secret_len = call_has_words(kind) ? planbook_expanded_length(key_len) : key_len;
    in.input = input;
    secret_count = 0;
    random_fill(&random_source, secret, sizeof secret);
    if (call_has_words(kind))
        make_words(&random_source, secret, in.secret_len);
    if (call_is_block(kind))
        make_block_input();
    if (call_is_book(kind))
        make_book_input();
    if (kind == CALL_CRYPT_NOTE)
        make_note_input();
    in.out_len = reference_output_length(&in);
    if (call_has_secret(kind))
        add_secrets(secret, in.secret_len);
    if (kind == CALL_EXPAND_KEY)
        add_expanded_key();
}

/* Runs the call, which must be accepted or refused as stated; answers how many secret words it
 * left. */
static size_t words_left(int wiping, int accepted)
{
    wipe = wiping;
    run_on_own_stack(call_and_wipe);
    if ((check_of(answer) == 0) != accepted)
        fail_call(&in, "stack", "check %d", check_of(answer));
    return secrets_found();
}

static size_t deepest;

static void note_depth(void)
{
    size_t used = depth();
    if (used > deepest)
        deepest = used;
    if (used > PLANBOOK_STACK_BYTES - MARGIN)
        fail_call(&in, "stack", "%zu bytes of stack are used, above %d", used,
                  PLANBOOK_STACK_BYTES - MARGIN);
}

static size_t least_left = MAX_SECRETS;

/* A call that has used a key or words must leave some of them, or the search is no test of the
 * wipe. */
static void try_call(int accepted, int leaves)
{
    size_t left = words_left(0, accepted);
    note_depth();
    if (leaves) {
        if (left == 0)
            fail_call(&in, "stack", "no secret is found without the wipe: this test cannot fail");
        least_left = left < least_left ? left : least_left;
    }
    left = words_left(1, accepted);
    if (left != 0)
        fail_call(&in, "stack", "%zu secret words are found after the wipe", left);
}

/* Prepares a key in a buffer of its own, and seals a block. The buffer is wiped last of all:
 * nothing reads it any more, so that a compiler may leave out stores that are not volatile. */
static size_t buffer_at;
static int wipe_buffer;

static void prepare_and_wipe(void)
{
    uint8_t words[PLANBOOK_MAX_EXPANDED_BYTES];
    size_t len = planbook_expanded_length(in.secret_len);
    answer = planbook_expand_key(secret, in.secret_len, in.way, words, len);
    if (planbook_check(answer) == PLANBOOK_ACCEPTED)
        answer = planbook_encrypt_block(words, len, in.way, input, REFERENCE_BLOCK, output,
                                        REFERENCE_BLOCK);
    buffer_at = (size_t)((uintptr_t)words - (uintptr_t)stack);
    if (wipe)
        planbook_wipe_stack();
    if (wipe_buffer)
        planbook_wipe(words, sizeof words);
}

/* How many of the words are in the buffer afterwards. */
static size_t left_in_buffer(int wiping, int wiping_buffer)
{
    wipe = wiping;
    wipe_buffer = wiping_buffer;
    run_on_own_stack(prepare_and_wipe);
    if (answer != 1)
        fail_call(&in, "wipe", "check %d", check_of(answer));
    return secrets_between(buffer_at, buffer_at + PLANBOOK_MAX_EXPANDED_BYTES);
}

static void try_wipe(uint64_t key_len)
{
    size_t left;
    make_call(CALL_EXPAND_KEY, PLANBOOK_WAY_WORD_TABLES, key_len);
    if (left_in_buffer(0, 0) < planbook_expanded_length(key_len) / 4)
        fail_call(&in, "wipe", "the words are not found without the wipe: this test cannot fail");
    left = left_in_buffer(0, 1);
    if (left != 0)
        fail_call(&in, "wipe", "%zu secret words are found after planbook_wipe", left);
    left_in_buffer(1, 1);
    left = secrets_found();
    if (left != 0)
        fail_call(&in, "wipe", "%zu secret words are found after both wipes", left);
}

int main(int argc, char **argv)
{
    start_test("stack", argc, argv);
    for (int kind = 0; kind < CALLS; kind++)
        for (uint64_t way = 1; way <= WAYS; way++)
            for (uint64_t key_len = 16; key_len <= 32; key_len += 8) {
                make_call((call_kind)kind, way, key_len);
                try_call(1, call_has_secret((call_kind)kind));
                in.out_len--; /* check 4, for a page the last of all */
                try_call(0, kind == CALL_EXPAND_KEY); /* which has expanded the key by then */
                if (kind == CALL_DECRYPT_BOOK) { /* check 11, of records that were decrypted */
                    in.out_len++;
                    input[in.input_len - 1] ^= 1;
                    try_call(0, 1);
                }
            }
    for (uint64_t key_len = 16; key_len <= 32; key_len += 8)
        try_wipe(key_len);
    printf("stack: at most %zu bytes used by a call; at least %zu secret words left where a key or "
           "words were used, none after the wipe; none in a buffer of words after planbook_wipe\n",
           deepest, least_left);
    printf("stack: passed\n");
    return 0;
}
