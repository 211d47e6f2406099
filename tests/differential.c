/*
 * The library against another CLEFIA and against the rules written a second
 * time: answer and every byte, by all ways.
 *
 *   differential [SEED [SHORTER]]
 */
#include "compare.h"
#include "edges.h"
#include "planbook.h"
#include "vectors.h"

#include <inttypes.h>
#include <stdio.h>
#include <stdlib.h>
#include <string.h>

enum {
    BLOCK_CASES = 100000, /* for each key length */
    ROUND_TRIPS = 300, /* of books and of notes, for each number of words */
    INPUT_CASES = 200000, /* for each call */
    /* for each check of each call, of notes in which the number wraps, of pages after the first */
    LEAST_ANSWERS = 1000,
    PAIR_TRIES = 2000 /* to make two checks fail together */
};

/* What the specification prints: first the reference is held against it, then
 * the library against the reference. */

static void check_reference_blocks(const paper_vector *v, const reference_words *words)
{
    uint8_t block[16];
    reference_encrypt_block(words, v->plaintext, block);
    if (memcmp(block, v->ciphertext, 16) != 0)
        fail("the reference does not encrypt the printed block, key of %zu bytes", v->key_len);
    reference_decrypt_block(words, v->ciphertext, block);
    if (memcmp(block, v->plaintext, 16) != 0)
        fail("the reference does not decrypt the printed block, key of %zu bytes", v->key_len);
}

static void check_reference(void)
{
    if (!reference_tables_are_permutations())
        fail("a byte table of the reference is not a permutation");
    for (size_t i = 0; i < KEY_LENGTHS; i++) {
        const paper_vector *v = &paper_vectors[i];
        reference_words words;
        uint8_t bytes[224], stored[224];
        size_t len = printed_words(v, bytes);
        reference_expand_key(&words, v->key, v->key_len);
        if (reference_store_words(stored, &words) != v->words || memcmp(stored, bytes, len) != 0)
            fail("the reference's expanded key is not the printed one, key of %zu bytes",
                 v->key_len);
        check_reference_blocks(v, &words);
        memset(&words, 0, sizeof words);
        reference_load_words(&words, bytes, len);
        check_reference_blocks(v, &words);
    }
    printf("reference: its tables give the vectors of section 2.5, %d key lengths\n", KEY_LENGTHS);
}

static void check_vector(const paper_vector *v)
{
    uint8_t words[224];
    size_t words_len = printed_words(v, words);
    call_input constants = {CALL_CONSTANTS, NULL, v->key_len, 0, NULL, 0, 0};
    call_input expand = {CALL_EXPAND_KEY, v->key, v->key_len, 1, NULL, 0, words_len};
    call_input encrypt = {CALL_ENCRYPT_BLOCK, words, words_len, 1, v->plaintext, 16, 16};
    call_input decrypt = {CALL_DECRYPT_BLOCK, words, words_len, 1, v->ciphertext, 16, 16};
    size_t count;
    reference_constants(v->key_len, &count);
    constants.out_len = 4 * count;
    compare_ways(&constants, count, "printed constants");
    compare_ways(&expand, v->words, "printed vector");
    compare_ways(&encrypt, 1, "printed vector");
    compare_ways(&decrypt, 1, "printed vector");
}

static void check_vectors(void)
{
    for (size_t i = 0; i < KEY_LENGTHS; i++)
        check_vector(&paper_vectors[i]);
    printf("vectors: constants, expanded key, encryption and decryption as printed, %d key "
           "lengths, %d ways\n",
           KEY_LENGTHS, WAYS);
}

/* The library against the reference by each way, and then what it wrote against the bytes written
 * down. */
static void check_note_vector(const paper_vector *key, const note_vector *v, const uint8_t *sealed)
{
    uint8_t words[224];
    size_t words_len = printed_words(key, words), len = strlen(v->note);
    const uint8_t *note = (const uint8_t *)v->note;
    call_input in = {CALL_CRYPT_NOTE, words, words_len, 1, note, len, len, v->counter, 16};
    compare_ways(&in, len, "note vector");
    if (memcmp(last_output(), sealed, len) != 0)
        fail_call(&in, "note vector",
                  "library and reference agree on other bytes than those written down");
    in.input = sealed;
    compare_ways(&in, len, "note vector");
    if (memcmp(last_output(), v->note, len) != 0)
        fail_call(&in, "note vector", "it does not open to the text");
}

static void check_note_vectors(void)
{
    for (size_t i = 0; i < NOTE_VECTORS; i++)
        for (size_t k = 0; k < KEY_LENGTHS; k++)
            check_note_vector(&paper_vectors[k], &note_vectors[i], note_vectors[i].sealed[k]);
    printf("note vectors: %d notes sealed as written down and opened, %d key lengths, %d ways\n",
           NOTE_VECTORS, KEY_LENGTHS, WAYS);
}

/* Random keys and blocks. */

static void compare_block(uint64_t key_len, int with_expansion)
{
    uint8_t key[32], words[224], block[16];
    reference_words expanded;
    call_input in = {CALL_ENCRYPT_BLOCK, words, 0, 1, block, 16, 16};
    random_fill(&random_source, key, key_len);
    random_fill(&random_source, block, 16);
    reference_expand_key(&expanded, key, key_len);
    in.secret_len = 4 * reference_store_words(words, &expanded);
    compare_ways(&in, 1, "random block");
    in.kind = CALL_DECRYPT_BLOCK;
    compare_ways(&in, 1, "random block");
    if (with_expansion) {
        call_input expand = {CALL_EXPAND_KEY, key, key_len, 1, NULL, 0, in.secret_len};
        compare_ways(&expand, in.secret_len / 4, "random key");
    }
}

static void compare_blocks(void)
{
    uint64_t cases = scaled(BLOCK_CASES);
    for (uint64_t key_len = 16; key_len <= 32; key_len += 8) {
        for (uint64_t i = 0; i < cases; i++)
            compare_block(key_len, i % 10 == 0);
        printf("blocks: %" PRIu64 " random blocks under the words of random keys of %" PRIu64
               " bytes, encrypted and decrypted by %d ways; every tenth key expanded\n",
               cases, key_len, WAYS);
    }
}

/* Notes of every length up to some blocks, and the longest. */

static void compare_note(size_t words_len, size_t len, uint32_t number)
{
    static test_case c;
    make_case_of_length(&random_source, CALL_CRYPT_NOTE, words_len, &c);
    random_fill(&random_source, c.input, len);
    c.in.input_len = c.in.out_len = len;
    /* A carry into the prefix would change this byte, and the byte before it. */
    c.counter[COUNTER_PREFIX_LENGTH - 1] = 0xff;
    reference_store_word(c.counter + COUNTER_PREFIX_LENGTH, number);
    compare_ways(&c.in, len, "note");
}

static void compare_notes(void)
{
    /* Carries to each byte of the number; and four blocks that end at ffffffff, or pass it after
     * three, two and one. */
    static const uint32_t numbers[] = {
        0, 0xff, 0xffff, 0xffffff, 0x7fffffff, 0xfffffffc, 0xfffffffd, 0xfffffffe, 0xffffffff,
    };
    enum { NUMBERS = sizeof numbers / sizeof numbers[0], LENGTHS = 65 };
    for (size_t words_len = 160; words_len <= 224; words_len += 32) {
        for (size_t len = 0; len < LENGTHS; len++)
            for (size_t i = 0; i < NUMBERS; i++)
                compare_note(words_len, len, numbers[i]);
        compare_note(words_len, MAX_NOTE_LENGTH - 1, 0xfffffe00);
        compare_note(words_len, MAX_NOTE_LENGTH, 0xfffffc00); /* the last block has ffffffff */
        compare_note(words_len, MAX_NOTE_LENGTH, 0xfffffc01); /* the last block has 0 */
    }
    printf("notes: %d of each length up to %d bytes and 3 of the greatest, %d numbers of words, %d "
           "ways\n",
           NUMBERS, LENGTHS - 1, KEY_LENGTHS, WAYS);
}

/* Opened after sealed and sealed after opened, by every pair of ways. */

static void call_into(call_input *in, uint8_t *result, const char *what)
{
    if (compare_call(in, what).failing != 0)
        fail_call(in, what, "the reference refuses it");
    memcpy(result, last_output(), in->out_len);
}

static call_kind inverse_of(call_kind kind)
{
    return kind == CALL_ENCRYPT_BOOK ? CALL_DECRYPT_BOOK : CALL_CRYPT_NOTE;
}

static void round_trip(const test_case *c, uint64_t way, uint64_t back_way)
{
    static uint8_t sealed[MAX_INPUT], opened[MAX_INPUT], resealed[MAX_INPUT];
    call_input in = c->in;
    size_t len = in.input_len;
    in.way = way;
    call_into(&in, sealed, "round trip");
    in.kind = inverse_of(c->in.kind);
    in.way = back_way;
    in.input = sealed;
    call_into(&in, opened, "round trip");
    if (memcmp(opened, c->input, len) != 0)
        fail_call(&in, "round trip",
                  "way %" PRIu64 " does not decrypt what way %" PRIu64 " encrypted", back_way, way);
    in.kind = c->in.kind;
    in.input = opened;
    call_into(&in, resealed, "round trip");
    if (memcmp(resealed, sealed, len) != 0)
        fail_call(&in, "round trip",
                  "way %" PRIu64 " does not encrypt to the bytes of way %" PRIu64, back_way, way);
}

static void compare_round_trips(call_kind kind, const char *what, const char *parts)
{
    static test_case c;
    uint64_t trips = scaled(ROUND_TRIPS), count = 0;
    for (size_t words_len = 160; words_len <= 224; words_len += 32)
        for (uint64_t i = 0; i < trips; i++) {
            make_case_of_length(&random_source, kind, words_len, &c);
            count += compare_call(&c.in, "round trip").answer;
            for (uint64_t pair = 0; pair < WAYS * WAYS; pair++)
                round_trip(&c, 1 + pair / WAYS, 1 + pair % WAYS);
        }
    printf("round trips: %" PRIu64 " %s (%" PRIu64
           " %s) encrypted, decrypted, encrypted by %d pairs of ways\n",
           KEY_LENGTHS * trips, what, count, parts, WAYS * WAYS);
}

/* Valid, damaged and random inputs of every call. */

/* How often each check was the answer; 0: accepted. */
static uint64_t answers[CALLS][LAST_CHECK + 1];
/* How often a check was the answer while a later one failed too. A pair that
 * an earlier check hides does not count: it would say nothing about the order
 * of its two. */
static uint64_t pairs[CALLS][LAST_CHECK + 1][LAST_CHECK + 1];
static uint64_t inputs[CALLS];
static uint64_t long_books[CALLS];
static size_t longest_accepted;
static uint64_t wraps; /* accepted notes in which the number wraps after a byte ff */
static uint64_t later_sheets; /* accepted pages of a sheet after the first */

static int wraps_after_ff(const call_input *in)
{
    uint64_t blocks = (in->input_len + REFERENCE_BLOCK - 1) / REFERENCE_BLOCK;
    uint64_t number = reference_load_word(in->counter + COUNTER_PREFIX_LENGTH);
    return number + blocks > (uint64_t)UINT32_MAX + 1 &&
           in->counter[COUNTER_PREFIX_LENGTH - 1] == 0xff;
}

/* The header's own function: the length that the call wants, or 0 where the book has no such sheet;
 * none has more than 64. */
static void check_page_length(const call_input *in)
{
    size_t len = planbook_page_length(in->input, in->input_len, in->sheet);
    size_t due = in->sheet < MAX_SHEETS ? reference_output_length(in) : 0;
    if (len != due)
        fail_call(in, "random input", "planbook_page_length is %zu, expected %zu", len, due);
}

static void try_case(const test_case *c)
{
    call_kind kind = c->in.kind;
    verdict v = compare_call(&c->in, "random input");
    int answer = check_of(v.answer);
    inputs[kind]++;
    answers[kind][answer]++;
    if (call_is_book(kind) && c->in.input_len >= 10000)
        long_books[kind]++;
    if (call_is_book(kind) && v.failing == 0 && c->in.input_len > longest_accepted)
        longest_accepted = c->in.input_len;
    if (kind == CALL_CRYPT_NOTE && v.failing == 0)
        wraps += wraps_after_ff(&c->in);
    if (kind == CALL_PAGE) {
        check_page_length(&c->in);
        later_sheets += v.failing == 0 && c->in.sheet > 0;
    }
    for (int b = 1; b <= LAST_CHECK; b++)
        if (b != answer && (v.failing >> b & 1))
            pairs[kind][answer][b]++;
}

/* Why two checks cannot fail together in a call, or NULL if they can; a is the earlier. */
static const char *why_impossible(call_kind kind, int a, int b)
{
    if (a == CHECK_CONTENTS_LENGTH && b == CHECK_RECORD)
        return "a book that ends within its contents has no record";
    if (kind == CALL_DECRYPT_BOOK && a == CHECK_WORDS && b == CHECK_RECORD)
        return "without words of a permitted length no record can be decrypted and judged";
    return NULL;
}

static int in_call(call_kind kind, int check)
{
    return checks_of(kind) >> check & 1;
}

/* Two checks of a call, the first of which is made before the other. */
static int in_order(call_kind kind, int a, int b)
{
    return in_call(kind, a) && in_call(kind, b) && check_place(kind, a) < check_place(kind, b);
}

static int random_check(call_kind kind)
{
    int check;
    do
        check = (int)random_between(&random_source, 1, LAST_CHECK);
    while (!in_call(kind, check));
    return check;
}

/* Makes two checks fail together on purpose, or one alone if they are the
 * same, until that was met: a short run meets everything too. */
static void try_pair(call_kind kind, int a, int b)
{
    static test_case c;
    const uint64_t *met = a == b ? &answers[kind][a] : &pairs[kind][a][b];
    for (int i = 0; i < PAIR_TRIES && *met == 0; i++) {
        make_case(&random_source, kind, 1u << a | 1u << b, &c);
        try_case(&c);
    }
}

static void try_inputs(call_kind kind)
{
    static test_case c;
    uint64_t cases = scaled(INPUT_CASES);
    for (int a = 1; a <= LAST_CHECK; a++)
        for (int b = 1; b <= LAST_CHECK; b++)
            if ((in_order(kind, a, b) && why_impossible(kind, a, b) == NULL) ||
                (a == b && in_call(kind, a)))
                try_pair(kind, a, b);
    for (uint64_t i = 0; i < cases; i++) {
        uint64_t sort = i % 10;
        unsigned damages = 0;
        if (sort >= 3)
            damages |= 1u << random_check(kind);
        if (sort >= 6)
            damages |= 1u << random_check(kind);
        if (sort == 8)
            make_changed_case(&random_source, kind, &c);
        else if (sort == 9)
            make_random_case(&random_source, kind, &c);
        else
            make_case(&random_source, kind, damages, &c);
        try_case(&c);
    }
}

/* The account of what was met, which must be enough. */

static void report_answers(call_kind kind)
{
    printf("inputs, %s: %" PRIu64 " (%" PRIu64 " accepted; refused by check", call_name(kind),
           inputs[kind], answers[kind][0]);
    for (int check = 1; check <= LAST_CHECK; check++)
        if (in_call(kind, check))
            printf(" %d: %" PRIu64, check, answers[kind][check]);
    printf(")\n");
    if (inputs[kind] < scaled(INPUT_CASES))
        fail("%s: only %" PRIu64 " inputs", call_name(kind), inputs[kind]);
    for (int check = 0; check <= LAST_CHECK; check++)
        if ((check == 0 || in_call(kind, check)) && answers[kind][check] < scaled(LEAST_ANSWERS))
            fail("%s: check %d was the answer only %" PRIu64 " times, %" PRIu64 " are due",
                 call_name(kind), check, answers[kind][check], scaled(LEAST_ANSWERS));
}

static void report_pairs(call_kind kind)
{
    unsigned met = 0;
    printf("pairs, %s:", call_name(kind));
    for (int a = 1; a <= LAST_CHECK; a++)
        for (int b = 1; b <= LAST_CHECK; b++) {
            if (!in_order(kind, a, b))
                continue;
            if ((pairs[kind][a][b] > 0) == (why_impossible(kind, a, b) != NULL))
                fail("%s: checks %d and %d failed together %" PRIu64 " times", call_name(kind), a,
                     b, pairs[kind][a][b]);
            if (pairs[kind][a][b] > 0) {
                printf(" %d+%d", a, b);
                met++;
            }
        }
    printf(" (%u met)\n", met);
    for (int a = 1; a <= LAST_CHECK; a++)
        for (int b = 1; b <= LAST_CHECK; b++)
            if (in_order(kind, a, b) && why_impossible(kind, a, b) != NULL)
                printf("pairs, %s: %d+%d impossible: %s\n", call_name(kind), a, b,
                       why_impossible(kind, a, b));
}

static void compare_inputs(void)
{
    for (int kind = 0; kind < CALLS; kind++) {
        try_inputs((call_kind)kind);
        report_answers((call_kind)kind);
        report_pairs((call_kind)kind);
    }
    printf("pairs, any call: 3 or 12 with 5 to 11 or 13 impossible: block and note calls have no "
           "book, book calls no block\n");
    printf("pairs, any call: 1 with 3, 5 to 12 or 14 impossible: a call with a key has no block, "
           "book, note or words\n");
    printf("pairs, any call: 1, 2 or 14 with 13 impossible: a page has neither key nor words nor "
           "way\n");
    printf("long books: %" PRIu64 " encrypted, %" PRIu64 " decrypted, %" PRIu64
           " for a page, of 10,000 bytes or more; longest accepted %zu\n",
           long_books[CALL_ENCRYPT_BOOK], long_books[CALL_DECRYPT_BOOK], long_books[CALL_PAGE],
           longest_accepted);
    printf("notes whose number wraps after a byte ff: %" PRIu64 " accepted\n", wraps);
    if (wraps < scaled(LEAST_ANSWERS))
        fail("only %" PRIu64 " notes wrap, %" PRIu64 " are due", wraps, scaled(LEAST_ANSWERS));
    printf("pages of a sheet after the first: %" PRIu64 " accepted\n", later_sheets);
    if (later_sheets < scaled(LEAST_ANSWERS))
        fail("only %" PRIu64 " such pages, %" PRIu64 " are due", later_sheets,
             scaled(LEAST_ANSWERS));
}

int main(int argc, char **argv)
{
    start_test("differential", argc, argv);
    check_reference();
    check_vectors();
    check_note_vectors();
    check_edges();
    check_note_edges();
    check_pages();
    check_wide_numbers();
    check_words();
    compare_blocks();
    compare_notes();
    compare_round_trips(CALL_ENCRYPT_BOOK, "books", "records");
    compare_round_trips(CALL_CRYPT_NOTE, "notes", "bytes");
    compare_inputs();
    printf("differential: passed\n");
    return 0;
}
