/*
 * Words as they are passed: such as no key gives, those that the library made of
 * a key by each way, and words of every length.
 */
#include "edges.h"
#include "compare.h"
#include "library.h"
#include "vectors.h"

#include <inttypes.h>
#include <stdio.h>
#include <string.h>

enum {
    DRAWN = 2000,       /* of each number of words */
    KEYS = 300,         /* of each length */
    BOOK_PAIRS = 500,   /* of each number of words */
    CHECKS_AT_ONCE = 20 /* of check 14 and each other of each call */
};

/* What is sealed and opened under all words: a block, a book, and a note whose number wraps. */

enum { NOTE_BYTES = 5 * REFERENCE_BLOCK + 5, BOOK_ROOM = 200, JOBS = 3 };
static uint8_t block[REFERENCE_BLOCK], book[BOOK_ROOM], note[NOTE_BYTES], counter[COUNTER_LENGTH];

typedef struct {
    call_kind seal, open;
    const uint8_t *clear;
    size_t len;
    uint64_t count;
} job;
static job jobs[JOBS] = {
    {CALL_ENCRYPT_BLOCK, CALL_DECRYPT_BLOCK, block, REFERENCE_BLOCK, 1},
    {CALL_ENCRYPT_BOOK, CALL_DECRYPT_BOOK, book, 0, 7},
    {CALL_CRYPT_NOTE, CALL_CRYPT_NOTE, note, NOTE_BYTES, NOTE_BYTES},
};

static void make_jobs(void)
{
    /* as in the note, four blocks in parallel and others */
    static const book_shape shape = {2, {5, 2}};
    jobs[1].len = make_clear_book(&random_source, &shape, book);
    random_fill(&random_source, block, sizeof block);
    random_fill(&random_source, note, sizeof note);
    random_fill(&random_source, counter, sizeof counter);
    reference_store_word(counter + COUNTER_PREFIX_LENGTH, UINT32_MAX - 1);
}

static call_input job_call(const job *j, call_kind kind, const uint8_t *words, size_t len,
                           const uint8_t *input)
{
    call_input in = {kind, words, len, 1, input, j->len, j->len, NULL, 0};
    if (kind == CALL_CRYPT_NOTE) {
        in.counter = counter;
        in.counter_len = sizeof counter;
    }
    return in;
}

/* Words that no key gives. */

static uint64_t tried;
static uint64_t open_as_others; /* books that open under words in which a bit was changed */

/* Sealed by each way as the reference does, opened by each way to what it was. */
static void try_words(const uint8_t *words, size_t len, const char *what)
{
    uint8_t sealed[BOOK_ROOM];
    for (const job *j = jobs; j < jobs + JOBS; j++) {
        call_input in = job_call(j, j->seal, words, len, j->clear);
        compare_ways(&in, j->count, what);
        memcpy(sealed, last_output(), j->len);
        in = job_call(j, j->open, words, len, sealed);
        compare_ways(&in, j->count, what);
        if (memcmp(last_output(), j->clear, j->len) != 0)
            fail_call(&in, what, "it does not open to what was sealed");
    }
    tried++;
}

static void try_alike(size_t len)
{
    static const uint8_t values[] = {0, 0xff, 0x80, 0x01};
    uint8_t words[REFERENCE_MAX_WORDS_LENGTH];
    for (size_t i = 0; i < sizeof values; i++) {
        memset(words, values[i], len);
        try_words(words, len, "words of bytes all alike");
    }
}

static void try_drawn(size_t len)
{
    uint8_t words[REFERENCE_MAX_WORDS_LENGTH];
    for (uint64_t i = 0; i < scaled(DRAWN); i++) {
        random_fill(&random_source, words, len);
        try_words(words, len, "words drawn at random");
    }
}

/* The first whitening key and the first round key act on bytes 4 to 7 of a block before all else,
 * which are a record's entry: where one of their bits was changed, an opened book differs in
 * entries alone. */
static void expect_other_entries(const call_input *in, size_t changed, const char *what)
{
    size_t bodies = contents_length(book);
    if (changed >= 4 && (changed < 16 || changed >= 20))
        return;
    for (size_t i = 0; i < in->out_len; i++) {
        size_t at = i < bodies ? 0 : (i - bodies) % RECORD_LENGTH;
        if (last_output()[i] != book[i] && (at < 4 || at >= 8))
            fail_call(in, what, "byte %zu is another, though byte %zu of the words was changed", i,
                      changed);
    }
}

/* A book that was sealed before a bit of this byte of the words was changed: it is refused, or
 * opens as another. */
static void open_under(const uint8_t *words, size_t len, const uint8_t *sealed_book, size_t changed)
{
    static const char what[] = "book sealed before a bit of the words was changed";
    call_input in = job_call(&jobs[1], CALL_DECRYPT_BOOK, words, len, sealed_book);
    verdict v = {0, 0};
    for (in.way = 1; in.way <= WAYS; in.way++) {
        v = compare_call(&in, what);
        if (v.failing == 0 && memcmp(last_output(), book, in.out_len) == 0)
            fail_call(&in, what, "it opens as if no bit was changed");
        if (v.failing == 0)
            expect_other_entries(&in, changed, what);
    }
    open_as_others += v.failing == 0;
}

/* The words of a key with one bit changed, each in turn; a shorter run leaves bits out. Each bit
 * counts: an F-function and an exclusive or give another result under another word, so no block is
 * encrypted as before. */
static void try_changed_bits(size_t len)
{
    uint8_t words[REFERENCE_MAX_WORDS_LENGTH], before[REFERENCE_BLOCK], sealed_book[BOOK_ROOM];
    call_input in = job_call(&jobs[0], CALL_ENCRYPT_BLOCK, words, len, block);
    call_input whole = job_call(&jobs[1], CALL_ENCRYPT_BOOK, words, len, book);
    size_t bits = 8 * len, step = bits / scaled(bits);
    make_words(&random_source, words, len);
    compare_ways(&whole, jobs[1].count, "words of a key");
    memcpy(sealed_book, last_output(), whole.out_len);
    compare_ways(&in, 1, "words of a key");
    memcpy(before, last_output(), sizeof before);
    for (size_t bit = random_below(&random_source, step); bit < bits; bit += step) {
        words[bit / 8] ^= (uint8_t)(0x80 >> bit % 8);
        try_words(words, len, "words of a key with one bit changed");
        open_under(words, len, sealed_book, bit / 8);
        compare_ways(&in, 1, "words of a key with one bit changed");
        if (memcmp(last_output(), before, sizeof before) == 0)
            fail_call(&in, "words of a key with one bit changed", "bit %zu does not count", bit);
        words[bit / 8] ^= (uint8_t)(0x80 >> bit % 8);
    }
}

/* Words of a key, expanded by the library. */

/* One call under the library's words by each way, and once by the reference under those that it has
 * expanded itself. */
static void use_prepared(call_input in, const uint8_t *words, const uint8_t *own_words,
                         const uint8_t *due)
{
    uint8_t out[BOOK_ROOM], own[BOOK_ROOM];
    verdict v;
    in.secret = own_words;
    v = reference_call(&in, own);
    in.secret = words;
    for (in.way = 1; in.way <= WAYS; in.way++) {
        uint64_t answer = library_call(&in, out);
        if (answer != v.answer)
            fail_answer(&in, "words that the library expanded", answer, v.answer);
        if (memcmp(out, own, in.out_len) != 0)
            fail_call(&in, "words that the library expanded",
                      "another output than the reference has under the key");
        if (due != NULL && memcmp(out, due, in.out_len) != 0)
            fail_call(&in, "words that the library expanded",
                      "it does not open to what was sealed under the key");
    }
}

static void prepare_and_use(const uint8_t *key, size_t key_len, uint64_t way)
{
    uint8_t words[REFERENCE_MAX_WORDS_LENGTH], own_words[REFERENCE_MAX_WORDS_LENGTH],
        sealed[BOOK_ROOM];
    reference_words expanded;
    size_t len;
    call_input expand = {CALL_EXPAND_KEY, key, key_len, way, NULL, 0, 0};
    reference_expand_key(&expanded, key, key_len);
    len = expand.out_len = 4 * reference_store_words(own_words, &expanded);
    if (library_call(&expand, words) != len / 4)
        fail_call(&expand, "words that the library expands", "it refuses them");
    if (memcmp(words, own_words, len) != 0)
        fail_call(&expand, "words that the library expands", "other words than the reference has");
    for (const job *j = jobs; j < jobs + JOBS; j++) {
        call_input in = job_call(j, j->seal, own_words, len, j->clear);
        use_prepared(in, words, own_words, NULL);
        if (reference_call(&in, sealed).failing != 0)
            fail_call(&in, "words of a key", "the reference refuses it");
        use_prepared(job_call(j, j->open, own_words, len, sealed), words, own_words, j->clear);
    }
}

static void check_prepared_words(void)
{
    uint8_t key[32];
    uint64_t keys = scaled(KEYS);
    for (size_t key_len = 16; key_len <= 32; key_len += 8)
        for (uint64_t i = 0; i < keys; i++) {
            random_fill(&random_source, key, key_len);
            for (uint64_t way = 1; way <= WAYS; way++)
                prepare_and_use(key, key_len, way);
        }
    printf("prepared words: of %" PRIu64
           " keys of each length, expanded by %d ways and used by %d, as the reference under the "
           "key\n",
           keys, WAYS, WAYS);
}

/* Sealed books under the same words are equal where the clear ones are, and nowhere else. */

/* Another book that keeps all rules, or the same: returns its length. */
static size_t make_other(uint8_t *other, const uint8_t *clear, size_t len, const book_shape *shape)
{
    size_t records = (len - contents_length(clear)) / RECORD_LENGTH;
    uint8_t *entry = entry_at(other, random_below(&random_source, shape->sheets)), *record;
    memcpy(other, clear, len);
    record = record_at(other, random_below(&random_source, records));
    switch (random_below(&random_source, 7)) {
    case 0: return len;
    case 1: entry[8 + random_below(&random_source, REFERENCE_BLOCK)] ^= 1; return len;
    case 2:
        reference_store_word(record + 4, (uint32_t)random_between(&random_source, 1, 500));
        return len;
    case 3: reference_store_word(record + 9, 0x00010001); return len; /* row and column */
    case 4: reference_store_word(record + 9, 0); return len;
    case 5: record[8] = 1; return len;
    default: return make_clear_book(&random_source, shape, other);
    }
}

static void seal_book(const uint8_t *words, size_t words_len, const uint8_t *clear, size_t len,
                      uint8_t *sealed)
{
    uint64_t way = random_between(&random_source, 1, WAYS);
    call_input in = {CALL_ENCRYPT_BOOK, words, words_len, way, clear, len, len};
    if (compare_call(&in, "equal books").failing != 0)
        fail_call(&in, "equal books", "the reference refuses it");
    memcpy(sealed, last_output(), len);
}

static void check_equal_books(void)
{
    static uint8_t clear[2][BOOK_ROOM], sealed[2][BOOK_ROOM];
    static const book_shape shape = {2, {1, 3}};
    uint8_t words[REFERENCE_MAX_WORDS_LENGTH];
    uint64_t pairs = scaled(BOOK_PAIRS), equal = 0;
    for (size_t words_len = 160; words_len <= 224; words_len += 32)
        for (uint64_t i = 0; i < pairs; i++) {
            size_t len = make_clear_book(&random_source, &shape, clear[0]);
            if (make_other(clear[1], clear[0], len, &shape) != len)
                fail("two books of one shape have two lengths");
            if (i % 2 == 0)
                make_words(&random_source, words, words_len);
            else
                random_fill(&random_source, words, words_len);
            for (int k = 0; k < 2; k++)
                seal_book(words, words_len, clear[k], len, sealed[k]);
            if ((memcmp(clear[0], clear[1], len) == 0) != (memcmp(sealed[0], sealed[1], len) == 0))
                fail("of two clear books and the sealed ones, under the same words, two are equal "
                     "and two are not");
            equal += memcmp(clear[0], clear[1], len) == 0;
        }
    printf("equal books: %" PRIu64
           " pairs sealed under the same words, equal where the clear ones are (%" PRIu64 ")\n",
           KEY_LENGTHS * pairs, equal);
}

/* Lengths. */

static unsigned lengths_refused;

/* Check 14 alone, for all that is given the words is right; or accepted. */
static void try_length(const uint8_t *words, size_t len)
{
    static uint8_t sealed[JOBS][BOOK_ROOM];
    int permitted = is_words_length(len);
    for (size_t i = 0; i < JOBS; i++) {
        const job *j = &jobs[i];
        call_input in = job_call(j, j->seal, words, len, j->clear);
        compare_ways(&in, permitted ? j->count : refusal(14), "length of the words");
        if (permitted)
            memcpy(sealed[i], last_output(), j->len);
        else if (i == 1) {
            memcpy(sealed[i], book, j->len);
            sealed[i][0] = SEALED_BOOK;
        }
        in = job_call(j, j->open, words, len, sealed[i]);
        compare_ways(&in, permitted ? j->count : refusal(14), "length of the words");
    }
    lengths_refused += !permitted;
}

/* Each up to 300; and longer ones, most of which are permitted if cut to 8 bits or to 16. A shorter
 * run leaves some out. */
static void check_words_lengths(void)
{
    static uint8_t words[MAX_INPUT];
    static const size_t more[] = {
        320,   336,     384,           640,           768,           896,       4096,
        65532, 0x10000, 0x10000 + 160, 0x10000 + 192, 0x10000 + 224, MAX_INPUT,
    };
    size_t step = 0x100 * (256 / scaled(256));
    random_fill(&random_source, words, sizeof words);
    lengths_refused = 0;
    for (size_t len = 0; len <= 300; len++)
        try_length(words, len);
    for (size_t i = 0; i < sizeof more / sizeof more[0]; i++)
        try_length(words, more[i]);
    for (size_t base = step; base < 0x10000; base += step)
        for (size_t len = 160; len <= 224; len += 32)
            try_length(words, base + len);
    printf("lengths of words: %u refused by five calls, %d accepted\n", lengths_refused,
           KEY_LENGTHS);
}

/* Check 14 comes first, whatever fails beside it: each check of the call, and all at once. */
static void check_words_first(void)
{
    static test_case c;
    unsigned calls = 0;
    for (int kind = 0; kind < CALLS; kind++) {
        unsigned others = checks_of((call_kind)kind) & ~(1u << CHECK_WORDS);
        if (!call_has_words((call_kind)kind))
            continue;
        for (int check = 1; check < LAST_CHECK; check++)
            for (int i = 0; (others >> check & 1) && i < CHECKS_AT_ONCE; i++, calls++) {
                make_case(&random_source, (call_kind)kind, 1u << CHECK_WORDS | 1u << check, &c);
                compare_stated(&c.in, refusal(14), "words of a wrong length, and one check more");
            }
        make_case(&random_source, (call_kind)kind, 1u << CHECK_WORDS | others, &c);
        compare_stated(&c.in, refusal(14), "words of a wrong length, and each other check");
        calls++;
    }
    printf("words first: %u calls in which check 14 and others fail\n", calls);
}

/* What the header says of damaged words, of a book typed out: a wrong bit in the first word shows
 * in the entry, one in the first byte of the second word in the column, and nothing refuses the
 * book. */
static void check_unnoticed_damage(void)
{
    static const struct {
        size_t changed, shown; /* a byte of the words, and one of the book */
        uint8_t bit;
    } damages[] = {{0, 32, 0x80}, {3, 35, 0x40}, {4, 40, 0x10}, {4, 40, 0x01}};
    uint8_t clear[ONE_RECORD_LENGTH], sealed[sizeof clear], words[REFERENCE_MAX_WORDS_LENGTH];
    memcpy(clear, one_record_book, sizeof clear);
    for (size_t len = 160; len <= 224; len += 32)
        for (size_t i = 0; i < sizeof damages / sizeof damages[0]; i++) {
            call_input in = {CALL_DECRYPT_BOOK, words,        len, 1, sealed,
                             sizeof sealed,     sizeof sealed};
            make_words(&random_source, words, len);
            words[damages[i].changed] ^= damages[i].bit;
            seal_book(words, len, clear, sizeof clear, sealed);
            words[damages[i].changed] ^= damages[i].bit;
            compare_ways(&in, 1, "book sealed under damaged words");
            clear[damages[i].shown] ^= damages[i].bit;
            if (memcmp(last_output(), clear, sizeof clear) != 0)
                fail_call(&in, "book sealed under damaged words",
                          "it is not the book with that bit changed");
            clear[damages[i].shown] ^= damages[i].bit;
        }
    printf("damaged words: %zu kinds change an entry or a column and nothing else\n",
           sizeof damages / sizeof damages[0]);
}

/* Words at every place in memory, and words that are the input too: only the output must lie
 * apart. */
static void check_places(void)
{
    uint8_t room[REFERENCE_MAX_WORDS_LENGTH + 64], due[BOOK_ROOM], out[BOOK_ROOM];
    for (size_t at = 0; at < 64; at++)
        for (size_t len = 160; len <= 224; len += 32) {
            uint8_t *words = room + at;
            call_input in = {CALL_CRYPT_NOTE, words,         len, 1, words + at % 7, 100, 100,
                             words + at % 5,  COUNTER_LENGTH};
            make_words(&random_source, words, len);
            reference_call(&in, due);
            for (in.way = 1; in.way <= WAYS; in.way++)
                if (library_call(&in, out) != 100 || memcmp(out, due, 100) != 0)
                    fail_call(&in, "words at some place", "another answer or output at place %zu",
                              at);
        }
    printf("places: words at 64 places, passed as counter block and note too\n");
}

void check_words(void)
{
    make_jobs();
    tried = 0;
    for (size_t len = 160; len <= 224; len += 32) {
        try_alike(len);
        try_drawn(len);
        try_changed_bits(len);
    }
    printf("words: %" PRIu64 " that no key gives, with a block, a book and a note sealed and "
           "opened by %d ways; under %" PRIu64 " of them, with one bit changed, a sealed book "
           "opens as another\n",
           tried, WAYS, open_as_others);
    check_prepared_words();
    check_equal_books();
    check_words_lengths();
    check_words_first();
    check_unnoticed_damage();
    check_places();
}
