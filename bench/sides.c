#include "sides.h"
#include "plain.h"
#include "planbook.h"

#include <string.h>

typedef uint64_t expand_call(const uint8_t *key, size_t key_len, uint64_t way, uint8_t *out,
                             size_t out_len);
typedef uint64_t words_call(const uint8_t *words, size_t words_len, uint64_t way, const uint8_t *in,
                            size_t in_len, uint8_t *out, size_t out_len);
typedef uint64_t note_call(const uint8_t *words, size_t words_len, uint64_t way,
                           const uint8_t *counter, size_t counter_len, const uint8_t *note,
                           size_t note_len, uint8_t *out, size_t out_len);
typedef uint64_t page_call(const uint8_t *book, size_t book_len, uint64_t sheet, uint8_t *out,
                           size_t out_len);

/* Where a side has no such call, null. */
struct calls {
    expand_call *expand_key;
    words_call *encrypt_block, *decrypt_block, *encrypt_book, *decrypt_book;
    note_call *crypt_note;
    page_call *page;
    /* in place of words: a library before 3.0.0, which expands the key in every call */
    int takes_keys;
};

/* bench/run has another name for it where an earlier library has no such call. */
#ifndef PLAIN_PAGE
#define PLAIN_PAGE plain_page
#endif

static struct calls sides[SIDES] = {
    [LIBRARY] = {planbook_expand_key, planbook_encrypt_block, planbook_decrypt_block,
                 planbook_encrypt_book, planbook_decrypt_book, planbook_crypt_note, planbook_page,
                 0},
    [PLAIN] = {plain_expand_key, plain_encrypt_block, plain_decrypt_block, plain_encrypt_book,
               plain_decrypt_book, plain_crypt_note, PLAIN_PAGE, 0},
    [PACKED] = {.encrypt_book = packed_encrypt_book, .page = packed_page},
    [PRINTED] = {.page = printed_page},
};

int sides_have_pages(void)
{
    return sides[PLAIN].page != NULL;
}

int other_side_takes_keys(void)
{
    return sides[PLAIN].takes_keys;
}

static uint64_t refusal(uint32_t check)
{
    return (uint64_t)check << 32;
}

/* A side that takes keys takes any words for a key of a wrong length. */
static int refuses_words(const struct calls *s)
{
    static const uint8_t words[PLANBOOK_EXPANDED128_BYTES];
    uint8_t out[16];
    return s->encrypt_block(words, sizeof words, 1, words, 16, out, 16) ==
           refusal(PLANBOOK_CHECK_KEY_LENGTH);
}

/* What a call is given first: words, or the key where the side takes keys. */
struct given {
    const uint8_t *bytes;
    size_t len;
};

/* The words by the side's own expanding, which have their room with the caller. */
static struct given give(const struct calls *s, const uint8_t *key, size_t key_len, uint64_t way,
                         uint8_t *words)
{
    size_t len = planbook_expanded_length(key_len);
    if (s->takes_keys)
        return (struct given){key, key_len};
    if (s->expand_key(key, key_len, way, words, len) != len / 4)
        stop("a side does not expand a key");
    return (struct given){words, len};
}

/* Held to the lengths of words, by calls in which all else is wrong: check 14 comes before the
 * others, and check 2 next. */
static void check_lengths(const struct calls *s)
{
    static const uint8_t any[PLANBOOK_MAX_EXPANDED_BYTES + 1];
    words_call *const calls[] = {s->encrypt_block, s->decrypt_block, s->encrypt_book,
                                 s->decrypt_book};
    uint8_t out[1];
    for (size_t len = 0; len <= sizeof any; len++) {
        int permitted = len == PLANBOOK_EXPANDED128_BYTES || len == PLANBOOK_EXPANDED192_BYTES ||
                        len == PLANBOOK_EXPANDED256_BYTES;
        uint64_t answer = refusal(permitted ? PLANBOOK_CHECK_WAY : PLANBOOK_CHECK_WORDS_LENGTH);
        int same = s->crypt_note(any, len, 0, any, 0, any, 0, out, 1) == answer;
        for (size_t i = 0; i < sizeof calls / sizeof calls[0]; i++)
            same &= calls[i](any, len, 0, any, 0, out, 1) == answer;
        if (!same)
            stop("a side does not refuse words as it must");
    }
}

/* Held to the vectors of the CLEFIA specification 1.0, section 2.5. */

static const uint8_t vector_key[32] = {
    0xff, 0xee, 0xdd, 0xcc, 0xbb, 0xaa, 0x99, 0x88, 0x77, 0x66, 0x55, 0x44, 0x33, 0x22, 0x11, 0x00,
    0xf0, 0xe0, 0xd0, 0xc0, 0xb0, 0xa0, 0x90, 0x80, 0x70, 0x60, 0x50, 0x40, 0x30, 0x20, 0x10, 0x00,
};
static const uint8_t vector_clear[16] = {0, 1, 2, 3, 4, 5, 6, 7, 8, 9, 10, 11, 12, 13, 14, 15};
static const uint8_t vector_encrypted[KEY_LENGTHS][16] = {
    {0xde, 0x2b, 0xf2, 0xfd, 0x9b, 0x74, 0xaa, 0xcd,
     0xf1, 0x29, 0x85, 0x55, 0x45, 0x94, 0x94, 0xfd},
    {0xe2, 0x48, 0x2f, 0x64, 0x9f, 0x02, 0x8d, 0xc4,
     0x80, 0xdd, 0xa1, 0x84, 0xfd, 0xe1, 0x81, 0xad},
    {0xa1, 0x39, 0x78, 0x14, 0x28, 0x9d, 0xe8, 0x0c,
     0x10, 0xda, 0x46, 0xd1, 0xfa, 0x48, 0xb3, 0x8a},
};

static void check_vectors(const struct calls *s)
{
    for (size_t k = 0; k < KEY_LENGTHS; k++)
        for (uint64_t way = 1; way <= WAYS; way++) {
            uint8_t words[PLANBOOK_MAX_EXPANDED_BYTES], out[16], back[16];
            struct given w = give(s, vector_key, 16 + 8 * k, way, words);
            if (s->encrypt_block(w.bytes, w.len, way, vector_clear, 16, out, 16) != 1 ||
                s->decrypt_block(w.bytes, w.len, way, out, 16, back, 16) != 1 ||
                memcmp(out, vector_encrypted[k], 16) != 0 || memcmp(back, vector_clear, 16) != 0)
                stop("a side does not give the published test vectors");
        }
}

/*
 * Held to a note under the words of the 16-byte key, worked out by another program. Its counter
 * blocks go on at zero within the first four; then come a whole block and a part.
 */

static const uint8_t vector_counter[16] = {
    0xf0, 0xf1, 0xf2, 0xf3, 0xf4, 0xf5, 0xf6, 0xf7, 0xf8, 0xf9, 0xfa, 0xfb, 0xff, 0xff, 0xff, 0xfd,
};
static const uint8_t vector_note[87] = {
    0xec, 0xda, 0xf3, 0x8f, 0x36, 0x6c, 0x34, 0x6c, 0xfc, 0x41, 0xa4, 0x1c, 0xae, 0x25, 0xfe, 0xcf,
    0xe1, 0xd8, 0x2f, 0x64, 0xda, 0x11, 0x96, 0xcb, 0x3d, 0x32, 0x9b, 0x84, 0x64, 0xb4, 0x1f, 0x05,
    0xc1, 0x81, 0x8f, 0xcd, 0x6b, 0x4e, 0x7e, 0xfd, 0x2f, 0xb0, 0x5c, 0xbc, 0x11, 0xc9, 0x13, 0x12,
    0xeb, 0xea, 0x77, 0x52, 0xdd, 0xa7, 0xb6, 0x15, 0x25, 0xad, 0xe5, 0x0f, 0x75, 0xa0, 0x28, 0xe5,
    0x22, 0xba, 0x41, 0x0c, 0x48, 0x3a, 0xd0, 0x2f, 0xc5, 0x39, 0x37, 0x5d, 0x65, 0xae, 0xf2, 0xf7,
    0x1d, 0xcc, 0xcf, 0x02, 0x22, 0x09, 0x0c,
};

static size_t make_note(uint8_t *note, size_t len)
{
    for (size_t i = 0; i < len; i++)
        note[i] = (uint8_t)i;
    return len;
}

static void check_note(const struct calls *s)
{
    enum { LEN = sizeof vector_note };
    uint8_t note[LEN], out[LEN], back[LEN], words[PLANBOOK_MAX_EXPANDED_BYTES];
    make_note(note, LEN);
    for (uint64_t way = 1; way <= WAYS; way++) {
        struct given w = give(s, vector_key, 16, way, words);
        if (s->crypt_note(w.bytes, w.len, way, vector_counter, 16, note, LEN, out, LEN) != LEN ||
            s->crypt_note(w.bytes, w.len, way, vector_counter, 16, out, LEN, back, LEN) != LEN ||
            memcmp(out, vector_note, LEN) != 0 || memcmp(back, note, LEN) != 0)
            stop("a side does not give the note's vector");
    }
}

static void check_constants(void)
{
    for (size_t k = 0; k < KEY_LENGTHS; k++) {
        static const size_t words[KEY_LENGTHS] = {60, 84, 92};
        uint8_t ours[368], theirs[368];
        size_t len = 4 * words[k];
        if (planbook_constants(16 + 8 * k, ours, len) != words[k] ||
            plain_constants(16 + 8 * k, theirs, len) != words[k] || memcmp(ours, theirs, len) != 0)
            stop("the sides differ in the constants");
    }
}

/* A clear book: sheets of 1,024 records and one with the rest. */

static void put_number(uint8_t *p, uint32_t n, int bytes)
{
    for (int i = bytes - 1; i >= 0; i--, n >>= 8)
        p[i] = (uint8_t)n;
}

static uint32_t trial_of(size_t sheet)
{
    return (uint32_t)(41 + 10 * sheet);
}

struct record {
    uint32_t trial, entry, replicate, row, column, last;
};

static void put_record(uint8_t *p, struct record r)
{
    put_number(p, r.trial, 4);
    put_number(p + 4, r.entry, 4);
    put_number(p + 8, r.replicate, 1);
    put_number(p + 9, r.row, 2);
    put_number(p + 11, r.column, 2);
    put_number(p + 13, r.last, 3);
}

/* Below 16 the plot is in reserve: 78 of 1,024, at uneven distances, since the processor would
 * learn even ones. */
static uint8_t drawn_plots[PLANBOOK_MAX_SHEET_RECORDS];

/* Each sheet's plots are 40 to a row; those of the fifth sheet reach row 977 and column 996. */
static struct record planned(size_t sheet, uint32_t place)
{
    uint32_t corner = 1 + 239 * (uint32_t)sheet;
    struct record r = {trial_of(sheet),     1 + place * 7919 % 100000, 1 + place % 4,
                       corner + place / 40, corner + place % 40,       0};
    if (drawn_plots[place % sizeof drawn_plots] < 16)
        r.row = r.column = 0;
    return r;
}

/* Answers the length. The largest book has five sheets; smaller ones have as many as they need. */
static size_t make_book(uint8_t *book, size_t records)
{
    size_t most = PLANBOOK_MAX_SHEET_RECORDS;
    size_t sheets = records == LARGEST_BOOK ? 5 : (records + most - 1) / most;
    uint8_t *at = book + 4 + 24 * sheets;
    put_number(book, 0x01000000 + (uint32_t)sheets, 4);
    for (size_t s = 0; s < sheets; s++) {
        uint8_t *entry = book + 4 + 24 * s;
        size_t count = records / sheets + (s < records % sheets);
        put_number(entry, trial_of(s), 4);
        put_number(entry + 4, (uint32_t)count << 16, 4);
        for (int i = 0; i < 16; i++)
            entry[8 + i] = (uint8_t)(29 * i + 83 * (int)s + 7);
        for (size_t i = 0; i < count; i++, at += 16)
            put_record(at, planned(s, (uint32_t)i));
    }
    return (size_t)(at - book);
}

/* Many books of one sheet each, whose start blocks and records differ. */

enum {
    BOOK_IV_AT = 12,
    BOOK_RECORDS_AT = 28,
    SMALL_BOOK_BYTES = BOOK_RECORDS_AT + 16 * SMALL_BOOK
};

static size_t make_books(uint8_t *books, const uint8_t start_blocks[][16])
{
    uint8_t *at = books;
    for (uint32_t b = 0; b < MANY_BOOKS; b++, at += SMALL_BOOK_BYTES) {
        make_book(at, SMALL_BOOK);
        memcpy(at + BOOK_IV_AT, start_blocks[b], 16);
        for (uint32_t i = 0; i < SMALL_BOOK; i++)
            put_record(at + BOOK_RECORDS_AT + 16 * i, planned(0, SMALL_BOOK * b + i));
    }
    return (size_t)(at - books);
}

/* Held to two pages that were typed out, and to the checks and their order. */

static const uint8_t page_book[100] = {
    1,   0,   0,   2, 0, 0,   0, 41,  0,        2,  [28] = 0, 0,  0,        42, 0, 1,  [52] = 0,
    0,   0,   41,  0, 0, 0,   7, 2,   0,        12, 0,        3,  [68] = 0, 0,  0, 41, 255,
    255, 255, 255, 4, 3, 231, 3, 231, [84] = 0, 0,  0,        42, 0,        0,  1, 0,  1,
};
static const char *const page_texts[] = {
    "     TRIAL      ENTRY R ROW COL\n"
    "        41          7 2  12   3\n"
    "        41 4294967295 4 999 999\n",
    "     TRIAL      ENTRY R ROW COL\n"
    "        42        256 1   0   0\n",
};
enum { LONGEST_TYPED_PAGE = 96 };

/* A byte of that book is changed, and so many bytes of it are given. */
static const struct {
    size_t len, at;
    uint8_t value;
    uint64_t sheet;
    size_t out_len;
    int check;
} refused_pages[] = {
    {3, 0, 1, 0, 96, 5},     {100, 0, 2, 0, 96, 6},
    {100, 1, 1, 0, 96, 6},   {100, 2, 1, 0, 96, 7},
    {51, 0, 1, 0, 96, 8},    {100, 9, 0, 0, 32, 9},
    {100, 11, 1, 0, 96, 9},  {100, 35, 1, 0, 96, 9},
    {99, 0, 1, 0, 96, 10},   {100, 9, 1, 0, 64, 10},
    {100, 67, 1, 0, 96, 11}, {100, 99, 1, 0, 96, 11},
    {100, 67, 1, 1, 64, 11}, {100, 99, 1, 1, 64, 11},
    {100, 0, 1, 2, 64, 13},  {100, 0, 1, (uint64_t)1 << 32, 96, 13},
    {4, 3, 0, 0, 32, 13},    {100, 0, 1, 0, 95, 4},
    {100, 0, 1, 0, 64, 4},   {100, 0, 1, 0, 128, 4},
    {100, 0, 1, 1, 96, 4},   {100, 99, 1, 2, 95, 11},
    {100, 99, 1, 0, 95, 11}, {100, 0, 1, 2, 95, 13},
};

static int page_is_refused(const struct calls *s, size_t i)
{
    uint8_t book[sizeof page_book], out[LONGEST_TYPED_PAGE + 32], untouched[sizeof out];
    memset(out, 0xa5, sizeof out);
    memset(untouched, 0xa5, sizeof out);
    memcpy(book, page_book, sizeof book);
    book[refused_pages[i].at] = refused_pages[i].value;
    return s->page(book, refused_pages[i].len, refused_pages[i].sheet, out,
                   refused_pages[i].out_len) == refusal(refused_pages[i].check) &&
           memcmp(out, untouched, sizeof out) == 0;
}

static void check_page(const struct calls *s)
{
    uint8_t out[LONGEST_TYPED_PAGE];
    if (s->page == NULL)
        return;
    for (size_t sheet = 0; sheet < 2; sheet++) {
        size_t len = strlen(page_texts[sheet]);
        if (s->page(page_book, sizeof page_book, sheet, out, len) != len / PLANBOOK_LINE_BYTES ||
            memcmp(out, page_texts[sheet], len) != 0)
            stop("a side does not give a page that was typed out");
    }
    for (size_t i = 0; i < sizeof refused_pages / sizeof refused_pages[0]; i++)
        if (!page_is_refused(s, i))
            stop("a side does not refuse a page as it must");
}

void check_sides(void)
{
    if (refuses_words(&sides[LIBRARY]))
        stop("the library takes keys and not words: it is of a version before 3.0.0");
    sides[PLAIN].takes_keys = refuses_words(&sides[PLAIN]);
    for (int side = LIBRARY; side <= PLAIN; side++) {
        if (!sides[side].takes_keys)
            check_lengths(&sides[side]);
        check_vectors(&sides[side]);
        check_note(&sides[side]);
    }
    check_constants();
    for (int side = 0; side < SIDES; side++)
        check_page(&sides[side]);
}

/*
 * Held to the rule of records, so that no side is timed without a part of it.
 * Each record is alone in a book; the start block of the sealed one is
 * changed by the bits in which it differs from the record that was sealed.
 */

static const struct {
    struct record record;
    int holds;
} judged[] = {
    {{41, 1, 1, 1, 1, 0}, 1},    {{41, 1, 4, 999, 999, 0}, 1}, {{41, 1, 1, 0, 0, 0}, 1},
    {{42, 1, 1, 1, 1, 0}, 0},    {{41, 0, 1, 1, 1, 0}, 0},     {{41, 1, 0, 1, 1, 0}, 0},
    {{41, 1, 5, 1, 1, 0}, 0},    {{41, 1, 1, 0, 1, 0}, 0},     {{41, 1, 1, 1, 0, 0}, 0},
    {{41, 1, 1, 1000, 1, 0}, 0}, {{41, 1, 1, 1, 1000, 0}, 0},  {{41, 1, 1, 1, 1, 1}, 0},
};

static int judges_so(const struct calls *s, struct record r, uint64_t answer)
{
    enum {
        LEN = BOOK_RECORDS_AT + 16,
        WAY = PLANBOOK_WAY_WORD_TABLES,
        PAGE_LEN = 2 * PLANBOOK_LINE_BYTES
    };
    uint8_t book[LEN], sealed[LEN], before[16], out[PAGE_LEN], words[PLANBOOK_MAX_EXPANDED_BYTES];
    struct given w = give(&sides[PLAIN], vector_key, 16, WAY, words);
    make_book(book, 1);
    plain_encrypt_book(w.bytes, w.len, WAY, book, LEN, sealed, LEN);
    memcpy(before, book + BOOK_RECORDS_AT, sizeof before);
    put_record(book + BOOK_RECORDS_AT, r);
    for (int i = 0; i < 16; i++)
        sealed[BOOK_IV_AT + i] ^= before[i] ^ book[BOOK_RECORDS_AT + i];
    return (s->encrypt_book == NULL ||
            s->encrypt_book(w.bytes, w.len, WAY, book, LEN, out, LEN) == answer) &&
           (s->decrypt_book == NULL ||
            s->decrypt_book(w.bytes, w.len, WAY, sealed, LEN, out, LEN) == answer) &&
           (s->page == NULL || s->page(book, LEN, 0, out, PAGE_LEN) == (answer == 1 ? 2 : answer));
}

void check_rule(void)
{
    for (int side = 0; side < SIDES; side++)
        for (size_t i = 0; i < sizeof judged / sizeof judged[0]; i++)
            if (!judges_so(&sides[side], judged[i].record,
                           judged[i].holds ? 1 : refusal(PLANBOOK_CHECK_RECORD)))
                stop("a side does not keep the rule of records");
}

/*
 * The calls of a task, on buffers that are made ready once. Key, words and block
 * change from call to call: of one that comes again and again the processor would
 * learn the branches, and a loop whose length hangs on secret bits would look fast.
 */

enum { DRAWN = 1024, MOST_BYTES = MANY_BOOKS * SMALL_BOOK_BYTES };
static uint8_t drawn_keys[DRAWN][PLANBOOK_MAX_KEY_BYTES], drawn_blocks[DRAWN][16];
static uint8_t drawn_words[KEY_LENGTHS][DRAWN][PLANBOOK_MAX_EXPANDED_BYTES];
static uint8_t input[MOST_BYTES], output[SIDES][MOST_BYTES];
static size_t input_len, output_len;

/* What a side's call of number 0 is given, and how far on that of the next one lies. */
static struct {
    struct given first;
    size_t stride;
} given[SIDES];

/* Marsaglia's xorshift, always from the same start. */
static void draw(uint8_t *bytes, size_t len)
{
    static uint64_t x = 0x9e3779b97f4a7c15;
    for (size_t i = 0; i < len; i++) {
        x ^= x << 13, x ^= x >> 7, x ^= x << 17;
        bytes[i] = (uint8_t)(x >> 56);
    }
}

static void expand_drawn_keys(void)
{
    for (size_t k = 0; k < KEY_LENGTHS; k++)
        for (size_t i = 0; i < DRAWN; i++) {
            uint8_t theirs[PLANBOOK_MAX_EXPANDED_BYTES], *words = drawn_words[k][i];
            size_t key_len = 16 + 8 * k, len = planbook_expanded_length(key_len);
            if (planbook_expand_key(drawn_keys[i], key_len, PLANBOOK_WAY_WORD_TABLES, words, len) !=
                    len / 4 ||
                plain_expand_key(drawn_keys[i], key_len, PLANBOOK_WAY_WORD_TABLES, theirs, len) !=
                    len / 4 ||
                memcmp(words, theirs, len) != 0)
                stop("the sides differ in the words of a key");
        }
}

void draw_inputs(void)
{
    draw(drawn_keys[0], sizeof drawn_keys);
    draw(drawn_blocks[0], sizeof drawn_blocks);
    draw(drawn_plots, sizeof drawn_plots);
    expand_drawn_keys();
}

static size_t make_input(const struct task *t)
{
    if (t->kind == BOOKS_EACH || t->kind == BOOKS_ONCE)
        return make_books(input, drawn_blocks);
    if (t->kind == CRYPT_NOTE)
        return make_note(input, 16 * t->blocks);
    return t->blocks > 0 ? make_book(input, t->blocks) : 16;
}

/* A page has no key. */
static void make_words_ready(const struct task *t)
{
    size_t len = planbook_expanded_length(t->key_len);
    for (int side = 0; side < SIDES && len > 0; side++) {
        given[side].first = sides[side].takes_keys
                                ? (struct given){drawn_keys[0], t->key_len}
                                : (struct given){drawn_words[t->key_len / 8 - 2][0], len};
        given[side].stride =
            sides[side].takes_keys ? sizeof drawn_keys[0] : sizeof drawn_words[0][0];
    }
}

void make_ready(const struct task *t)
{
    make_words_ready(t);
    input_len = output_len = make_input(t);
    if (t->kind == EXPAND_KEY)
        output_len = planbook_expanded_length(t->key_len);
    if (t->kind == PAGE)
        output_len = PLANBOOK_LINE_BYTES * (t->blocks + 1);
    if (t->kind == DECRYPT_BOOK) {
        const struct given *w = &given[PLAIN].first;
        plain_encrypt_book(w->bytes, w->len, PLANBOOK_WAY_WORD_TABLES, input, input_len, output[0],
                           input_len);
        memcpy(input, output[0], input_len);
    }
}

/* Answers the records of all books. */
static uint64_t seal_books(const struct task *t, const struct calls *s, const uint8_t *key,
                           uint8_t *out)
{
    uint8_t words[PLANBOOK_MAX_EXPANDED_BYTES];
    struct given w = {NULL, 0};
    uint64_t answers = 0;
    for (size_t at = 0; at < input_len; at += SMALL_BOOK_BYTES) {
        if (at == 0 || t->kind == BOOKS_EACH)
            w = give(s, key, t->key_len, t->way, words);
        answers += s->encrypt_book(w.bytes, w.len, t->way, input + at, SMALL_BOOK_BYTES, out + at,
                                   SMALL_BOOK_BYTES);
    }
    return answers;
}

uint64_t call(const struct task *t, enum side side, size_t number)
{
    const struct calls *s = &sides[side];
    const uint8_t *key = drawn_keys[number % DRAWN], *block = drawn_blocks[number % DRAWN];
    const uint8_t *first = given[side].first.bytes,
                  *words = first + given[side].stride * (number % DRAWN);
    size_t words_len = given[side].first.len;
    uint8_t *out = output[side];
    switch (t->kind) {
    case EXPAND_KEY: return s->expand_key(key, t->key_len, t->way, out, output_len);
    case ENCRYPT_BLOCK:
        return s->encrypt_block(words, words_len, t->way, block, input_len, out, output_len);
    case DECRYPT_BLOCK:
        return s->decrypt_block(words, words_len, t->way, block, input_len, out, output_len);
    case ENCRYPT_BOOK:
        return s->encrypt_book(words, words_len, t->way, input, input_len, out, output_len);
    case DECRYPT_BOOK: /* opens under the words that sealed it */
        return s->decrypt_book(first, words_len, t->way, input, input_len, out, output_len);
    case BOOKS_EACH:
    case BOOKS_ONCE: return seal_books(t, s, key, out);
    case PAGE: return s->page(input, input_len, 0, out, output_len);
    default:
        return s->crypt_note(words, words_len, t->way, vector_counter, 16, input, input_len, out,
                             output_len);
    }
}

static int agree(const struct task *t, size_t number)
{
    for (int side = 0; side < SIDES; side++)
        memset(output[side], 0xa5, output_len);
    uint64_t ours = call(t, LIBRARY, number);
    int same = ours != 0 && ours >> 32 == 0;
    for (int side = PLAIN; side < SIDES && same; side++)
        same = !has_side(t, side) || (call(t, side, number) == ours &&
                                      memcmp(output[LIBRARY], output[side], output_len) == 0);
    return same;
}

void check_agreement(const struct task *t)
{
    size_t checked = t->blocks > 0 ? 1 : DRAWN;
    for (size_t number = 0; number < checked; number++)
        if (!agree(t, number))
            stop("the sides differ in what is timed");
}
