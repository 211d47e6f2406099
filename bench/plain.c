/*
 * Plan books in plain C: the opponent that the library is timed against,
 * written to be fast at -O3. Both sides are held to the scope's algorithm for
 * ways 1 and 3, each byte's substitution and products by themselves, because
 * the limits are about what a proved program costs beside C and not about
 * another algorithm: four bytes doubled in one word are faster (packed.h;
 * docs/BENCH.md has both). A page is written digit by digit, for the same
 * reason.
 *
 * Where the cipher is worked out, the way is always a constant: everything that
 * depends on it is inlined into one copy for each way, so that no test of the
 * way is left inside a round.
 */
#include "plain.h"
#include "plain_tables.h"

#include <stdio.h>
#include <string.h>

#define INLINE static inline __attribute__((always_inline))
#define APART static __attribute__((noinline))

enum { BYTE_TABLES = 1, WORD_TABLES = 2, BY_RULES = 3 };
enum { BLOCK = 16, HEAD = 4, ENTRY = 24, IV_AT = 8 };
enum {
    MOST_BYTES = 65532,
    MOST_SHEETS = 64,
    MOST_RECORDS = 1024,
    MOST_REPLICATES = 8,
    REPLICATES_BY_DEFAULT = 4
};
enum { MOST_ROW = 999, MOST_COLUMN = 999, PLOT_AT = 9 };
enum { MOST_WORDS = 56, MOST_NOTE_BYTES = 16384 };
enum { LINE = 32 };
enum { CLEAR = 1, SEALED = 2 };
enum { PARALLEL = 4 };

/*
 * Words, the first byte highest, on a machine that has it lowest. Shifts say the
 * same, but gcc makes slow code of them where many words are stored.
 */

INLINE uint32_t load_word(const uint8_t *p)
{
    uint32_t w;
    memcpy(&w, p, sizeof w);
    return __builtin_bswap32(w);
}

INLINE void store_word(uint8_t *p, uint32_t w)
{
    w = __builtin_bswap32(w);
    memcpy(p, &w, sizeof w);
}

static void store_words(uint8_t *out, const uint32_t *words, size_t count)
{
    for (size_t i = 0; i < count; i++)
        store_word(out + 4 * i, words[i]);
}

/* Four branches of the network, or one block. */
struct quad {
    uint32_t a, b, c, d;
};

INLINE struct quad load_quad(const uint8_t *p)
{
    return (struct quad){load_word(p), load_word(p + 4), load_word(p + 8), load_word(p + 12)};
}

INLINE void store_quad(uint8_t *p, struct quad t)
{
    store_word(p, t.a);
    store_word(p + 4, t.b);
    store_word(p + 8, t.c);
    store_word(p + 12, t.d);
}

INLINE struct quad xor_quads(struct quad s, struct quad t)
{
    return (struct quad){s.a ^ t.a, s.b ^ t.b, s.c ^ t.c, s.d ^ t.d};
}

/* S0 worked out from the rules. */

/* Doubling in GF(2^4) modulo z^4+z+1. */
INLINE uint32_t twice4(uint32_t x)
{
    return x << 1 ^ (-(x >> 3) & 0x13);
}

INLINE uint32_t s0_by_rules(uint32_t x)
{
    uint32_t t0 = NIBBLE_BOXES[0][x >> 4];
    uint32_t t1 = NIBBLE_BOXES[1][x & 15];
    return (uint32_t)NIBBLE_BOXES[2][t0 ^ twice4(t1)] << 4 | NIBBLE_BOXES[3][twice4(t0) ^ t1];
}

/* What ways 1 and 3 do with the four bytes of a word, substituted() and mixed(), and a page with a
 * number, put_number(). */
#ifdef PACKED
#include "packed.h"
#else
#include "byte_by_byte.h"
#endif

/* F0 and F1. */

INLINE uint32_t look_up(const uint32_t tables[4][256], uint32_t x)
{
    return tables[3][(uint8_t)x] ^ tables[2][(uint8_t)(x >> 8)] ^ tables[1][(uint8_t)(x >> 16)] ^
           tables[0][x >> 24];
}

INLINE uint32_t f0(int way, uint32_t key, uint32_t x)
{
    x ^= key;
    if (way == WORD_TABLES)
        return look_up(F0_TABLES, x);
    return mixed(substituted(way, 0, x), 1, 2, 4, 6);
}

INLINE uint32_t f1(int way, uint32_t key, uint32_t x)
{
    x ^= key;
    if (way == WORD_TABLES)
        return look_up(F1_TABLES, x);
    return mixed(substituted(way, 1, x), 1, 8, 2, 10);
}

/*
 * The networks. The branches are renamed instead of rotated; after two rounds
 * they are two places on. The number of rounds is even. More rounds unrolled,
 * a copy for each number of rounds, or the next round key added ahead made the
 * chain no faster: it waits for the tables.
 */

/* A round key as it was passed, its highest byte first, or as a word. */
INLINE uint32_t key_at(int as_bytes, const uint8_t *p)
{
    uint32_t w;
    memcpy(&w, p, sizeof w);
    return as_bytes ? __builtin_bswap32(w) : w;
}

INLINE struct quad network4(int way, int as_bytes, const void *keys, int rounds, struct quad t)
{
    const uint8_t *at = keys;
    for (const uint8_t *end = at + 8 * rounds; at < end; at += 16) {
        t.b ^= f0(way, key_at(as_bytes, at), t.a);
        t.d ^= f1(way, key_at(as_bytes, at + 4), t.c);
        t.c ^= f0(way, key_at(as_bytes, at + 8), t.b);
        t.a ^= f1(way, key_at(as_bytes, at + 12), t.d);
        t = (struct quad){t.c, t.d, t.a, t.b};
    }
    return (struct quad){t.d, t.a, t.b, t.c};
}

INLINE struct quad network4_back(int way, int as_bytes, const void *keys, int rounds, struct quad t)
{
    const uint8_t *start = keys;
    for (const uint8_t *at = start + 8 * rounds; at > start; at -= 16) {
        t.b ^= f0(way, key_at(as_bytes, at - 8), t.a);
        t.d ^= f1(way, key_at(as_bytes, at - 4), t.c);
        t.a ^= f0(way, key_at(as_bytes, at - 16), t.d);
        t.c ^= f1(way, key_at(as_bytes, at - 12), t.b);
        t = (struct quad){t.c, t.d, t.a, t.b};
    }
    return (struct quad){t.b, t.c, t.d, t.a};
}

/* The two rounds of a turn, for blocks in parallel. */
INLINE void first_round(int way, const uint32_t *keys, struct quad *t)
{
    t->d ^= f1(way, keys[1], t->c);
    t->b ^= f0(way, keys[0], t->a);
}

INLINE void second_round(int way, const uint32_t *keys, struct quad *t)
{
    t->a ^= f1(way, keys[3], t->d);
    t->c ^= f0(way, keys[2], t->b);
    *t = (struct quad){t->c, t->d, t->a, t->b};
}

/*
 * Four blocks through the same rounds: they fill the time that one waits for the
 * tables. All go through one round before the next. Each has a name, since gcc
 * keeps an array of them in memory.
 *
 * Tried with the longest note: two to eight blocks, all F0 before all F1, a block
 * through both rounds before the next, F0 or F1 first with each of the 24 orders
 * of the second round. None was faster by both tables.
 */
INLINE void network4_each(int way, const uint32_t *keys, int rounds, struct quad t[PARALLEL])
{
    struct quad t0 = t[0], t1 = t[1], t2 = t[2], t3 = t[3];
    for (const uint32_t *end = keys + 2 * rounds; keys < end; keys += 4) {
        first_round(way, keys, &t0);
        first_round(way, keys, &t1);
        first_round(way, keys, &t2);
        first_round(way, keys, &t3);
        second_round(way, keys, &t0);
        second_round(way, keys, &t2);
        second_round(way, keys, &t1);
        second_round(way, keys, &t3);
    }
    t[0] = (struct quad){t0.d, t0.a, t0.b, t0.c};
    t[1] = (struct quad){t1.d, t1.a, t1.b, t1.c};
    t[2] = (struct quad){t2.d, t2.a, t2.b, t2.c};
    t[3] = (struct quad){t3.d, t3.a, t3.b, t3.c};
}

/* The same backward. */
INLINE void first_back(int way, const uint32_t *at, struct quad *t)
{
    t->b ^= f0(way, at[-2], t->a);
    t->d ^= f1(way, at[-1], t->c);
}

INLINE void second_back(int way, const uint32_t *at, struct quad *t)
{
    t->a ^= f0(way, at[-4], t->d);
    t->c ^= f1(way, at[-3], t->b);
    *t = (struct quad){t->c, t->d, t->a, t->b};
}

INLINE void network4_back_each(int way, const uint32_t *keys, int rounds, struct quad t[PARALLEL])
{
    struct quad t0 = t[0], t1 = t[1], t2 = t[2], t3 = t[3];
    for (const uint32_t *at = keys + 2 * rounds; at > keys; at -= 4) {
        first_back(way, at, &t0);
        first_back(way, at, &t1);
        first_back(way, at, &t2);
        first_back(way, at, &t3);
        second_back(way, at, &t0);
        second_back(way, at, &t1);
        second_back(way, at, &t2);
        second_back(way, at, &t3);
    }
    t[0] = (struct quad){t0.b, t0.c, t0.d, t0.a};
    t[1] = (struct quad){t1.b, t1.c, t1.d, t1.a};
    t[2] = (struct quad){t2.b, t2.c, t2.d, t2.a};
    t[3] = (struct quad){t3.b, t3.c, t3.d, t3.a};
}

/* Ten rounds over eight branches, in place. */
INLINE void network8(int way, const uint32_t *keys, struct quad *left, struct quad *right)
{
    struct quad l = *left, r = *right;
    for (int i = 0; i < 5; i++, keys += 8) {
        l.b ^= f0(way, keys[0], l.a);
        l.d ^= f1(way, keys[1], l.c);
        r.b ^= f0(way, keys[2], r.a);
        r.d ^= f1(way, keys[3], r.c);
        l.c ^= f0(way, keys[4], l.b);
        r.a ^= f1(way, keys[5], l.d);
        r.c ^= f0(way, keys[6], r.b);
        l.a ^= f1(way, keys[7], r.d);
        struct quad turned = {l.c, l.d, r.a, r.b};
        r = (struct quad){r.c, r.d, l.a, l.b};
        l = turned;
    }
    *left = (struct quad){r.d, l.a, l.b, l.c};
    *right = (struct quad){l.d, r.a, r.b, r.c};
}

/* The key schedule: four whitening words, then two round keys a round. */

INLINE struct quad double_swap(struct quad t)
{
    uint64_t high = (uint64_t)t.a << 32 | t.b, low = (uint64_t)t.c << 32 | t.d;
    uint64_t new_high = high << 7 | (low & 0x7f);
    uint64_t new_low = high >> 57 << 57 | low >> 7;
    return (struct quad){(uint32_t)(new_high >> 32), (uint32_t)new_high, (uint32_t)(new_low >> 32),
                         (uint32_t)new_low};
}

INLINE void put_quad(uint32_t *words, struct quad t)
{
    words[0] = t.a;
    words[1] = t.b;
    words[2] = t.c;
    words[3] = t.d;
}

INLINE struct quad get_quad(const uint32_t *words)
{
    return (struct quad){words[0], words[1], words[2], words[3]};
}

/* Four round keys from the intermediate key, which moves on. */
INLINE void put_round_keys(uint32_t *words, struct quad *l, const uint32_t *constants)
{
    put_quad(words, xor_quads(*l, get_quad(constants)));
    *l = double_swap(*l);
}

INLINE void mix_in(uint32_t *words, struct quad key)
{
    put_quad(words, xor_quads(get_quad(words), key));
}

INLINE void expand_16(int way, const uint8_t *key, uint32_t *words)
{
    struct quad k = load_quad(key), l = network4(way, 0, CONSTANTS_16, 12, k);
    put_quad(words, k);
    for (int i = 0; i < 9; i++) {
        put_round_keys(words + 4 + 4 * i, &l, CONSTANTS_16 + 24 + 4 * i);
        if (i % 2 == 1)
            mix_in(words + 4 + 4 * i, k);
    }
}

INLINE void expand_longer(int way, struct quad kl, struct quad kr, const uint32_t *constants,
                          int rounds, uint32_t *words)
{
    struct quad ll = kl, lr = kr;
    network8(way, constants, &ll, &lr);
    put_quad(words, xor_quads(kl, kr));
    for (int i = 0; 2 * i < rounds; i++) {
        put_round_keys(words + 4 + 4 * i, i % 4 < 2 ? &ll : &lr, constants + 40 + 4 * i);
        if (i % 2 == 1)
            mix_in(words + 4 + 4 * i, i % 4 < 2 ? kr : kl);
    }
}

INLINE void expand(int way, const uint8_t *key, size_t key_len, uint32_t *words)
{
    if (key_len == 16) {
        expand_16(way, key, words);
        return;
    }
    struct quad kl = load_quad(key), kr;
    if (key_len == 24) {
        kr = (struct quad){load_word(key + 16), load_word(key + 20), ~kl.a, ~kl.b};
        expand_longer(way, kl, kr, CONSTANTS_24, 22, words);
    } else {
        kr = load_quad(key + 16);
        expand_longer(way, kl, kr, CONSTANTS_32, 26, words);
    }
}

/* 160, 192 or 224 bytes of words are for 18, 22 or 26 rounds. */
INLINE int rounds_of(size_t words_len)
{
    return (int)(words_len / 8) - 2;
}

/*
 * A block alone, under the words as they were passed: each is loaded where it is
 * used, while the block waits for the tables. To read them all first takes 1.15
 * times as long by word tables.
 */

INLINE void encrypt_one(int way, const uint8_t *words, int rounds, const uint8_t *block,
                        uint8_t *out)
{
    struct quad t = load_quad(block);
    t.b ^= load_word(words);
    t.d ^= load_word(words + 4);
    t = network4(way, 1, words + 16, rounds, t);
    t.b ^= load_word(words + 8);
    t.d ^= load_word(words + 12);
    store_quad(out, t);
}

INLINE void decrypt_one(int way, const uint8_t *words, int rounds, const uint8_t *block,
                        uint8_t *out)
{
    struct quad t = load_quad(block);
    t.b ^= load_word(words + 8);
    t.d ^= load_word(words + 12);
    t = network4_back(way, 1, words + 16, rounds, t);
    t.b ^= load_word(words);
    t.d ^= load_word(words + 4);
    store_quad(out, t);
}

/* Books and notes: the words are read once, ahead of all blocks. */
struct schedule {
    uint32_t words[MOST_WORDS];
    int rounds;
};

/* Eight at a time, which divides 40, 48 and 56: the compiler unrolls it. */
INLINE void read_words(const uint8_t *words, size_t words_len, struct schedule *s)
{
    s->rounds = rounds_of(words_len);
    for (size_t i = 0; i < words_len / 4; i += 8)
        for (size_t j = i; j < i + 8; j++)
            s->words[j] = load_word(words + 4 * j);
}

/* Blocks: one, or as many as go in parallel. */

INLINE void encrypt(int way, const struct schedule *s, struct quad *p, int lanes)
{
    const uint32_t *w = s->words;
    for (int i = 0; i < lanes; i++) {
        p[i].b ^= w[0];
        p[i].d ^= w[1];
    }
    if (lanes == PARALLEL)
        network4_each(way, w + 4, s->rounds, p);
    else
        *p = network4(way, 0, w + 4, s->rounds, *p);
    for (int i = 0; i < lanes; i++) {
        p[i].b ^= w[2];
        p[i].d ^= w[3];
    }
}

INLINE void decrypt(int way, const struct schedule *s, struct quad *c, int lanes)
{
    const uint32_t *w = s->words;
    for (int i = 0; i < lanes; i++) {
        c[i].b ^= w[2];
        c[i].d ^= w[3];
    }
    if (lanes == PARALLEL)
        network4_back_each(way, w + 4, s->rounds, c);
    else
        *c = network4_back(way, 0, w + 4, s->rounds, *c);
    for (int i = 0; i < lanes; i++) {
        c[i].b ^= w[0];
        c[i].d ^= w[1];
    }
}

/* CBC chains. */

INLINE void encrypt_chain(int way, const struct schedule *s, const uint8_t *iv, const uint8_t *in,
                          uint8_t *out, size_t blocks)
{
    struct quad chain = load_quad(iv);
    for (size_t i = 0; i < blocks; i++) {
        chain = xor_quads(load_quad(in + BLOCK * i), chain);
        encrypt(way, s, &chain, 1);
        store_quad(out + BLOCK * i, chain);
    }
}

/* The next blocks of a chain; answers the last encrypted one. */
INLINE struct quad decrypt_next(int way, const struct schedule *s, struct quad chain,
                                const uint8_t *in, uint8_t *out, int lanes)
{
    struct quad t[PARALLEL];
    for (int i = 0; i < lanes; i++)
        t[i] = load_quad(in + BLOCK * i);
    decrypt(way, s, t, lanes);
    for (int i = 0; i < lanes; i++) {
        store_quad(out + BLOCK * i, xor_quads(t[i], chain));
        chain = load_quad(in + BLOCK * i);
    }
    return chain;
}

INLINE void decrypt_chain(int way, const struct schedule *s, const uint8_t *iv, const uint8_t *in,
                          uint8_t *out, size_t blocks)
{
    struct quad chain = load_quad(iv);
    for (; blocks >= PARALLEL; blocks -= PARALLEL, in += PARALLEL * BLOCK, out += PARALLEL * BLOCK)
        chain = decrypt_next(way, s, chain, in, out, PARALLEL);
    for (; blocks > 0; blocks--, in += BLOCK, out += BLOCK)
        chain = decrypt_next(way, s, chain, in, out, 1);
}

/*
 * Counter mode. By the rules blocks in parallel gain nothing. The last blocks go one
 * by one: one more four is faster only by word tables where three or more are left.
 */

/* The next whole blocks. The counter's last word counts, and goes on at zero. */
INLINE void crypt_next(int way, const struct schedule *s, struct quad *counter, const uint8_t *in,
                       uint8_t *out, int lanes)
{
    struct quad t[PARALLEL];
    for (int i = 0; i < lanes; i++) {
        t[i] = *counter;
        counter->d++;
    }
    encrypt(way, s, t, lanes);
    for (int i = 0; i < lanes; i++)
        store_quad(out + BLOCK * i, xor_quads(t[i], load_quad(in + BLOCK * i)));
}

INLINE void crypt_bytes(int way, const struct schedule *s, const uint8_t *first_counter,
                        const uint8_t *in, uint8_t *out, size_t len)
{
    struct quad counter = load_quad(first_counter);
    if (way != BY_RULES)
        for (; len >= PARALLEL * BLOCK;
             len -= PARALLEL * BLOCK, in += PARALLEL * BLOCK, out += PARALLEL * BLOCK)
            crypt_next(way, s, &counter, in, out, PARALLEL);
    for (; len >= BLOCK; len -= BLOCK, in += BLOCK, out += BLOCK)
        crypt_next(way, s, &counter, in, out, 1);
    if (len > 0) {
        uint8_t last[BLOCK];
        encrypt(way, s, &counter, 1);
        store_quad(last, counter);
        for (size_t i = 0; i < len; i++)
            out[i] = in[i] ^ last[i];
    }
}

/*
 * One copy of each for each way, picked once a call or a sheet. Chains and notes
 * are apart from their callers: put into the loop over sheets, sealing by byte
 * tables takes 1.04 times as long.
 */

#define BY_WAY(way, call, ...)                                  \
    do {                                                        \
        if ((way) == WORD_TABLES)                               \
            call(WORD_TABLES, __VA_ARGS__);                     \
        else if ((way) == BYTE_TABLES)                          \
            call(BYTE_TABLES, __VA_ARGS__);                     \
        else                                                    \
            call(BY_RULES, __VA_ARGS__);                        \
    } while (0)

static void expand_by(uint64_t way, const uint8_t *key, size_t key_len, uint32_t *words)
{
    BY_WAY(way, expand, key, key_len, words);
}

typedef void one_call(uint64_t way, const uint8_t *words, int rounds, const uint8_t *block,
                      uint8_t *out);

static void encrypt_one_by(uint64_t way, const uint8_t *words, int rounds, const uint8_t *block,
                           uint8_t *out)
{
    BY_WAY(way, encrypt_one, words, rounds, block, out);
}

static void decrypt_one_by(uint64_t way, const uint8_t *words, int rounds, const uint8_t *block,
                           uint8_t *out)
{
    BY_WAY(way, decrypt_one, words, rounds, block, out);
}

typedef void chain_call(uint64_t way, const struct schedule *s, const uint8_t *iv,
                        const uint8_t *in, uint8_t *out, size_t blocks);

APART void encrypt_chain_by(uint64_t way, const struct schedule *s, const uint8_t *iv,
                            const uint8_t *in, uint8_t *out, size_t blocks)
{
    BY_WAY(way, encrypt_chain, s, iv, in, out, blocks);
}

APART void decrypt_chain_by(uint64_t way, const struct schedule *s, const uint8_t *iv,
                            const uint8_t *in, uint8_t *out, size_t blocks)
{
    BY_WAY(way, decrypt_chain, s, iv, in, out, blocks);
}

APART void crypt_bytes_by(uint64_t way, const struct schedule *s, const uint8_t *first_counter,
                          const uint8_t *in, uint8_t *out, size_t len)
{
    BY_WAY(way, crypt_bytes, s, first_counter, in, out, len);
}

/* The checks. Each answers 0 or the number of the first check that fails. */

static int check_way(uint64_t way)
{
    return way < 1 || way > 3 ? 2 : 0;
}

static int check_key_and_way(size_t key_len, uint64_t way)
{
    return key_len != 16 && key_len != 24 && key_len != 32 ? 1 : check_way(way);
}

static int check_words_and_way(size_t words_len, uint64_t way)
{
    return words_len != 160 && words_len != 192 && words_len != 224 ? 14 : check_way(way);
}

static int entry_holds(const uint8_t *entry, uint32_t trial_before)
{
    uint32_t count = load_word(entry + 4) >> 16;
    return load_word(entry) > trial_before && count >= 1 && count <= MOST_RECORDS &&
           entry[6] <= MOST_REPLICATES && entry[7] == 0;
}

/* Checks 5 to 10; n and the sum of the record counts are handed back. */
static int check_format(uint8_t first, const uint8_t *book, size_t len, size_t *n, size_t *records)
{
    if (len < HEAD || len > MOST_BYTES)
        return 5;
    if (book[0] != first || book[1] != 0)
        return 6;
    *n = (size_t)book[2] << 8 | book[3];
    if (*n > MOST_SHEETS)
        return 7;
    if (len < HEAD + ENTRY * *n)
        return 8;
    uint32_t trial = 0;
    *records = 0;
    for (const uint8_t *e = book + HEAD; e < book + HEAD + ENTRY * *n; e += ENTRY) {
        if (!entry_holds(e, trial))
            return 9;
        trial = load_word(e);
        *records += (size_t)e[4] << 8 | e[5];
    }
    return len == HEAD + ENTRY * *n + BLOCK * *records ? 0 : 10;
}

/* Row and column in one word: both from 1 on, or both 0, which is reserve. Less 1, 0 is above every
 * limit. */
INLINE int plot_holds(uint32_t plot)
{
    return ((plot >> 16) - 1 < MOST_ROW && (plot & 0xffff) - 1 < MOST_COLUMN) || plot == 0;
}

INLINE int record_holds(const uint8_t *record, uint32_t trial, uint32_t replicates)
{
    struct quad r = load_quad(record);
    return r.a == trial && r.b != 0 && (r.c >> 24) - 1 < replicates &&
           plot_holds(load_word(record + PLOT_AT)) && (r.d & 0xffffff) == 0;
}

/* Check 11, for the bodies of the n sheets in the contents. */
static int records_hold(const uint8_t *contents, size_t n, const uint8_t *bodies)
{
    for (const uint8_t *e = contents; e < contents + ENTRY * n; e += ENTRY) {
        uint32_t trial = load_word(e), replicates = e[6] == 0 ? REPLICATES_BY_DEFAULT : e[6];
        const uint8_t *end = bodies + BLOCK * (load_word(e + 4) >> 16);
        for (; bodies < end; bodies += BLOCK)
            if (!record_holds(bodies, trial, replicates))
                return 0;
    }
    return 1;
}

/* The calls. */

static uint64_t refused(int check)
{
    return (uint64_t)check << 32;
}

uint64_t plain_constants(uint64_t key_length, uint8_t *out, size_t out_len)
{
    const uint32_t *words = CONSTANTS_16;
    size_t count = 60;
    if (key_length == 24) {
        words = CONSTANTS_24;
        count = 84;
    } else if (key_length == 32) {
        words = CONSTANTS_32;
        count = 92;
    } else if (key_length != 16)
        return refused(1);
    if (out_len != 4 * count)
        return refused(4);
    store_words(out, words, count);
    return count;
}

uint64_t plain_expand_key(const uint8_t *key, size_t key_len, uint64_t way, uint8_t *out,
                          size_t out_len)
{
    int failed = check_key_and_way(key_len, way);
    if (failed)
        return refused(failed);
    size_t count = 24 + key_len; /* 40, 48 or 56 words */
    if (out_len != 4 * count)
        return refused(4);
    uint32_t words[MOST_WORDS];
    expand_by(way, key, key_len, words);
    store_words(out, words, count);
    return count;
}

static uint64_t block_call(one_call *work, const uint8_t *words, size_t words_len, uint64_t way,
                           const uint8_t *block, size_t block_len, uint8_t *out, size_t out_len)
{
    int failed = check_words_and_way(words_len, way);
    if (failed)
        return refused(failed);
    if (block_len != BLOCK)
        return refused(3);
    if (out_len != BLOCK)
        return refused(4);
    work(way, words, rounds_of(words_len), block, out);
    return 1;
}

uint64_t plain_encrypt_block(const uint8_t *words, size_t words_len, uint64_t way,
                             const uint8_t *block, size_t block_len, uint8_t *out, size_t out_len)
{
    return block_call(encrypt_one_by, words, words_len, way, block, block_len, out, out_len);
}

uint64_t plain_decrypt_block(const uint8_t *words, size_t words_len, uint64_t way,
                             const uint8_t *block, size_t block_len, uint8_t *out, size_t out_len)
{
    return block_call(decrypt_one_by, words, words_len, way, block, block_len, out, out_len);
}

/* Checks 14, 2 and 4 to 10, in this order. */
static int check_book(size_t words_len, uint64_t way, uint8_t first, const uint8_t *book,
                      size_t book_len, size_t out_len, size_t *n, size_t *records)
{
    int failed = check_words_and_way(words_len, way);
    if (failed)
        return failed;
    if (out_len != book_len)
        return 4;
    return check_format(first, book, book_len, n, records);
}

/* Each sheet's body through its own chain. */
static void chain_sheets(chain_call *chain, uint64_t way, const uint8_t *words, size_t words_len,
                         const uint8_t *contents, size_t n, const uint8_t *in, uint8_t *out)
{
    struct schedule s;
    read_words(words, words_len, &s);
    for (const uint8_t *e = contents; e < contents + ENTRY * n; e += ENTRY) {
        size_t count = load_word(e + 4) >> 16;
        chain(way, &s, e + IV_AT, in, out, count);
        in += BLOCK * count;
        out += BLOCK * count;
    }
}

uint64_t plain_encrypt_book(const uint8_t *words, size_t words_len, uint64_t way,
                            const uint8_t *book, size_t book_len, uint8_t *out, size_t out_len)
{
    size_t n, records;
    int failed = check_book(words_len, way, CLEAR, book, book_len, out_len, &n, &records);
    if (failed)
        return refused(failed);
    size_t start = HEAD + ENTRY * n;
    if (!records_hold(book + HEAD, n, book + start))
        return refused(11);
    memcpy(out, book, start);
    out[0] = SEALED;
    chain_sheets(encrypt_chain_by, way, words, words_len, book + HEAD, n, book + start,
                 out + start);
    return records;
}

/*
 * The bodies are decrypted into a work array and copied once every record is
 * known to hold, since a refused call must not write. The array is wiped: the
 * clear plan is not left on the stack.
 */
uint64_t plain_decrypt_book(const uint8_t *words, size_t words_len, uint64_t way,
                            const uint8_t *book, size_t book_len, uint8_t *out, size_t out_len)
{
    uint8_t work[MOST_BYTES];
    size_t n, records;
    int failed = check_book(words_len, way, SEALED, book, book_len, out_len, &n, &records);
    if (failed)
        return refused(failed);
    size_t start = HEAD + ENTRY * n;
    chain_sheets(decrypt_chain_by, way, words, words_len, book + HEAD, n, book + start, work);
    int hold = records_hold(book + HEAD, n, work);
    if (hold) {
        memcpy(out, book, start);
        out[0] = CLEAR;
        memcpy(out + start, work, BLOCK * records);
    }
    explicit_bzero(work, BLOCK * records);
    return hold ? records : refused(11);
}

uint64_t plain_crypt_note(const uint8_t *words, size_t words_len, uint64_t way,
                          const uint8_t *counter, size_t counter_len, const uint8_t *note,
                          size_t note_len, uint8_t *out, size_t out_len)
{
    int failed = check_words_and_way(words_len, way);
    if (failed)
        return refused(failed);
    if (counter_len != BLOCK)
        return refused(3);
    if (out_len != note_len)
        return refused(4);
    if (note_len > MOST_NOTE_BYTES)
        return refused(12);
    struct schedule s;
    read_words(words, words_len, &s);
    crypt_bytes_by(way, &s, counter, note, out, note_len);
    return note_len;
}

/* Planting pages. */

typedef void line_writer(const uint8_t *record, uint8_t *line);

INLINE void put_line(const uint8_t *record, uint8_t *line)
{
    struct quad r = load_quad(record);
    uint32_t plot = load_word(record + PLOT_AT);
    put_number(line, 10, r.a);
    line[10] = ' ';
    put_number(line + 11, 10, r.b);
    line[21] = ' ';
    put_number(line + 22, 1, r.c >> 24);
    line[23] = ' ';
    put_number(line + 24, 3, plot >> 16);
    line[27] = ' ';
    put_number(line + 28, 3, plot & 0xffff);
    line[31] = '\n';
}

/* The call, with one copy for each way to write a line. */
INLINE uint64_t page_call(line_writer *write_line, const uint8_t *book, size_t book_len,
                          uint64_t sheet, uint8_t *out, size_t out_len)
{
    size_t n, records;
    int failed = check_format(CLEAR, book, book_len, &n, &records);
    if (failed)
        return refused(failed);
    const uint8_t *entry = book + HEAD, *body = book + HEAD + ENTRY * n;
    if (!records_hold(entry, n, body))
        return refused(11);
    if (sheet >= n)
        return refused(13);
    for (; sheet > 0; sheet--, entry += ENTRY)
        body += BLOCK * (load_word(entry + 4) >> 16);
    size_t count = load_word(entry + 4) >> 16;
    if (out_len != LINE * (count + 1))
        return refused(4);
    memcpy(out, "     TRIAL      ENTRY R ROW COL\n", LINE);
    for (size_t i = 0; i < count; i++)
        write_line(body + BLOCK * i, out + LINE * (i + 1));
    return count + 1;
}

uint64_t plain_page(const uint8_t *book, size_t book_len, uint64_t sheet, uint8_t *out,
                    size_t out_len)
{
    return page_call(put_line, book, book_len, sheet, out, out_len);
}

#ifndef PACKED
/* By the C library, by way of a buffer: a zero comes after the line, and the compiler does not
 * know that rows are below 1,000. */
static void print_line(const uint8_t *record, uint8_t *line)
{
    struct quad r = load_quad(record);
    uint32_t plot = load_word(record + PLOT_AT);
    char text[2 * LINE];
    snprintf(text, sizeof text, "%10u %10u %1u %3u %3u\n", r.a, r.b, r.c >> 24, plot >> 16,
             plot & 0xffff);
    memcpy(line, text, LINE);
}

uint64_t printed_page(const uint8_t *book, size_t book_len, uint64_t sheet, uint8_t *out,
                      size_t out_len)
{
    return page_call(print_line, book, book_len, sheet, out, out_len);
}
#endif
