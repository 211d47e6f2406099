/* Ways 1 and 3 with the four bytes of a word doubled at once, and a page's digits two at a time. A
 * part of plain.c where it is built as packed.c. */

#define EACH 0x01010101u

/* Four bytes doubled in GF(2^8) modulo z^8+z^4+z^3+z^2+1. */
INLINE uint32_t twice_each(uint32_t w)
{
    return (w & 0x7f * EACH) << 1 ^ (w >> 7 & EACH) * 0x1d;
}

/* Four bytes times the bytes of m, by doublings through the eight bits. */
INLINE uint32_t products(uint32_t w, uint32_t m)
{
    uint32_t sum = 0;
    for (int i = 0; i < 8; i++) {
        sum ^= w & (m >> i & EACH) * 0xff;
        w = twice_each(w);
    }
    return sum;
}

/* Four bytes through a matrix over GF(2). */
INLINE uint32_t linear_each(uint32_t w, const uint8_t image[8])
{
    uint32_t sum = 0;
    for (int i = 0; i < 8; i++)
        sum ^= (w >> (7 - i) & EACH) * image[i];
    return sum;
}

/* The first and the third byte from below through S1; byte_by_byte.h says how the inverse is
 * found. */
static uint32_t s1_of_two(uint32_t w)
{
    uint32_t x = linear_each(w, S1_BEFORE) ^ 0x1e * EACH;
    uint32_t x16 = linear_each(x, POWER16), x17 = products(x, x16);
    uint32_t powers = (uint32_t)POWER14[x17 >> 16 & 15] << 16 | POWER14[x17 & 15];
    return (linear_each(products(x16, powers), S1_AFTER) ^ 0x69 * EACH) & 0x00ff00ff;
}

INLINE uint32_t join(uint32_t a, uint32_t b, uint32_t c, uint32_t d)
{
    return a << 24 | b << 16 | c << 8 | d;
}

/* The four bytes of x substituted, the boxes by turns, S0 first in F0 and S1 in F1. */
INLINE uint32_t substituted(int way, int f, uint32_t x)
{
    uint32_t a = x >> 24, b = x >> 16 & 0xff, c = x >> 8 & 0xff, d = x & 0xff;
    if (way == BYTE_TABLES)
        return f == 0 ? join(S0_TABLE[a], S1_TABLE[b], S0_TABLE[c], S1_TABLE[d])
                      : join(S1_TABLE[a], S0_TABLE[b], S1_TABLE[c], S0_TABLE[d]);
    return f == 0 ? join(s0_by_rules(a), 0, s0_by_rules(c), 0) | s1_of_two(x)
                  : join(0, s0_by_rules(b), 0, s0_by_rules(d)) | s1_of_two(x >> 8) << 8;
}

/* The matrix with entry m(i ^ j) at row i, column j: entry m(k) meets the bytes whose places differ
 * by k. */
INLINE uint32_t mixed(uint32_t s, uint32_t m0, uint32_t m1, uint32_t m2, uint32_t m3)
{
    uint32_t by1 = products(s, m1 * EACH), by2 = products(s, m2 * EACH);
    return products(s, m0 * EACH)
         ^ ((by1 & 0x00ff00ff) << 8 | (by1 >> 8 & 0x00ff00ff))
         ^ (by2 << 16 | by2 >> 16)
         ^ __builtin_bswap32(products(s, m3 * EACH));
}

static const char DIGIT_PAIRS[] = "00010203040506070809101112131415161718192021222324"
                                  "25262728293031323334353637383940414243444546474849"
                                  "50515253545556575859606162636465666768697071727374"
                                  "75767778798081828384858687888990919293949596979899";

/* A number in a field, by the pairs of its digits from the last on, over spaces. */
INLINE void put_number(uint8_t *at, int width, uint32_t n)
{
    uint8_t *end = at + width;
    memset(at, ' ', (size_t)width);
    for (; n >= 100; n /= 100)
        memcpy(end -= 2, DIGIT_PAIRS + 2 * (n % 100), 2);
    if (n >= 10)
        memcpy(end - 2, DIGIT_PAIRS + 2 * n, 2);
    else
        end[-1] = (uint8_t)('0' + n);
}
