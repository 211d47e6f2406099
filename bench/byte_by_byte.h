/* Ways 1 and 3 as the scope has them: each byte's substitution and products by themselves; and a
 * page's numbers digit by digit. A part of plain.c. */

/*
 * GF(2^8) modulo z^8+z^4+z^3+z^2+1. The bit that leaves x is the one 11d clears,
 * so no mask is needed.
 */

INLINE uint32_t twice(uint32_t x)
{
    return x << 1 ^ (x >> 7) * 0x11d;
}

/* x times m by doublings, through the eight bits of m. */
INLINE uint32_t product(uint32_t x, uint32_t m)
{
    uint32_t sum = 0;
    for (int i = 0; i < 8; i++) {
        sum ^= x & -(m >> i & 1);
        x = twice(x);
    }
    return sum;
}

/* S1 worked out from the rules. */

/* A byte through a matrix over GF(2), given by the images of bits 80, 40, .. 01. */
INLINE uint32_t linear(uint32_t x, const uint8_t image[8])
{
    uint32_t sum = 0;
    for (int i = 0; i < 8; i++)
        sum ^= image[i] & -(x >> (7 - i) & 1);
    return sum;
}

/*
 * x^254 as x^16 times (x^17)^14. Raising to 16 is linear. x^17 lies in the
 * subfield of sixteen elements, which differ in their low four bits, so its
 * 14th power is read from sixteen entries: two products instead of four.
 */
INLINE uint32_t inverse(uint32_t x)
{
    uint32_t x16 = linear(x, POWER16);
    return product(x16, POWER14[product(x, x16) & 15]);
}

static uint32_t s1_by_rules(uint32_t x)
{
    return linear(inverse(linear(x, S1_BEFORE) ^ 0x1e), S1_AFTER) ^ 0x69;
}

INLINE uint32_t s0(int way, uint32_t x)
{
    return way == BYTE_TABLES ? S0_TABLE[x] : s0_by_rules(x);
}

INLINE uint32_t s1(int way, uint32_t x)
{
    return way == BYTE_TABLES ? S1_TABLE[x] : s1_by_rules(x);
}

/* The four bytes of x substituted, the boxes by turns, S0 first in F0 and S1 in F1. */
INLINE struct quad substituted(int way, int f, uint32_t x)
{
    uint32_t a = x >> 24, b = x >> 16 & 0xff, c = x >> 8 & 0xff, d = x & 0xff;
    return f == 0 ? (struct quad){s0(way, a), s1(way, b), s0(way, c), s1(way, d)}
                  : (struct quad){s1(way, a), s0(way, b), s1(way, c), s0(way, d)};
}

/* One row of a matrix times four substituted bytes. */
INLINE uint32_t row(struct quad s, uint32_t m0, uint32_t m1, uint32_t m2, uint32_t m3)
{
    return product(s.a, m0) ^ product(s.b, m1) ^ product(s.c, m2) ^ product(s.d, m3);
}

/* The matrix with entry m(i ^ j) at row i, column j, times four substituted bytes. */
INLINE uint32_t mixed(struct quad s, uint32_t m0, uint32_t m1, uint32_t m2, uint32_t m3)
{
    return row(s, m0, m1, m2, m3) << 24 | row(s, m1, m0, m3, m2) << 16 |
           row(s, m2, m3, m0, m1) << 8 | row(s, m3, m2, m1, m0);
}

/* A number in a field, from its last digit on, and a space wherever no digit is left. */
INLINE void put_number(uint8_t *at, int width, uint32_t n)
{
    at[width - 1] = (uint8_t)('0' + n % 10);
    for (int i = width - 2; i >= 0; i--) {
        n /= 10;
        at[i] = (uint8_t)(n == 0 ? ' ' : '0' + n % 10);
    }
}
