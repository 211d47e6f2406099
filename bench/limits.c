#include "limits.h"
#include "tasks.h"

#include <math.h>
#include <stdio.h>

/* Stands for the number of blocks: every book of growth_records. */
enum { GROWING_BOOKS = 1 };

struct measured {
    enum kind kind;
    size_t blocks;
    uint64_t way;
    enum side side;
};

struct limit {
    const char *what;
    struct measured above, below;
    enum { AT_MOST, AT_LEAST, REPORTED } sense; /* what is only reported has no bound */
    double bound;
};

#define BLOCK(way, side) {ENCRYPT_BLOCK, 0, way, side}
#define SEALING(way, side) {ENCRYPT_BOOK, LARGEST_BOOK, way, side}
#define OPENING(way, side) {DECRYPT_BOOK, LARGEST_BOOK, way, side}
#define NOTE(way, side) {CRYPT_NOTE, LONGEST_NOTE, way, side}
#define NOTE_OF_64(side) {CRYPT_NOTE, SHORT_NOTE, 2, side}
#define LONGEST_PAGE(side) {PAGE, LARGEST_SHEET, 0, side}
#define SMALL(kind, side) {kind, SMALL_BOOK, 2, side}
#define GROWING(kind) {kind, GROWING_BOOKS, 2, LIBRARY}

static const struct limit limits[] = {
    {"way 1, the largest book sealed, library / C", SEALING(1, LIBRARY), SEALING(1, PLAIN), AT_MOST,
     1.10},
    {"way 1, one block encrypted, library / C", BLOCK(1, LIBRARY), BLOCK(1, PLAIN), AT_MOST, 1.10},
    {"way 2, the largest book sealed, library / C", SEALING(2, LIBRARY), SEALING(2, PLAIN), AT_MOST,
     1.05},
    {"way 2, 24 records sealed, library / C", SMALL(ENCRYPT_BOOK, LIBRARY),
     SMALL(ENCRYPT_BOOK, PLAIN), AT_MOST, 1.10},
    {"way 2, one block encrypted, library / C", BLOCK(2, LIBRARY), BLOCK(2, PLAIN), REPORTED, 0},
    {"way 3, the largest book sealed, library / C", SEALING(3, LIBRARY), SEALING(3, PLAIN), AT_MOST,
     1.10},
    {"way 3, one block encrypted, library / C", BLOCK(3, LIBRARY), BLOCK(3, PLAIN), AT_MOST, 1.10},
    {"way 2, the largest book opened, library / C", OPENING(2, LIBRARY), OPENING(2, PLAIN), AT_MOST,
     2.00},
    {"way 1, the longest note, library / C", NOTE(1, LIBRARY), NOTE(1, PLAIN), AT_MOST, 1.10},
    {"way 2, the longest note, library / C", NOTE(2, LIBRARY), NOTE(2, PLAIN), AT_MOST, 1.10},
    {"way 3, the longest note, library / C", NOTE(3, LIBRARY), NOTE(3, PLAIN), AT_MOST, 1.10},
    {"way 2, a note of 64 bytes, library / C", NOTE_OF_64(LIBRARY), NOTE_OF_64(PLAIN), REPORTED, 0},
    {"page of 1,024 records, library / C", LONGEST_PAGE(LIBRARY), LONGEST_PAGE(PLAIN), AT_MOST,
     1.30},
    {"way 1, the largest book, opening / sealing", OPENING(1, LIBRARY), SEALING(1, LIBRARY),
     AT_MOST, 2.10},
    {"way 2, the largest book, opening / sealing", OPENING(2, LIBRARY), SEALING(2, LIBRARY),
     AT_MOST, 1.15},
    {"way 3, the largest book, opening / sealing", OPENING(3, LIBRARY), SEALING(3, LIBRARY),
     AT_MOST, 2.10},
    {"way 2, 24 records, opening / sealing", SMALL(DECRYPT_BOOK, LIBRARY),
     SMALL(ENCRYPT_BOOK, LIBRARY), AT_MOST, 1.35},
    {"the largest book sealed, way 1 / way 2", SEALING(1, LIBRARY), SEALING(2, LIBRARY), AT_LEAST,
     2},
    {"the largest book sealed, way 3 / way 2", SEALING(3, LIBRARY), SEALING(2, LIBRARY), AT_LEAST,
     8},
    {"the largest book sealed, way 3 / way 2", SEALING(3, LIBRARY), SEALING(2, LIBRARY), AT_MOST,
     50},
    {"way 2, sealing, a record of the largest book / of a book of 511 or more", SEALING(2, LIBRARY),
     GROWING(ENCRYPT_BOOK), AT_MOST, 1.10},
    {"way 2, opening, the same", OPENING(2, LIBRARY), GROWING(DECRYPT_BOOK), AT_MOST, 1.10},
};
enum { LIMITS = sizeof limits / sizeof limits[0] };

/* A page has no key. */
static const double *times(const struct measured *m, size_t key_len)
{
    return find_task(m->kind, m->blocks, m->kind == PAGE ? 0 : key_len, m->way)->ns[m->side];
}

static double worst_of_keys(const struct limit *l)
{
    double worst = l->sense == AT_LEAST ? INFINITY : 0;
    for (size_t key_len = 16; key_len <= 32; key_len += 8) {
        double ratio = median_ratio(times(&l->above, key_len), times(&l->below, key_len));
        worst = l->sense == AT_LEAST ? fmin(worst, ratio) : fmax(worst, ratio);
    }
    return worst;
}

/* A record of the one book over a record of the others, whichever is dearer; 16-byte key. */
static double growth(const struct limit *l)
{
    double worst = 1;
    for (size_t i = 0; i < GROWTH_SIZES; i++) {
        struct measured below = l->below;
        below.blocks = growth_records[i];
        double ratio = median_ratio(times(&l->above, 16), times(&below, 16)) *
                       (double)below.blocks / (double)l->above.blocks;
        worst = fmax(worst, fmax(ratio, 1 / ratio));
    }
    return worst;
}

/* What going twice over the largest book takes in plain C, in units of sealing it there; way 2,
 * worst of the key lengths. */
static double two_passes_in_c(void)
{
    const struct limit twice = {"", OPENING(2, PLAIN), SEALING(2, PLAIN), AT_MOST, 0};
    return 2 * worst_of_keys(&twice);
}

int print_limits(void)
{
    int broken = 0;
    printf("| ratio | found | limit | |\n|---|---:|---:|---|\n");
    for (const struct limit *l = limits; l < limits + LIMITS; l++) {
        double found = l->below.blocks == GROWING_BOOKS ? growth(l) : worst_of_keys(l);
        if (l->sense == REPORTED) {
            printf("| %s | %.3f | none | |\n", l->what, found);
            continue;
        }
        int most = l->sense == AT_MOST, holds = most ? found <= l->bound : found >= l->bound;
        broken += !holds;
        printf("| %s | %.3f | at %s %.2f | %s |\n", l->what, found, most ? "most" : "least",
               l->bound, holds ? "pass" : "broken");
    }
    printf("\nThe library goes twice over a book that it opens. For comparison: by way 2 two of\n"
           "plain C's passes of opening take %.3f times as long as plain C's sealing.\n",
           two_passes_in_c());
    return broken;
}
