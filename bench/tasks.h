/* What is measured, and the medians of it: below everything that measures, judges, prints or
 * draws. */
#ifndef TASKS_H
#define TASKS_H

#include <stddef.h>
#include <stdint.h>

/* PACKED is plain C with four bytes doubled in one word, or two digits written at a time; it has
 * few of the tasks (packed.c). PRINTED is plain C with the lines of a page by snprintf. */
enum side { LIBRARY, PLAIN, PACKED, PRINTED, SIDES };
/* BOOKS_EACH and BOOKS_ONCE seal MANY_BOOKS small books under one key, which is expanded for each
 * of them or once. */
enum kind {
    EXPAND_KEY,
    ENCRYPT_BLOCK,
    DECRYPT_BLOCK,
    ENCRYPT_BOOK,
    DECRYPT_BOOK,
    CRYPT_NOTE,
    PAGE,
    BOOKS_EACH,
    BOOKS_ONCE
};
enum { WAYS = 3, KEY_LENGTHS = 3, MOST_TURNS = 401 };

/* In blocks of 16 bytes, which a record is too. */
enum {
    SMALL_BOOK = 24,
    LARGEST_SHEET = 1024,
    LARGEST_BOOK = 4088,
    SHORT_NOTE = 4,
    LONGEST_NOTE = 1024
};
enum { MANY_BOOKS = 300 };

/*
 * Those by each key length and way; those of many books, by the same; those that show the growth;
 * and the pages, which have neither key nor way.
 */
enum { CALLS_A_KEY_AND_WAY = 9, GROWTH_SIZES = 3, PAGES = 2 };
enum {
    MAIN_TASKS = KEY_LENGTHS * WAYS * CALLS_A_KEY_AND_WAY,
    FIRST_GROWTH = MAIN_TASKS + 2 * KEY_LENGTHS * WAYS
};
enum { FIRST_PAGE = FIRST_GROWTH + 2 * GROWTH_SIZES, TASKS = FIRST_PAGE + PAGES };

/* One thing measured on each side, turn by turn, in nanoseconds a call. */
struct task {
    enum kind kind;
    size_t blocks; /* of a book, a note or a page's sheet, else 0 */
    size_t key_len; /* of the key, or of the one whose words are given */
    uint64_t way;
    size_t repeats;
    double ns[SIDES][MOST_TURNS];
};

extern struct task tasks[TASKS];

/* FIRST_PAGE where the other side is an earlier library that has no pages. */
extern size_t task_count;

/* The turns made; every median is over these. */
extern int turns;

/* Books between the two sizes, to see how the time grows. */
extern const size_t growth_records[GROWTH_SIZES];

/* Ends the run with status 1. */
void stop(const char *why);

void list_tasks(int with_pages);
const struct task *find_task(enum kind kind, size_t blocks, size_t key_len, uint64_t way);
int has_side(const struct task *t, enum side side);

double median(const double *values);

/* Ratios are taken turn by turn: what disturbs a turn disturbs both of its times. */
double median_ratio(const double *above, const double *below);

/* The median: of a call, of a block where the task is a book or a note, of a line of a page, or of
 * one of many books. */
double task_ns(const struct task *t, enum side side);

#endif
