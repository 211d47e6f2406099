#include "tasks.h"

#include <stdio.h>
#include <stdlib.h>
#include <string.h>

struct task tasks[TASKS];
int turns = 41;
const size_t growth_records[GROWTH_SIZES] = {511, 1022, 2044};
size_t task_count;

void stop(const char *why)
{
    fprintf(stderr, "bench: %s\n", why);
    exit(1);
}

const struct task *find_task(enum kind kind, size_t blocks, size_t key_len, uint64_t way)
{
    for (size_t i = 0; i < task_count; i++) {
        const struct task *t = &tasks[i];
        if (t->kind == kind && t->blocks == blocks && t->key_len == key_len && t->way == way)
            return t;
    }
    stop("a task is missing");
    return NULL;
}

int has_side(const struct task *t, enum side side)
{
    if (side == PACKED)
        return t->kind == PAGE ||
               (t->kind == ENCRYPT_BOOK && t->blocks == LARGEST_BOOK && t->way != 2);
    return side != PRINTED || t->kind == PAGE;
}

static void add_task(enum kind kind, size_t blocks, size_t key_len, uint64_t way)
{
    struct task *t = &tasks[task_count++];
    t->kind = kind;
    t->blocks = blocks;
    t->key_len = key_len;
    t->way = way;
}

void list_tasks(int with_pages)
{
    for (size_t key_len = 16; key_len <= 32; key_len += 8)
        for (uint64_t way = 1; way <= WAYS; way++) {
            add_task(EXPAND_KEY, 0, key_len, way);
            add_task(ENCRYPT_BLOCK, 0, key_len, way);
            add_task(DECRYPT_BLOCK, 0, key_len, way);
            add_task(ENCRYPT_BOOK, SMALL_BOOK, key_len, way);
            add_task(DECRYPT_BOOK, SMALL_BOOK, key_len, way);
            add_task(ENCRYPT_BOOK, LARGEST_BOOK, key_len, way);
            add_task(DECRYPT_BOOK, LARGEST_BOOK, key_len, way);
            add_task(CRYPT_NOTE, SHORT_NOTE, key_len, way);
            add_task(CRYPT_NOTE, LONGEST_NOTE, key_len, way);
        }
    for (size_t key_len = 16; key_len <= 32; key_len += 8)
        for (uint64_t way = 1; way <= WAYS; way++) {
            add_task(BOOKS_EACH, SMALL_BOOK, key_len, way);
            add_task(BOOKS_ONCE, SMALL_BOOK, key_len, way);
        }
    for (size_t i = 0; i < GROWTH_SIZES; i++) {
        add_task(ENCRYPT_BOOK, growth_records[i], 16, 2);
        add_task(DECRYPT_BOOK, growth_records[i], 16, 2);
    }
    if (with_pages) {
        add_task(PAGE, SMALL_BOOK, 0, 0);
        add_task(PAGE, LARGEST_SHEET, 0, 0);
    }
}

static int by_size(const void *a, const void *b)
{
    double x = *(const double *)a, y = *(const double *)b;
    return (x > y) - (x < y);
}

double median(const double *values)
{
    double sorted[MOST_TURNS];
    memcpy(sorted, values, (size_t)turns * sizeof sorted[0]);
    qsort(sorted, (size_t)turns, sizeof sorted[0], by_size);
    return (sorted[(turns - 1) / 2] + sorted[turns / 2]) / 2;
}

double median_ratio(const double *above, const double *below)
{
    double ratios[MOST_TURNS];
    for (int i = 0; i < turns; i++)
        ratios[i] = above[i] / below[i];
    return median(ratios);
}

/* What a call's time is divided by. A page has a heading too. */
static size_t parts(const struct task *t)
{
    if (t->kind == BOOKS_EACH || t->kind == BOOKS_ONCE)
        return MANY_BOOKS;
    return t->kind == PAGE ? t->blocks + 1 : t->blocks > 0 ? t->blocks : 1;
}

double task_ns(const struct task *t, enum side side)
{
    return median(t->ns[side]) / (double)parts(t);
}
