#include "report.h"
#include "limits.h"
#include "tasks.h"

#include <stdio.h>
#include <string.h>

static void print_machine(void)
{
    char line[256], *model = NULL;
    FILE *f = fopen("/proc/cpuinfo", "r");
    while (f != NULL && model == NULL && fgets(line, sizeof line, f) != NULL)
        if (strncmp(line, "model name", 10) == 0 && (model = strchr(line, ':')) != NULL)
            model[strcspn(model, "\n")] = 0;
    if (f != NULL)
        fclose(f);
    printf("- CPU:%s\n", model != NULL ? model + 1 : " not reported by this system");
}

static void print_run(const struct disturbance *d)
{
    printf("- Turns: %d\n", turns);
    printf("- Another load on the core: %.0f s were spent waiting for it to end or on timings\n"
           "  that it spoilt; %d of %d timings were kept although it was there\n",
           d->waited_ns / 1e9, d->kept, d->timings);
}

static void print_task(const struct task *t)
{
    static const char *names[] = {
        "expand a key", "encrypt one block", "decrypt one block", "seal a book", "open a book",
        "a note", "a page", "expand a key for each book and seal", "expand a key once and seal",
    };
    if (t->kind == PAGE)
        printf("| none | none | %s", names[t->kind]);
    else
        printf("| %zu | %d | %s", t->key_len, (int)t->way, names[t->kind]);
    if (t->kind == CRYPT_NOTE)
        printf(" of %zu bytes, a block of 16", 16 * t->blocks);
    else if (t->kind == PAGE)
        printf(" of %zu records, a line", t->blocks);
    else if (t->kind == BOOKS_EACH || t->kind == BOOKS_ONCE)
        printf(" %d books of %zu records, a book", MANY_BOOKS, t->blocks);
    else if (t->blocks > 0)
        printf(" of %zu records, a record", t->blocks);
    printf(" | %.1f | %.1f | %.3f |\n", task_ns(t, LIBRARY), task_ns(t, PLAIN),
           median_ratio(t->ns[LIBRARY], t->ns[PLAIN]));
}

static void print_rows(size_t from, size_t to)
{
    for (size_t i = from; i < to; i++)
        print_task(&tasks[i]);
}

static void print_tasks(const char *columns)
{
    printf("| key bytes | way | measured | %s |\n|---:|---:|---|---:|---:|---:|\n", columns);
    print_rows(0, MAIN_TASKS);
    print_rows(FIRST_PAGE, task_count);
}

/* In microseconds for all books. */
static void print_saved_by(const struct task *each, const struct task *once, enum side side)
{
    printf(" %.0f | %.0f | %.3f |", median(each->ns[side]) / 1e3, median(once->ns[side]) / 1e3,
           median_ratio(once->ns[side], each->ns[side]));
}

static void print_saved(void)
{
    printf("| key bytes | way | library, for each book | library, once | once / each | C, for each "
           "book | C, once | once / each |\n"
           "|---:|---:|---:|---:|---:|---:|---:|---:|\n");
    for (size_t key_len = 16; key_len <= 32; key_len += 8)
        for (uint64_t way = 1; way <= WAYS; way++) {
            const struct task *each = find_task(BOOKS_EACH, SMALL_BOOK, key_len, way);
            const struct task *once = find_task(BOOKS_ONCE, SMALL_BOOK, key_len, way);
            printf("| %zu | %d |", key_len, (int)way);
            print_saved_by(each, once, LIBRARY);
            print_saved_by(each, once, PLAIN);
            printf("\n");
        }
}

static void print_packed(void)
{
    printf("| key bytes | way | largest book sealed, four bytes a word, ns a record | over plain C "
           "| library over it |\n"
           "|---:|---:|---:|---:|---:|\n");
    for (size_t i = 0; i < MAIN_TASKS; i++) {
        const struct task *t = &tasks[i];
        if (has_side(t, PACKED))
            printf("| %zu | %d | %.1f | %.3f | %.3f |\n", t->key_len, (int)t->way,
                   task_ns(t, PACKED), median_ratio(t->ns[PACKED], t->ns[PLAIN]),
                   median_ratio(t->ns[LIBRARY], t->ns[PACKED]));
    }
}

static void print_page_by(const char *how, enum side side)
{
    const struct task *t = find_task(PAGE, LARGEST_SHEET, 0, 0);
    printf("| %s | %.1f | %.3f | %.3f |\n", how, task_ns(t, side),
           median_ratio(t->ns[side], t->ns[PLAIN]), median_ratio(t->ns[LIBRARY], t->ns[side]));
}

static void print_other_pages(void)
{
    printf("| page of %d records | ns a line | over plain C | library over it |\n"
           "|---|---:|---:|---:|\n",
           LARGEST_SHEET);
    print_page_by("plain C, two digits at a time, from a table", PACKED);
    print_page_by("plain C, each line by snprintf", PRINTED);
}

static void print_scales(const struct scale *scales, size_t scale_count)
{
    if (scale_count == 0) {
        printf("OpenSSL's headers or ciphers were not present; skipped.\n");
        return;
    }
    printf("| OpenSSL, one chain of %d blocks | encrypt, ns a block | decrypt, ns a block |\n"
           "|---|---:|---:|\n",
           LARGEST_BOOK);
    for (size_t i = 0; i < scale_count; i++)
        printf("| %s | %.1f | %.1f |\n", scales[i].name, scales[i].encrypt_ns,
               scales[i].decrypt_ns);
}

static void print_growth_row(size_t records)
{
    printf("| %zu | %.1f | %.1f |\n", records,
           task_ns(find_task(ENCRYPT_BOOK, records, 16, 2), LIBRARY),
           task_ns(find_task(DECRYPT_BOOK, records, 16, 2), LIBRARY));
}

static void print_growth(void)
{
    printf("| records | library seals, ns a record | library opens, ns a record |\n"
           "|---:|---:|---:|\n");
    print_growth_row(SMALL_BOOK);
    for (size_t i = 0; i < GROWTH_SIZES; i++)
        print_growth_row(growth_records[i]);
    print_growth_row(LARGEST_BOOK);
}

int print_report(const struct disturbance *d, const struct scale *scales, size_t scale_count)
{
    print_machine();
    print_run(d);
    printf("\n");
    print_tasks("library ns | plain C ns | library / C");
    printf("\nWhat preparing once saves: %d books of %d records sealed under one key, which is\n"
           "expanded for each book or once, µs for all:\n\n",
           MANY_BOOKS, SMALL_BOOK);
    print_saved();
    printf("\nPlain C with four bytes doubled in one word, which no limit is about:\n\n");
    print_packed();
    printf("\nThe lines of a page by other means, which no limit is about either:\n\n");
    print_other_pages();
    printf("\nFor scale, what a user might take instead:\n\n");
    print_scales(scales, scale_count);
    printf("\nGrowth with the number of records, 16-byte key, way 2:\n\n");
    print_growth();
    printf("\nThe limits, for the worst of the three key lengths, growth for 16 bytes:\n\n");
    return print_limits();
}

void print_beside(const struct disturbance *d, int before_takes_keys)
{
    print_machine();
    print_run(d);
    if (before_takes_keys)
        printf("- Before: a library that takes keys. Each of its calls is given the key and\n"
               "  expands it, where that of now is given words\n");
    printf("\n");
    print_tasks("now, ns | before, ns | now / before");
    print_rows(MAIN_TASKS, FIRST_GROWTH);
}
