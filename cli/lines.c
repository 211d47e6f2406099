/*
 * The lines of a plan and of a file of trials. The line number decides between equals, so lines of
 * one trial keep their order.
 */
#include "lines.h"

#include <stdlib.h>

struct lines new_lines(struct bytes text, const char *name)
{
    size_t count = 1;
    for (size_t i = 0; i < text.len; i++)
        count += text.at[i] == '\n';
    struct lines lines = {
        .name = name,
        .room = {new_bytes(count * sizeof *lines.all), new_bytes(count * sizeof *lines.sorted)}};
    lines.all = (struct line *)(void *)lines.room[0].at;
    lines.sorted = (const struct line **)(void *)lines.room[1].at;
    return lines;
}

void release_lines(struct lines *lines)
{
    release(&lines->room[0]);
    release(&lines->room[1]);
}

static int compare_numbers(uint64_t a, uint64_t b)
{
    return (a > b) - (a < b);
}

static int by_trial(const void *a, const void *b)
{
    const struct line *x = *(const struct line *const *)a, *y = *(const struct line *const *)b;
    int order = compare_numbers(x->record.trial, y->record.trial);
    return order != 0 ? order : compare_numbers(x->line, y->line);
}

/* Trial, row and column. */
static int compare_plots(const struct record *x, const struct record *y)
{
    int order = compare_numbers(x->trial, y->trial);
    order = order != 0 ? order : compare_numbers(x->row, y->row);
    return order != 0 ? order : compare_numbers(x->column, y->column);
}

static int by_plot(const void *a, const void *b)
{
    const struct line *x = *(const struct line *const *)a, *y = *(const struct line *const *)b;
    int order = compare_plots(&x->record, &y->record);
    return order != 0 ? order : compare_numbers(x->line, y->line);
}

void sort_by_trial(struct lines *lines)
{
    qsort(lines->sorted, lines->count, sizeof *lines->sorted, by_trial);
}

void sort_by_plot(struct lines *lines)
{
    qsort(lines->sorted, lines->count, sizeof *lines->sorted, by_plot);
}

bool same_plot(const struct record *x, const struct record *y)
{
    return compare_plots(x, y) == 0 && !in_reserve(x);
}

size_t trial_lines(const struct lines *lines, size_t from)
{
    size_t to = from;
    while (to < lines->count &&
           lines->sorted[to]->record.trial == lines->sorted[from]->record.trial)
        to++;
    return to - from;
}

size_t count_trials(const struct lines *lines)
{
    size_t trials = 0;
    for (size_t i = 0; i < lines->count; i += trial_lines(lines, i))
        trials++;
    return trials;
}
