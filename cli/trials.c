/*
 * The file of trials, which says what belongs to a whole trial: its start block (the field's IV)
 * and its number of replicates. Both columns may be absent: then start blocks are drawn, and the
 * number is 0, which the format reads as 4.
 */
#include "trials.h"

#include "csv.h"
#include "key.h"
#include "messages.h"
#include "text.h"

#include <string.h>

enum { TRIAL, START_BLOCK, REPLICATES, TRIALS_COLUMNS };

static const char *const trials_columns[TRIALS_COLUMNS] = {"trial", "start_block", "replicates"};

#define NEEDED_COLUMNS 1

/* Reading */

static bool take_start_block(const struct csv *csv, struct line *line)
{
    struct bytes digits = csv_field(csv, START_BLOCK);
    bool good = read_hex(digits, line->start_block, PLANBOOK_BLOCK_BYTES);
    if (!good)
        report(PLANBOOK_ACCEPTED, "%s, line %zu: the start block is not %d hexadecimal digits: %s",
               csv->name, csv->line, 2 * PLANBOOK_BLOCK_BYTES, hex_fault(digits));
    return good;
}

static bool take_replicates(const struct csv *csv, struct line *line)
{
    if (!csv_take_number(csv, REPLICATES, "number of replicates", UINT8_MAX,
                         PLANBOOK_MAX_REPLICATES, &line->replicates))
        return false;
    if (line->replicates > PLANBOOK_MAX_REPLICATES)
        report(PLANBOOK_CHECK_ENTRY,
               "%s, line %zu: %u replicates, but a trial has 1 to %d, or 0 for the default of %d",
               csv->name, csv->line, (unsigned)line->replicates, PLANBOOK_MAX_REPLICATES,
               PLANBOOK_DEFAULT_REPLICATES);
    return line->replicates <= PLANBOOK_MAX_REPLICATES;
}

static void read_trial(const struct csv *csv, struct lines *lines)
{
    struct line *line = &lines->all[lines->count];
    *line = (struct line){.line = csv->line};
    if (!csv_take_number(csv, TRIAL, trials_columns[TRIAL], UINT32_MAX, UINT32_MAX,
                         &line->record.trial))
        return;
    bool good = !csv_has(csv, START_BLOCK) || take_start_block(csv, line);
    good &= !csv_has(csv, REPLICATES) || take_replicates(csv, line);
    if (good)
        lines->sorted[lines->count++] = line;
}

static void report_repeated(const struct lines *lines)
{
    for (size_t i = 1; i < lines->count; i++) {
        const struct line *before = lines->sorted[i - 1], *line = lines->sorted[i];
        if (before->record.trial == line->record.trial)
            report(PLANBOOK_ACCEPTED, "%s, line %zu: trial %u is in line %zu already", lines->name,
                   line->line, (unsigned)line->record.trial, before->line);
    }
}

struct trials read_trials(struct bytes text, const char *name)
{
    size_t faults = reported();
    struct lines lines = new_lines(text, name);
    struct csv csv;
    for (csv_begin(&csv, text, name, trials_columns, TRIALS_COLUMNS, NEEDED_COLUMNS);
         csv_next(&csv);)
        read_trial(&csv, &lines);
    sort_by_trial(&lines);
    report_repeated(&lines);
    end_group();
    return (struct trials){lines, csv_has(&csv, START_BLOCK), reported() == faults};
}

/* Trials of the plan and trials of the file */

uint32_t replicates_for(const struct trials *trials, uint32_t trial)
{
    const struct lines *lines = &trials->lines;
    size_t from = 0, to = lines->count; /* the trial is there or nowhere */
    while (from < to) {
        size_t middle = from + (to - from) / 2;
        if (lines->sorted[middle]->record.trial < trial)
            from = middle + 1;
        else
            to = middle;
    }
    bool found = trials->good && from < lines->count && lines->sorted[from]->record.trial == trial;
    return found ? lines->sorted[from]->replicates : PLANBOOK_MAX_REPLICATES;
}

void match_trials(const struct lines *plan, const struct trials *trials)
{
    const struct lines *lines = &trials->lines;
    size_t i = 0, t = 0;
    while (i < plan->count || t < lines->count) {
        const struct line *line = i < plan->count ? plan->sorted[i] : NULL;
        const struct line *trial = t < lines->count ? lines->sorted[t] : NULL;
        if (trial == NULL || (line != NULL && line->record.trial < trial->record.trial)) {
            report(PLANBOOK_ACCEPTED, "%s, line %zu: trial %u has no line in %s", plan->name,
                   line->line, (unsigned)line->record.trial, lines->name);
            i += trial_lines(plan, i);
        } else if (line == NULL || trial->record.trial < line->record.trial) {
            report(PLANBOOK_ACCEPTED, "%s, line %zu: trial %u has no line in %s", lines->name,
                   trial->line, (unsigned)trial->record.trial, plan->name);
            t++;
        } else {
            i += trial_lines(plan, i);
            t++;
        }
    }
}

/* Start blocks */

static bool is_zero(const uint8_t *block)
{
    static const uint8_t zero[PLANBOOK_BLOCK_BYTES];
    return memcmp(block, zero, sizeof zero) == 0;
}

/*
 * A start block is to be used once under a key, and zeros are what everybody would take. Reports
 * one such fault for each trial.
 */
static void judge_start_blocks(struct bytes book,
                               void report_one(const char *name, uint32_t trial, uint32_t other),
                               const char *name)
{
    struct sheet sheets[PLANBOOK_MAX_SHEETS];
    size_t n = read_sheets(book, sheets);
    for (size_t i = 0; i < n; i++) {
        size_t other = 0;
        while (other < i &&
               memcmp(sheets[i].start_block, sheets[other].start_block, PLANBOOK_BLOCK_BYTES) != 0)
            other++;
        if (is_zero(sheets[i].start_block))
            report_one(name, sheets[i].trial, 0);
        else if (other < i)
            report_one(name, sheets[i].trial, sheets[other].trial);
    }
    end_reports();
}

static void report_start_block(const char *name, uint32_t trial, uint32_t other)
{
    if (other == 0)
        report(PLANBOOK_ACCEPTED,
               "%s: the start block of trial %u is all zeros; without the column start_block, good "
               "ones are drawn",
               name, (unsigned)trial);
    else
        report(PLANBOOK_ACCEPTED,
               "%s: trials %u and %u have the same start block; without the column start_block, "
               "good ones are drawn",
               name, (unsigned)other, (unsigned)trial);
}

static void warn_of_start_block(const char *name, uint32_t trial, uint32_t other)
{
    if (other == 0)
        warn("%s: the start block of trial %u is all zeros; pack draws good ones", name,
             (unsigned)trial);
    else
        warn("%s: trials %u and %u have the same start block; pack draws good ones", name,
             (unsigned)other, (unsigned)trial);
}

void report_start_blocks(const char *name, struct bytes book)
{
    judge_start_blocks(book, report_start_block, name);
}

void warn_of_start_blocks(const char *name, struct bytes book)
{
    judge_start_blocks(book, warn_of_start_block, name);
}

/* Writing */

void warn_of_replicates(const char *name, struct bytes book)
{
    struct sheet sheets[PLANBOOK_MAX_SHEETS];
    size_t n = read_sheets(book, sheets), numbered = 0;
    for (size_t i = 0; i < n; i++)
        numbered += sheets[i].replicates != 0;
    if (numbered > 0)
        warn("%s: a plan does not say the number of replicates, which %zu of %zu trials have "
             "chosen; --trials writes a file that does",
             name, numbered, n);
}

struct bytes unpack_trials(struct bytes book)
{
    struct sheet sheets[PLANBOOK_MAX_SHEETS];
    size_t n = read_sheets(book, sheets);
    struct text text = {{NULL, 0}, 0};
    csv_print_header(&text, trials_columns, TRIALS_COLUMNS);
    for (size_t i = 0; i < n; i++) {
        text_print(&text, "%u,", (unsigned)sheets[i].trial);
        text_print_hex(&text, sheets[i].start_block, PLANBOOK_BLOCK_BYTES);
        text_print(&text, ",%u\n", (unsigned)sheets[i].replicates);
    }
    return text_end(&text);
}
