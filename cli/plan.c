/*
 * Plans. A plan has one line for each record, and a file of trials may say more of each trial. The
 * sheets of the book are made by rising trial, whatever the order of the lines; within a trial the
 * lines keep their order.
 *
 * Here only the form of a line is judged: the numbers. Whether a record is in order is the
 * library's to say.
 */
#include "plan.h"

#include "book.h"
#include "csv.h"
#include "key.h"
#include "library.h"
#include "lines.h"
#include "messages.h"
#include "refusals.h"
#include "text.h"
#include "trials.h"

#include <string.h>

enum { TRIAL, ENTRY, REPLICATE, ROW, COLUMN, PLAN_COLUMNS };

static const char *const plan_columns[PLAN_COLUMNS] = {
    "trial", "entry", "replicate", "row", "column",
};

/* The greatest number that has room in the book. */
static const uint32_t most[PLAN_COLUMNS] = {
    UINT32_MAX, UINT32_MAX, UINT8_MAX, UINT16_MAX, UINT16_MAX,
};

/* The greatest number that a message about the form names. */
static const uint32_t named[PLAN_COLUMNS] = {
    UINT32_MAX, UINT32_MAX, UINT8_MAX, PLANBOOK_MAX_ROW, PLANBOOK_MAX_COLUMN,
};

#define TEXT_BEGINNING 16

/*
 * No control character is near the beginning, but for those of lines. A book has one at the
 * very first place.
 */
bool is_plan(struct bytes input)
{
    for (size_t i = 0; i < input.len && i < TEXT_BEGINNING; i++)
        if (input.at[i] < ' ' && memchr("\t\r\n", input.at[i], 3) == NULL)
            return is_utf16(input); /* which the reader refuses by its name */
    return input.len > 0;
}

/* Reading lines */

/* A decimal number that fits its place in the book. */
static bool take_number(const struct csv *csv, size_t column, uint32_t *number)
{
    return csv_take_number(csv, column, plan_columns[column], most[column], named[column], number);
}

/* The library is asked about each record by itself, to report every line that it would refuse. */
static void judge_record(const char *name, const struct line *line, uint32_t replicates)
{
    struct sheet sheet = {line->record.trial, 1, replicates, NULL, NULL};
    struct bytes record = new_bytes(PLANBOOK_RECORD_BYTES);
    put_record(record.at, &line->record);
    uint32_t check = check_record(&sheet, record.at);
    bool above_default = replicates == 0 && line->record.entry > 0 &&
                         line->record.replicate > PLANBOOK_DEFAULT_REPLICATES;
    if (check != PLANBOOK_ACCEPTED)
        report(check, "%s, line %zu: %s%s", name, line->line, record_fault(&line->record, &sheet),
               check == PLANBOOK_CHECK_RECORD && above_default
                   ? "; a file of trials (--trials) can say more"
                   : "");
    release(&record);
}

static void read_plan_line(const struct csv *csv, struct lines *plan, const struct trials *trials)
{
    struct line *line = &plan->all[plan->count];
    struct record *record = &line->record;
    line->line = csv->line;
    if (!take_number(csv, TRIAL, &record->trial) || !take_number(csv, ENTRY, &record->entry) ||
        !take_number(csv, REPLICATE, &record->replicate) || !take_number(csv, ROW, &record->row) ||
        !take_number(csv, COLUMN, &record->column))
        return;
    judge_record(plan->name, line, trials != NULL ? replicates_for(trials, record->trial) : 0);
    plan->sorted[plan->count++] = line;
}

static struct lines read_plan(struct bytes text, const char *name, const struct trials *trials)
{
    struct lines plan = new_lines(text, name);
    struct csv csv;
    for (csv_begin(&csv, text, name, plan_columns, PLAN_COLUMNS, PLAN_COLUMNS); csv_next(&csv);)
        read_plan_line(&csv, &plan, trials);
    end_group();
    return plan;
}

/* Judging the whole plan */

static void warn_of_shared_plots(struct lines *plan)
{
    sort_by_plot(plan);
    for (size_t i = 1; i < plan->count; i++) {
        const struct line *before = plan->sorted[i - 1], *line = plan->sorted[i];
        if (same_plot(&before->record, &line->record))
            warn("%s, line %zu: trial %u has a record at row %u, column %u in line %zu already",
                 plan->name, line->line, (unsigned)line->record.trial, (unsigned)line->record.row,
                 (unsigned)line->record.column, before->line);
    }
    end_group();
}

static size_t book_bytes(const struct lines *plan)
{
    return PLANBOOK_HEAD_BYTES + PLANBOOK_ENTRY_BYTES * count_trials(plan) +
           PLANBOOK_RECORD_BYTES * plan->count;
}

/* The limits of a book, each of them reported: the library would answer the first alone. */
static void report_limits(const struct lines *plan)
{
    size_t trials = count_trials(plan);
    for (size_t i = 0; i < plan->count; i += trial_lines(plan, i))
        if (trial_lines(plan, i) > PLANBOOK_MAX_SHEET_RECORDS)
            report(PLANBOOK_CHECK_ENTRY, "%s: trial %u has %s plots, at most %s", plan->name,
                   (unsigned)plan->sorted[i]->record.trial, grouped(trial_lines(plan, i)),
                   grouped(PLANBOOK_MAX_SHEET_RECORDS));
    if (trials > PLANBOOK_MAX_SHEETS)
        report(PLANBOOK_CHECK_SHEETS,
               "%s: %s trials do not fit one book, which has at most %d; make two plans of it",
               plan->name, grouped(trials), PLANBOOK_MAX_SHEETS);
    if (book_bytes(plan) > PLANBOOK_MAX_BOOK_BYTES)
        report(PLANBOOK_CHECK_BOOK_LENGTH,
               "%s: %s plots do not fit one book: with the contents of %s trials they take %s "
               "bytes, at most %s; make two plans of it",
               plan->name, grouped(plan->count), grouped(trials), grouped(book_bytes(plan)),
               grouped(PLANBOOK_MAX_BOOK_BYTES));
}

/*
 * Making the book, from sorted lines. It fits one, or the caller has stopped; and the trials match,
 * line by line.
 */
static struct bytes lay_out(const struct lines *plan, const struct trials *trials)
{
    size_t contents = PLANBOOK_HEAD_BYTES + PLANBOOK_ENTRY_BYTES * count_trials(plan);
    struct bytes book = new_bytes(book_bytes(plan));
    put_head(book.at, count_trials(plan));
    for (size_t i = 0, trial = 0; i < plan->count; i += trial_lines(plan, i), trial++) {
        const struct line *line = trials != NULL ? trials->lines.sorted[trial] : NULL;
        struct sheet sheet = {plan->sorted[i]->record.trial, (uint32_t)trial_lines(plan, i),
                              line != NULL ? line->replicates : 0, NULL, NULL};
        put_entry(book.at + PLANBOOK_HEAD_BYTES + PLANBOOK_ENTRY_BYTES * trial, &sheet);
        if (line != NULL && trials->has_start_blocks)
            memcpy(start_block_of(book, trial), line->start_block, PLANBOOK_BLOCK_BYTES);
        else
            draw_random(start_block_of(book, trial), PLANBOOK_BLOCK_BYTES);
    }
    for (size_t i = 0; i < plan->count; i++)
        put_record(book.at + contents + PLANBOOK_RECORD_BYTES * i, &plan->sorted[i]->record);
    return book;
}

/*
 * The plan is sorted and in order, and so are the trials; or their faults are reported, and the
 * command has ended.
 */
static struct lines judged_plan(struct bytes text, const char *name, const struct trials *trials)
{
    struct lines plan = read_plan(text, name, trials);
    warn_of_shared_plots(&plan);
    sort_by_trial(&plan);
    report_limits(&plan);
    if (trials != NULL &&
        reported() == 0) /* a trial would seem to be missing whose line could not be read */
        match_trials(&plan, trials);
    end_reports();
    if (plan.count == 0)
        warn("%s has a header and no plots", name);
    return plan;
}

/*
 * Start blocks that seal is given have been used, as a rule: a plan that was changed since must not
 * be sealed from them again.
 */
static void drop_start_blocks(struct trials *trials)
{
    if (trials->has_start_blocks)
        warn("%s: the start blocks are not used, since seal draws new ones each time; pack uses "
             "them",
             trials->lines.name);
    trials->has_start_blocks = false;
}

struct bytes pack_plan(struct bytes plan_text, const char *plan_name,
                       const struct bytes *trials_text, const char *trials_name,
                       enum start_blocks start_blocks)
{
    struct trials file, *trials = NULL;
    if (trials_text != NULL) {
        file = read_trials(*trials_text, trials_name);
        trials = &file;
        if (start_blocks == ALWAYS_DRAWN)
            drop_start_blocks(trials);
    }
    struct lines plan = judged_plan(plan_text, plan_name, trials);
    struct bytes book = lay_out(&plan, trials);
    uint32_t check = check_clear_book(book);
    if (check != PLANBOOK_ACCEPTED)
        refuse_clear_book(plan_name, book, check);
    report_start_blocks(trials != NULL ? trials_name : plan_name, book);
    release_lines(&plan);
    if (trials != NULL)
        release_lines(&trials->lines);
    return book;
}

/* Writing, from an accepted book */

struct bytes unpack_plan(struct bytes book)
{
    struct sheet sheets[PLANBOOK_MAX_SHEETS];
    size_t n = read_sheets(book, sheets);
    struct text text = {{NULL, 0}, 0};
    csv_print_header(&text, plan_columns, PLAN_COLUMNS);
    for (size_t i = 0; i < n; i++)
        for (size_t place = 0; place < sheets[i].count; place++) {
            struct record r = read_record(&sheets[i], place);
            text_print(&text, "%u,%u,%u,%u,%u\n", (unsigned)r.trial, (unsigned)r.entry,
                       (unsigned)r.replicate, (unsigned)r.row, (unsigned)r.column);
        }
    return text_end(&text);
}
