/*
 * What the library refuses, in the words of the user's plan. The library has decided, and its
 * number is at the end of the message; here the bytes are only looked through for what it must
 * have met. Where a check is answered, the ones before it have passed, so what they ask for is
 * there to be read.
 */
#include "refusals.h"

#include "library.h"
#include "messages.h"
#include "plan.h"

#include <inttypes.h>
#include <stdarg.h>
#include <stdio.h>

static size_t contents_bytes(struct bytes book)
{
    return PLANBOOK_HEAD_BYTES + PLANBOOK_ENTRY_BYTES * sheet_count(book);
}

static void refuse_length(const char *name, struct bytes book)
{
    if (book.len < PLANBOOK_MIN_BOOK_BYTES)
        refuse(PLANBOOK_CHECK_BOOK_LENGTH, "%s has %zu bytes, and a plan book has at least %d",
               name, book.len, PLANBOOK_MIN_BOOK_BYTES);
    refuse(PLANBOOK_CHECK_BOOK_LENGTH, "%s is longer than a plan book can be, which is %s bytes",
           name, grouped(PLANBOOK_MAX_BOOK_BYTES));
}

static void refuse_kind(const char *name, struct bytes book, uint8_t wanted)
{
    if (book.at[1] == 0 && book.at[0] == PLANBOOK_SEALED)
        refuse(PLANBOOK_CHECK_BOOK_KIND, "%s is sealed already, and a clear book is needed here",
               name);
    if (book.at[1] == 0 && book.at[0] == PLANBOOK_CLEAR)
        refuse(PLANBOOK_CHECK_BOOK_KIND, "%s is a clear book, and a sealed one is needed here",
               name);
    if (is_plan(book))
        refuse(PLANBOOK_CHECK_BOOK_KIND, "%s is text, and a plan book is needed here", name);
    refuse(PLANBOOK_CHECK_BOOK_KIND, "%s is no %s plan book: it does not begin with %02x 00", name,
           wanted == PLANBOOK_SEALED ? "sealed" : "clear", wanted);
}

/* Sheets are counted from 0, as --sheet counts them. */
static void refuse_entry(const char *name, struct bytes book)
{
    uint32_t before = 0;
    for (size_t i = 0; i < sheet_count(book); i++) {
        struct sheet sheet = read_entry(book, i);
        unsigned trial = (unsigned)sheet.trial;
        if (sheet.trial == 0)
            refuse(PLANBOOK_CHECK_ENTRY, "%s, sheet %zu: trial 0, but trials begin at 1", name, i);
        if (sheet.trial <= before)
            refuse(PLANBOOK_CHECK_ENTRY,
                   "%s, sheet %zu: trial %u comes after trial %u, but trials must rise", name, i,
                   trial, (unsigned)before);
        if (sheet.count < 1 || sheet.count > PLANBOOK_MAX_SHEET_RECORDS)
            refuse(PLANBOOK_CHECK_ENTRY, "%s: trial %u has %s plots, and a trial has 1 to %s", name,
                   trial, grouped(sheet.count), grouped(PLANBOOK_MAX_SHEET_RECORDS));
        if (sheet.replicates > PLANBOOK_MAX_REPLICATES)
            refuse(PLANBOOK_CHECK_ENTRY,
                   "%s: trial %u has %u replicates, and a trial has at most %d", name, trial,
                   (unsigned)sheet.replicates, PLANBOOK_MAX_REPLICATES);
        if (!entry_has_zero(book, i))
            refuse(PLANBOOK_CHECK_ENTRY,
                   "%s: the reserved byte of trial %u in the contents is not zero", name, trial);
        before = sheet.trial;
    }
    refuse(PLANBOOK_CHECK_ENTRY, "%s: %s", name, planbook_check_sentence(PLANBOOK_CHECK_ENTRY));
}

static void refuse_body_length(const char *name, struct bytes book)
{
    size_t records = 0;
    for (size_t i = 0; i < sheet_count(book); i++)
        records += read_entry(book, i).count;
    size_t said = contents_bytes(book) + PLANBOOK_RECORD_BYTES * records;
    refuse(PLANBOOK_CHECK_BODY_LENGTH, "%s has %s bytes, but its contents say %s: %s", name,
           grouped(book.len), grouped(said),
           book.len < said ? "its end is missing" : "something was added");
}

/* A fault as a sentence; the next call overwrites it. */
static const char *fault(const char *format, ...) __attribute__((format(printf, 1, 2)));
static const char *fault(const char *format, ...)
{
    static char text[128];
    va_list arguments;
    va_start(arguments, format);
    vsnprintf(text, sizeof text, format, arguments);
    va_end(arguments);
    return text;
}

/*
 * The parts of the rule in the order that it is written in: trial, entry, replicate, plot, zero
 * bytes.
 */
const char *record_fault(const struct record *record, const struct sheet *sheet)
{
    unsigned trial = (unsigned)sheet->trial, replicates = (unsigned)replicates_of(sheet);
    unsigned row = (unsigned)record->row, column = (unsigned)record->column;
    if (trial == 0)
        return "trial 0, but trials begin at 1";
    if (record->trial != trial)
        return fault("a record of trial %u in the sheet of trial %u", (unsigned)record->trial,
                     trial);
    if (record->entry == 0)
        return "entry 0, but entries begin at 1";
    if (record->replicate == 0)
        return "replicate 0, but replicates begin at 1";
    if (record->replicate > replicates)
        return fault("replicate %u, but trial %u has %u%s", (unsigned)record->replicate, trial,
                     replicates, sheet->replicates == 0 ? ", the default" : "");
    if (row > PLANBOOK_MAX_ROW)
        return fault("row %u, but rows are from 1 to %d, or 0 in reserve", row, PLANBOOK_MAX_ROW);
    if (column > PLANBOOK_MAX_COLUMN)
        return fault("column %u, but columns are from 1 to %d, or 0 in reserve", column,
                     PLANBOOK_MAX_COLUMN);
    if ((row == 0) != (column == 0))
        return fault("row %u and column %u: a plot in reserve has 0 for both, any other has both "
                     "from 1 to %d",
                     row, column, PLANBOOK_MAX_ROW);
    return "the last three bytes of the record are not zero";
}

/* The first record that the library refuses by itself. */
static void refuse_record(const char *name, struct bytes book)
{
    struct sheet sheets[PLANBOOK_MAX_SHEETS];
    size_t n = read_sheets(book, sheets);
    for (size_t i = 0; i < n; i++)
        for (size_t place = 0; place < sheets[i].count; place++)
            if (check_record(&sheets[i], sheets[i].records + PLANBOOK_RECORD_BYTES * place) !=
                PLANBOOK_ACCEPTED) {
                struct record record = read_record(&sheets[i], place);
                refuse(PLANBOOK_CHECK_RECORD, "%s, trial %u, place %zu: %s", name,
                       (unsigned)sheets[i].trial, place, record_fault(&record, &sheets[i]));
            }
    refuse(PLANBOOK_CHECK_RECORD, "%s: %s", name, planbook_check_sentence(PLANBOOK_CHECK_RECORD));
}

/* Checks 5 to 10, for which clear and sealed books differ in their kind alone. */
static void refuse_form(const char *name, struct bytes book, uint32_t check, uint8_t wanted)
{
    switch (check) {
    case PLANBOOK_CHECK_BOOK_LENGTH: refuse_length(name, book); break;
    case PLANBOOK_CHECK_BOOK_KIND: refuse_kind(name, book, wanted); break;
    case PLANBOOK_CHECK_SHEETS:
        refuse(check, "%s says that it has %s trials, and a plan book has at most %d", name,
               grouped(sheet_count(book)), PLANBOOK_MAX_SHEETS);
    case PLANBOOK_CHECK_CONTENTS_CUT:
        refuse(check,
               "%s has %s bytes, but the contents of its %zu trials need %s: its end is missing",
               name, grouped(book.len), sheet_count(book), grouped(contents_bytes(book)));
    case PLANBOOK_CHECK_ENTRY: refuse_entry(name, book); break;
    case PLANBOOK_CHECK_BODY_LENGTH: refuse_body_length(name, book); break;
    }
}

void refuse_note(const char *name, struct bytes counter, uint32_t check)
{
    if (check == PLANBOOK_CHECK_BLOCK_LENGTH)
        refuse(check, "the counter block is %s bytes long, not %d, which are %d hexadecimal digits",
               grouped(counter.len), PLANBOOK_COUNTER_BYTES, 2 * PLANBOOK_COUNTER_BYTES);
    if (check == PLANBOOK_CHECK_NOTE_LENGTH)
        refuse(check, "%s is longer than a note can be, which is %s bytes", name,
               grouped(PLANBOOK_MAX_NOTE_BYTES));
    refuse(check, "%s: %s", name, planbook_check_sentence(check));
}

void refuse_clear_book(const char *name, struct bytes book, uint32_t check)
{
    refuse_form(name, book, check, PLANBOOK_CLEAR);
    if (check == PLANBOOK_CHECK_RECORD)
        refuse_record(name, book);
    refuse(check, "%s: %s", name, planbook_check_sentence(check));
}

void refuse_sealed_book(const char *name, struct bytes book, uint32_t check)
{
    refuse_form(name, book, check, PLANBOOK_SEALED);
    if (check == PLANBOOK_CHECK_RECORD)
        refuse(check,
               "%s does not open under this key: most likely it was sealed under another one, or "
               "changed since; or a version before 2.0 sealed it, with a plot that is no longer "
               "permitted",
               name);
    refuse(check, "%s: %s", name, planbook_check_sentence(check));
}

/*
 * A trial's number may have been given for the sheet's: then which sheet the trial has, as the end
 * of a sentence.
 */
static const char *sheet_of_trial(struct bytes book, uint64_t trial)
{
    for (size_t i = 0; i < sheet_count(book); i++)
        if (read_entry(book, i).trial == trial)
            return fault("; trial %" PRIu64 " is sheet %zu", trial, i);
    return "";
}

/* What to do about a sealed book or a plan: anyone who wants a page need not know it. */
static void refuse_kind_for_page(const char *name, struct bytes book)
{
    if (book.at[0] == PLANBOOK_SEALED && book.at[1] == 0)
        refuse(PLANBOOK_CHECK_BOOK_KIND,
               "%s is sealed, and a page needs a clear book: open it first", name);
    if (is_plan(book))
        refuse(PLANBOOK_CHECK_BOOK_KIND,
               "%s is text, and a page needs a clear book: planbook pack makes one of a plan",
               name);
}

void refuse_page(const char *name, struct bytes book, uint64_t sheet, uint32_t check)
{
    if (check == PLANBOOK_CHECK_BOOK_KIND)
        refuse_kind_for_page(name, book);
    if (check != PLANBOOK_CHECK_SHEET_INDEX)
        refuse_clear_book(name, book, check);
    size_t sheets = sheet_count(book);
    if (sheets == 0)
        refuse(check, "%s has no sheets", name);
    refuse(check, "%s has %zu sheet%s, counted from 0: there is no sheet %" PRIu64 "%s", name,
           sheets, sheets == 1 ? "" : "s", sheet, sheet_of_trial(book, sheet));
}
