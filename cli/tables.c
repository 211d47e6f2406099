/* Accepted books as tables for people. */
#include "tables.h"

#include "text.h"

static void print_contents(struct text *to, struct bytes book, bool opened,
                           const struct sheet *sheets, size_t n)
{
    size_t records = 0;
    for (size_t i = 0; i < n; i++)
        records += sheets[i].count;
    text_print(to, "%s plan book%s: sheets %zu, records %zu, bytes %zu\n",
               book.at[0] == PLANBOOK_SEALED ? "sealed" : "clear",
               opened ? ", opened from a sealed one" : "", n, records, book.len);
    if (n > 0)
        text_print(to, "\n%10s %7s %10s %-9s  %s\n", "TRIAL", "RECORDS", "REPLICATES", "",
                   "START BLOCK");
    for (size_t i = 0; i < n; i++) {
        text_print(to, "%10u %7u %10u %-9s  ", (unsigned)sheets[i].trial, (unsigned)sheets[i].count,
                   (unsigned)replicates_of(&sheets[i]),
                   sheets[i].replicates == 0 ? "(default)" : "");
        text_print_hex(to, sheets[i].start_block, PLANBOOK_BLOCK_BYTES);
        text_print(to, "\n");
    }
}

static void print_record_head(struct text *to)
{
    text_print(to, "%10s %5s %10s %9s %5s %6s\n", "TRIAL", "PLACE", "ENTRY", "REPLICATE", "ROW",
               "COLUMN");
}

static void print_record(struct text *to, const struct sheet *sheet, size_t place)
{
    struct record r = read_record(sheet, place);
    text_print(to, "%10u %5zu %10u %9u ", (unsigned)r.trial, place, (unsigned)r.entry,
               (unsigned)r.replicate);
    if (in_reserve(&r))
        text_print(to, "%12s\n", "reserve"); /* as wide as row and column */
    else
        text_print(to, "%5u %6u\n", (unsigned)r.row, (unsigned)r.column);
}

struct bytes show_table(struct bytes book, bool opened)
{
    struct sheet sheets[PLANBOOK_MAX_SHEETS];
    size_t n = read_sheets(book, sheets);
    struct text text = {{NULL, 0}, 0};
    print_contents(&text, book, opened, sheets, n);
    if (book.at[0] == PLANBOOK_CLEAR && n > 0) {
        text_print(&text, "\n");
        print_record_head(&text);
        for (size_t i = 0; i < n; i++)
            for (size_t place = 0; place < sheets[i].count; place++)
                print_record(&text, &sheets[i], place);
    }
    return text_end(&text);
}

struct bytes labels_table(struct bytes book)
{
    struct sheet sheets[PLANBOOK_MAX_SHEETS];
    size_t n = read_sheets(book, sheets);
    struct text text = {{NULL, 0}, 0};
    for (size_t i = 0; i < n; i++)
        for (size_t place = 0; place < sheets[i].count; place++) {
            text_print(&text, "%u %zu ", (unsigned)sheets[i].trial, place);
            text_print_hex(&text, sheets[i].records + PLANBOOK_RECORD_BYTES * place,
                           PLANBOOK_RECORD_BYTES);
            text_print(&text, "\n");
        }
    return text_end(&text);
}

struct bytes record_table(const struct sheet *sheet, size_t place)
{
    struct text text = {{NULL, 0}, 0};
    print_record_head(&text);
    print_record(&text, sheet, place);
    return text_end(&text);
}
