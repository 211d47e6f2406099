/*
 * Accepted books as JSON: one object or array, with a line for each sheet and each record. All
 * values are numbers, true or false, or strings of letters and digits, so nothing has to be
 * escaped.
 */
#include "json.h"

#include "text.h"

static const char *comma(size_t i, size_t count)
{
    return i + 1 < count ? "," : "";
}

static void print_record(struct text *to, const struct sheet *sheet, size_t place)
{
    struct record r = read_record(sheet, place);
    text_print(to,
               "{\"trial\": %u, \"place\": %zu, \"entry\": %u, \"replicate\": %u, \"row\": %u, "
               "\"column\": %u, \"reserve\": %s}",
               (unsigned)r.trial, place, (unsigned)r.entry, (unsigned)r.replicate, (unsigned)r.row,
               (unsigned)r.column, in_reserve(&r) ? "true" : "false");
}

static void print_contents(struct text *to, const struct sheet *sheets, size_t n)
{
    text_print(to, " \"sheets\": [\n");
    for (size_t i = 0; i < n; i++) {
        text_print(to,
                   "  {\"trial\": %u, \"count\": %u, \"replicates\": %u, "
                   "\"replicates_by_default\": %s, \"start_block\": \"",
                   (unsigned)sheets[i].trial, (unsigned)sheets[i].count,
                   (unsigned)replicates_of(&sheets[i]),
                   sheets[i].replicates == 0 ? "true" : "false");
        text_print_hex(to, sheets[i].start_block, PLANBOOK_BLOCK_BYTES);
        text_print(to, "\"}%s\n", comma(i, n));
    }
    text_print(to, " ]");
}

struct bytes show_json(struct bytes book, bool opened)
{
    struct sheet sheets[PLANBOOK_MAX_SHEETS];
    size_t n = read_sheets(book, sheets);
    bool sealed = book.at[0] == PLANBOOK_SEALED;
    struct text text = {{NULL, 0}, 0};
    text_print(&text, "{\"kind\": \"%s\", \"opened\": %s, \"bytes\": %zu,\n",
               sealed ? "sealed" : "clear", opened ? "true" : "false", book.len);
    print_contents(&text, sheets, n);
    if (!sealed) {
        text_print(&text, ",\n \"records\": [\n");
        for (size_t i = 0; i < n; i++)
            for (size_t place = 0; place < sheets[i].count; place++) {
                text_print(&text, "  ");
                print_record(&text, &sheets[i], place);
                text_print(&text, "%s\n", i + 1 < n ? "," : comma(place, sheets[i].count));
            }
        text_print(&text, " ]");
    }
    text_print(&text, "\n}\n");
    return text_end(&text);
}

struct bytes labels_json(struct bytes book)
{
    struct sheet sheets[PLANBOOK_MAX_SHEETS];
    size_t n = read_sheets(book, sheets);
    struct text text = {{NULL, 0}, 0};
    text_print(&text, "[\n");
    for (size_t i = 0; i < n; i++)
        for (size_t place = 0; place < sheets[i].count; place++) {
            text_print(&text, " {\"trial\": %u, \"place\": %zu, \"label\": \"",
                       (unsigned)sheets[i].trial, place);
            text_print_hex(&text, sheets[i].records + PLANBOOK_RECORD_BYTES * place,
                           PLANBOOK_RECORD_BYTES);
            text_print(&text, "\"}%s\n", i + 1 < n ? "," : comma(place, sheets[i].count));
        }
    text_print(&text, "]\n");
    return text_end(&text);
}

struct bytes record_json(const struct sheet *sheet, size_t place)
{
    struct text text = {{NULL, 0}, 0};
    print_record(&text, sheet, place);
    text_print(&text, "\n");
    return text_end(&text);
}
