/*
 * Lines and fields of a CSV text, as spreadsheets write it: comma, semicolon or tab between fields,
 * quoted fields, lines that end with a line feed or with carriage return and line feed, a byte
 * order mark, empty lines at the end. Columns are found by their names in the header, in small or
 * capital letters; others are named in a warning and not read.
 */
#define _POSIX_C_SOURCE 200809L
#include "csv.h"

#include "messages.h"
#include "planbook.h"

#include <ctype.h>
#include <stdio.h>
#include <string.h>
#include <strings.h>

#define ABSENT SIZE_MAX

/* A carriage return is part of the end of a line only there. */
static bool at_line_end(const struct csv *csv)
{
    return csv->next == csv->end || *csv->next == '\n' ||
           (*csv->next == '\r' && (csv->next + 1 == csv->end || csv->next[1] == '\n'));
}

static bool at_field_end(const struct csv *csv)
{
    return at_line_end(csv) || *csv->next == csv->separator;
}

/* After the opening quote. A doubled quote means one, and is undone in place. */
static struct bytes take_quoted(struct csv *csv)
{
    uint8_t *from = csv->next, *to = from;
    for (; csv->next < csv->end; csv->next++) {
        if (*csv->next == '"' && (csv->next + 1 == csv->end || csv->next[1] != '"')) {
            csv->next++;
            return (struct bytes){from, (size_t)(to - from)};
        }
        csv->next += *csv->next == '"';
        csv->next_line += *csv->next == '\n';
        *to++ = *csv->next;
    }
    csv->fault = "a quoted field has no end";
    return (struct bytes){from, (size_t)(to - from)};
}

static struct bytes take_field(struct csv *csv)
{
    uint8_t *from = csv->next;
    if (!at_field_end(csv) && *from == '"') {
        csv->next++;
        struct bytes field = take_quoted(csv);
        if (!at_field_end(csv))
            csv->fault = "there is more after the closing quote of a field";
        while (!at_field_end(csv))
            csv->next++;
        return field;
    }
    while (!at_field_end(csv))
        csv->next++;
    return (struct bytes){from, (size_t)(csv->next - from)};
}

/* The fields of the next line, whatever they are. */
static bool take_line(struct csv *csv)
{
    if (csv->next == csv->end)
        return false;
    csv->line = csv->next_line;
    csv->fault = NULL;
    csv->field_count = 0;
    for (bool more = true; more; csv->next += more) {
        struct bytes field = take_field(csv);
        if (csv->field_count < MAX_COLUMNS)
            csv->fields[csv->field_count] = field;
        csv->field_count++;
        more = !at_line_end(csv);
    }
    csv->next += csv->next < csv->end && *csv->next == '\r';
    csv->next += csv->next < csv->end && *csv->next == '\n';
    csv->next_line++;
    return true;
}

/*
 * A line without a character, or with separators alone, which is what a spreadsheet makes of an
 * empty row.
 */
static bool is_empty(const struct csv *csv)
{
    for (size_t i = 0; i < csv->field_count && i < MAX_COLUMNS; i++)
        if (csv->fields[i].len > 0)
            return false;
    return csv->fault == NULL;
}

bool csv_next(struct csv *csv)
{
    while (take_line(csv)) {
        if (is_empty(csv)) {
            csv->empty_line = csv->empty_line != 0 ? csv->empty_line : csv->line;
            continue;
        }
        if (csv->empty_line != 0) /* one in the middle may be a plot that was lost */
            report(PLANBOOK_ACCEPTED, "%s, line %zu: the line is empty", csv->name,
                   csv->empty_line);
        csv->empty_line = 0;
        if (csv->fault == NULL && csv->field_count == csv->column_count)
            return true;
        if (csv->fault != NULL)
            report(PLANBOOK_ACCEPTED, "%s, line %zu: %s", csv->name, csv->line, csv->fault);
        else
            report(PLANBOOK_ACCEPTED, "%s, line %zu: the line has %zu fields instead of %zu",
                   csv->name, csv->line, csv->field_count, csv->column_count);
    }
    return false;
}

bool csv_has(const struct csv *csv, size_t column)
{
    return csv->place[column] != ABSENT;
}

struct bytes csv_field(const struct csv *csv, size_t column)
{
    return csv->fields[csv->place[column]];
}

static bool csv_number(const struct csv *csv, size_t column, uint32_t most, uint32_t *number)
{
    struct bytes field = csv_field(csv, column);
    uint64_t value = 0;
    bool good = field.len > 0;
    for (size_t i = 0; good && i < field.len; i++) {
        value = 10 * value + (uint64_t)(field.at[i] - '0');
        good = field.at[i] >= '0' && field.at[i] <= '9' && value <= most;
    }
    *number = (uint32_t)value;
    return good;
}

bool csv_take_number(const struct csv *csv, size_t column, const char *title, uint32_t most,
                     uint32_t named, uint32_t *number)
{
    bool good = csv_number(csv, column, most, number);
    if (!good)
        report(PLANBOOK_ACCEPTED, "%s, line %zu: the %s %s is not a number from 0 to %u", csv->name,
               csv->line, title, shown_field(csv_field(csv, column)), (unsigned)named);
    return good;
}

/* The header */

/* The first of the three that is outside quotes in the first line. */
static uint8_t find_separator(const struct csv *csv)
{
    bool quoted = false;
    for (const uint8_t *at = csv->next; at < csv->end && (quoted || *at != '\n'); at++) {
        quoted ^= *at == '"';
        if (!quoted && (*at == ',' || *at == ';' || *at == '\t'))
            return *at;
    }
    return ',';
}

/* Spaces around it do not count. */
static bool has_name(struct bytes field, const char *name)
{
    while (field.len > 0 && field.at[field.len - 1] == ' ')
        field.len--;
    while (field.len > 0 && field.at[0] == ' ')
        field.at++, field.len--;
    return field.len == strlen(name) && strncasecmp((const char *)field.at, name, field.len) == 0;
}

/*
 * Whether a name has the same letters, whatever is between and after them, or lacks only the s
 * at the end.
 */
static bool resembles(struct bytes field, const char *name)
{
    size_t i = 0;
    for (; *name != '\0'; name++) {
        if (!isalpha((unsigned char)*name))
            continue;
        while (i < field.len && !isalpha(field.at[i]))
            i++;
        if (i == field.len)
            return strcmp(name, "s") == 0;
        if (tolower(field.at[i++]) != *name)
            return false;
    }
    return true;
}

/* A misspelt column that may be absent would go unnoticed, and another book be made. */
static void refuse_misspelt(const struct csv *csv, const char *name)
{
    for (size_t i = 0; i < csv->field_count; i++)
        if (resembles(csv->fields[i], name))
            fail("%s, line 1: the column %s is not known; if it is meant as \"%s\", name it so",
                 csv->name, shown_field(csv->fields[i]), name);
}

/* The text may be anything, a key too: nothing of it is shown. */
static void refuse_without(const struct csv *csv, const char *const *columns, size_t count,
                           size_t column)
{
    char names[128] = "";
    for (size_t i = 0; i < count; i++)
        snprintf(names + strlen(names), sizeof names - strlen(names), "%s%s", i > 0 ? "," : "",
                 columns[i]);
    fail("%s, line 1: there is no column \"%s\" in the header; the columns are %s", csv->name,
         columns[column], names);
}

/* Where the column is, or that it is absent. */
static void find_column(struct csv *csv, const char *const *columns, size_t column)
{
    csv->place[column] = ABSENT;
    for (size_t i = 0; i < csv->field_count; i++)
        if (has_name(csv->fields[i], columns[column])) {
            if (csv_has(csv, column))
                fail("%s, line 1: there is more than one column \"%s\"", csv->name,
                     columns[column]);
            csv->place[column] = i;
        }
}

static void warn_of_others(const struct csv *csv, size_t count)
{
    for (size_t i = 0; i < csv->field_count; i++) {
        bool used = false;
        for (size_t column = 0; column < count; column++)
            used |= csv->place[column] == i;
        if (!used)
            warn("%s, line 1: the column %s is not used", csv->name, shown_field(csv->fields[i]));
    }
}

bool is_utf16(struct bytes text)
{
    return text.len >= 2 &&
           (memcmp(text.at, "\xff\xfe", 2) == 0 || memcmp(text.at, "\xfe\xff", 2) == 0);
}

/* What a text begins with that is no CSV of bytes. */
static void refuse_other_kinds(struct bytes text, const char *name)
{
    if (text.len >= 2 && (text.at[0] == PLANBOOK_CLEAR || text.at[0] == PLANBOOK_SEALED) &&
        text.at[1] == 0)
        fail("%s is a %s book, and a plan (CSV) is needed here", name,
             text.at[0] == PLANBOOK_SEALED ? "sealed" : "clear");
    if (is_utf16(text))
        fail("%s is UTF-16 text: save it as CSV in UTF-8", name);
}

void csv_begin(struct csv *csv, struct bytes text, const char *name, const char *const *columns,
               size_t count, size_t needed)
{
    static const uint8_t mark[] = {0xef, 0xbb, 0xbf};
    refuse_other_kinds(text, name);
    *csv = (struct csv){.name = name, .next = text.at, .end = text.at + text.len, .next_line = 1};
    if (text.len >= sizeof mark && memcmp(text.at, mark, sizeof mark) == 0)
        csv->next += sizeof mark;
    csv->separator = find_separator(csv);
    if (!take_line(csv))
        fail("%s, line 1: the file is empty, but a header is expected that names its columns",
             name);
    if (csv->fault != NULL || csv->field_count > MAX_COLUMNS)
        fail("%s, line 1: %s", name,
             csv->fault != NULL ? csv->fault : "there are more than 256 columns");
    csv->column_count = csv->field_count;
    for (size_t column = 0; column < count; column++) {
        find_column(csv, columns, column);
        if (!csv_has(csv, column) && column < needed)
            refuse_without(csv, columns, count, column);
        if (!csv_has(csv, column))
            refuse_misspelt(csv, columns[column]);
    }
    warn_of_others(csv, count);
}

void csv_print_header(struct text *text, const char *const *columns, size_t count)
{
    for (size_t i = 0; i < count; i++)
        text_print(text, "%s%s", columns[i], i + 1 < count ? "," : "\n");
}
