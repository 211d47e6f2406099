/* Lines and fields of a CSV text. */
#ifndef PLANBOOK_CLI_CSV_H
#define PLANBOOK_CLI_CSV_H

#include <stdbool.h>
#include <stddef.h>
#include <stdint.h>

#include "memory.h"
#include "text.h"

#define MAX_COLUMNS 256
#define MAX_USED_COLUMNS 5

struct csv {
    const char *name;
    uint8_t *next, *end; /* what is still to be read */
    size_t line;         /* the number of the current line, from 1 */
    size_t next_line;    /* the number of the one after it, which may be some lines on */
    size_t empty_line;   /* an empty line before the current one, or 0 */
    uint8_t separator;
    const char *fault; /* what is wrong with the form of the current line, or null */
    size_t field_count, column_count;
    struct bytes fields[MAX_COLUMNS];
    size_t place[MAX_USED_COLUMNS]; /* where the used columns are in a line */
};

/*
 * Begins with the header, in which each of the columns has its name; those after the first needed
 * ones may be absent. The text is changed where quotes are undone.
 */
void csv_begin(struct csv *csv, struct bytes text, const char *name, const char *const *columns,
               size_t count, size_t needed);

/* Whether a column is there. */
bool csv_has(const struct csv *csv, size_t column);

/* Steps to the next line that can be used, and reports those that cannot. False at the end. */
bool csv_next(struct csv *csv);

/* A field of the current line, by the number of its column in csv_begin's list. */
struct bytes csv_field(const struct csv *csv, size_t column);

/*
 * The decimal number that a field is. One that is none, or above the most, is reported: the title
 * is what the number is called, and named is the greatest number that the message names. What is
 * between the two is for others to refuse.
 */
bool csv_take_number(const struct csv *csv, size_t column, const char *title, uint32_t most,
                     uint32_t named, uint32_t *number);

/* The header that names these columns. */
void csv_print_header(struct text *text, const char *const *columns, size_t count);

/* Whether a text says that it is UTF-16, which is not read. */
bool is_utf16(struct bytes text);

#endif
