/*
 * Messages go to standard error, one line each, with the command's name before them. From there
 * they get into logs and screenshots, so none may show a key or a clear record, which may have been
 * given by mistake for something else. This is the rule for all that a message shows of what the
 * user has given:
 *
 * - Of a file nothing is shown before it is known to be what it should be. Fields are shown of a
 *   CSV text whose header has all columns that it needs, and numbers of a book that begins as a
 *   book does.
 * - Of such a field, and of an argument of the command line, nothing is shown if it may be a key:
 *   if it has 16 hexadecimal digits in a row, which are half of the shortest key, or bytes that are
 *   no printable text, as raw keys have.
 * - Counter blocks, labels and start blocks are written like a key, and are never shown. A number
 *   that could be read as one is shown: it has at most 20 digits, and a key at least 32.
 *
 * What is not shown is described: by its file, line and column, or by what is wrong with it. Since
 * only printable text is shown, a message cannot move the cursor or pretend to be two.
 */
#define _DEFAULT_SOURCE
#include "messages.h"

#include "key.h"
#include "planbook.h"

#include <stdarg.h>
#include <stdbool.h>
#include <stdio.h>
#include <stdlib.h>
#include <string.h>

#define MOST_PRINTED 20 /* faults, and warnings */
#define MOST_SHOWN 40   /* bytes of a field */
#define MOST_DIGITS 15  /* hexadecimal ones in a row */

static const char not_shown[] = "(not shown, since it may be a key)";

/* In this group, and in all. */
static size_t warnings, faults, all_faults, all_faults_of_form;

/*
 * The bytes of the character here, in UTF-8; 0 where there is none that can be printed. 80 to 9f
 * are control characters too.
 */
static size_t character_length(const uint8_t *at, size_t left)
{
    if (at[0] < 0x80)
        return at[0] >= 0x20 && at[0] < 0x7f;
    size_t len = at[0] < 0xc2 ? 0 : at[0] < 0xe0 ? 2 : at[0] < 0xf0 ? 3 : at[0] < 0xf5 ? 4 : 0;
    if (len > left)
        return 0;
    for (size_t i = 1; i < len; i++)
        if (at[i] < 0x80 || at[i] > 0xbf)
            return 0;
    return at[0] == 0xc2 && at[1] < 0xa0 ? 0 : len;
}

/* Spaces and colons between the digits do not count. */
static bool may_be_key(struct bytes text)
{
    size_t digits = 0;
    for (size_t i = 0; i < text.len;) {
        size_t len = character_length(text.at + i, text.len - i);
        if (hex_digit(text.at[i]) >= 0)
            digits++;
        else if (text.at[i] != ' ' && text.at[i] != ':')
            digits = 0;
        if (len == 0 || digits == MOST_DIGITS + 1)
            return true;
        i += len;
    }
    return false;
}

const char *shown(const char *argument)
{
    struct bytes text = {(uint8_t *)argument, strlen(argument)};
    return may_be_key(text) ? not_shown : argument;
}

const char *shown_field(struct bytes field)
{
    static char text[MOST_SHOWN + 8];
    size_t len = field.len <= MOST_SHOWN ? field.len : MOST_SHOWN;
    if (may_be_key(field))
        return not_shown;
    while (len < field.len && (field.at[len] & 0xc0) == 0x80) /* within a character */
        len--;
    snprintf(text, sizeof text, "\"%.*s%s\"", (int)len, (const char *)field.at,
             len < field.len ? ".." : "");
    return text;
}

static void print_message(const char *kind, uint32_t check, const char *format, va_list arguments)
{
    static char text[8192];
    char bracket[32] = "";
    vsnprintf(text, sizeof text, format, arguments);
    if (check != PLANBOOK_ACCEPTED)
        snprintf(bracket, sizeof bracket, " [check %u]", (unsigned)check);
    fprintf(stderr, "planbook: %s%s%s\n", kind, text, bracket);
    explicit_bzero(text, sizeof text); /* fields of a plan may have been in it */
}

void fail(const char *format, ...)
{
    va_list arguments;
    va_start(arguments, format);
    print_message("", PLANBOOK_ACCEPTED, format, arguments);
    va_end(arguments);
    exit(STATUS_ERROR);
}

void refuse(uint32_t check, const char *format, ...)
{
    va_list arguments;
    va_start(arguments, format);
    print_message("", check, format, arguments);
    va_end(arguments);
    exit(STATUS_REFUSED);
}

void warn(const char *format, ...)
{
    va_list arguments;
    va_start(arguments, format);
    if (warnings++ < MOST_PRINTED)
        print_message("warning: ", PLANBOOK_ACCEPTED, format, arguments);
    va_end(arguments);
}

void report(uint32_t check, const char *format, ...)
{
    va_list arguments;
    va_start(arguments, format);
    all_faults++;
    all_faults_of_form += check == PLANBOOK_ACCEPTED;
    if (faults++ < MOST_PRINTED)
        print_message("", check, format, arguments);
    va_end(arguments);
}

size_t reported(void)
{
    return all_faults;
}

void end_group(void)
{
    if (faults > MOST_PRINTED)
        fprintf(stderr, "planbook: and %s more faults\n", grouped(faults - MOST_PRINTED));
    if (warnings > MOST_PRINTED)
        fprintf(stderr, "planbook: warning: and %s more warnings\n",
                grouped(warnings - MOST_PRINTED));
    faults = warnings = 0;
}

void end_reports(void)
{
    end_group();
    if (all_faults > 0)
        exit(all_faults_of_form > 0 ? STATUS_ERROR : STATUS_REFUSED);
}

const char *grouped(size_t number)
{
    static char texts[4][32];
    static size_t next;
    char *to = texts[next++ % 4] + sizeof *texts - 1;
    *to = '\0';
    for (size_t digits = 0; digits == 0 || number > 0; digits++, number /= 10) {
        if (digits > 0 && digits % 3 == 0)
            *--to = ',';
        *--to = (char)('0' + number % 10);
    }
    return to;
}
