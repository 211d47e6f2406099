/* Messages and exit statuses. */
#ifndef PLANBOOK_CLI_MESSAGES_H
#define PLANBOOK_CLI_MESSAGES_H

#include <stddef.h>
#include <stdint.h>

#include "memory.h"

enum { STATUS_REFUSED = 1, STATUS_ERROR = 2 };

/* A usage or file error: the message, then exit status 2. */
void fail(const char *format, ...) __attribute__((noreturn, format(printf, 1, 2)));

/* A refusal of the library, or nothing found (check 0): the message, then exit status 1. */
void refuse(uint32_t check, const char *format, ...)
    __attribute__((noreturn, format(printf, 2, 3)));

/* Something to know about; the command goes on. */
void warn(const char *format, ...) __attribute__((format(printf, 1, 2)));

/*
 * A fault of the plan, where more may follow: the message, and the command goes on. The check is
 * that of the library's refusal, or 0 for a fault of form. Of the warnings and of the faults of a
 * group the first 20 are printed, and the rest counted.
 */
void report(uint32_t check, const char *format, ...) __attribute__((format(printf, 2, 3)));

/* How many faults there were. */
size_t reported(void);

/* The end of a group, such as the faults of single lines: says how many were not printed. */
void end_group(void);

/*
 * The end of all groups: if there was a fault, exits with status 2, or 1 where the library refused
 * and the form was good.
 */
void end_reports(void);

/* An argument of the command line as a message shows it, or that it may be a key. */
const char *shown(const char *argument);

/* The same for a field of a CSV text: in quotes, and cut where it is long. One in a message. */
const char *shown_field(struct bytes field);

/* A number with a comma before every three digits. At most four of them in one message. */
const char *grouped(size_t number);

#endif
