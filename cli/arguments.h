/* The command line: options, operands and help. */
#ifndef PLANBOOK_CLI_ARGUMENTS_H
#define PLANBOOK_CLI_ARGUMENTS_H

#include <stdbool.h>
#include <stddef.h>

enum option { KEY, KEY_HEX, COUNTER, WAY, TRIALS, SHEET, BITS, CSV, JSON, FORCE, OPTIONS };

#define MAX_OPERANDS 3

/* The value of each option given, and the operands. What is not given is null. */
struct arguments {
    const char *value[OPTIONS];
    const char *operands[MAX_OPERANDS];
};

/* For a new book a key can be made. An old book or note needs its own. */
enum key_need { NO_KEY, ITS_OWN_KEY, ANY_KEY };

struct verb {
    const char *name;
    const char *operands; /* as the usage shows them */
    const char *summary;
    void (*run)(const struct arguments *given);
    bool takes[OPTIONS]; /* a counter block is needed where it is taken */
    enum key_need needs_key;
    size_t least_operands, most_operands;
};

/* The verb and its arguments. Where help is asked for instead, prints it and answers null. */
const struct verb *read_arguments(const struct verb *verbs, size_t count, char **argv,
                                  struct arguments *given);

/* The usage of all verbs, for a command line without a verb. */
void fail_without_verb(const struct verb *verbs, size_t count) __attribute__((noreturn));

#endif
