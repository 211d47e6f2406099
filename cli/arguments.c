/* The command line. Usage and help are made from the same tables that the options are read by. */
#include "arguments.h"

#include "messages.h"
#include "outputs.h"
#include "text.h"
#include "planbook.h"

#include <stdio.h>
#include <stdlib.h>
#include <string.h>

struct option_text {
    const char *name;
    const char *value; /* null for an option without one */
    const char *meaning;
};

static const struct option_text options[OPTIONS] = {
    [KEY] = {"--key", "FILE", "the key: 16, 24 or 32 raw bytes, as keygen makes them"},
    [KEY_HEX] = {"--key-hex", "FILE",
                 "the key in hexadecimal, with or without one line feed at the end"},
    [COUNTER] = {"--counter", "HEX",
                 "the note's counter block, 32 hexadecimal digits; each sealing needs another one"},
    [WAY] = {"--way", "N",
             "1 byte tables, 2 word tables (default), 3 S-boxes computed; the result is the same"},
    [TRIALS] = {"--trials", "CSV", "the trials' numbers of replicates and start blocks"},
    [SHEET] = {"--sheet", "N",
               "the sheet of the page, 0 (default) for the first; show lists them in their order"},
    [BITS] = {"--bits", "N", "the length of the new key: 128 (default), 192 or 256"},
    [CSV] = {"--csv", NULL, "give the plan as CSV; a name that ends in .csv does that by itself"},
    [JSON] = {"--json", NULL, "give JSON, for other programs"},
    [FORCE] = {"--force", NULL, "replace an existing output, whose mode stays"},
};

/* Help */

static void print_synopsis(struct text *to, const struct verb *verb)
{
    text_print(to, "planbook %s", verb->name);
    if (verb->takes[KEY])
        text_print(to, verb->needs_key != NO_KEY ? " --key FILE | --key-hex FILE"
                                                 : " [--key FILE | --key-hex FILE]");
    if (verb->takes[COUNTER])
        text_print(to, " %s %s", options[COUNTER].name, options[COUNTER].value);
    for (size_t i = WAY; i < OPTIONS; i++)
        if (verb->takes[i])
            text_print(to, " [%s%s%s]", options[i].name, options[i].value != NULL ? " " : "",
                       options[i].value != NULL ? options[i].value : "");
    text_print(to, " %s\n", verb->operands);
}

static void print_options(struct text *to, const bool *takes)
{
    for (size_t i = 0; i < OPTIONS; i++)
        if (takes == NULL || takes[i])
            text_print(to, "  %-9s %-5s %s\n", options[i].name,
                       options[i].value != NULL ? options[i].value : "", options[i].meaning);
}

static void print_usage(struct text *to, const struct verb *verbs, size_t count)
{
    for (size_t i = 0; i < count; i++) {
        text_print(to, "%s", i == 0 ? "usage: " : "       ");
        print_synopsis(to, &verbs[i]);
    }
    text_print(to, "       planbook help [VERB] | --help | --version\n\n");
    for (size_t i = 0; i < count; i++)
        text_print(to, "  %-7s %s\n", verbs[i].name, verbs[i].summary);
    text_print(to, "\nA file that is not named, or named -, is standard input or output.\n\n");
    print_options(to, NULL);
    text_print(to, "\nExit status: 0 done; 1 refused by the library, with the check's number, or\n"
                   "nothing found; 2 wrong usage, or a file error. The manual page says more:\n"
                   "man planbook.\n");
}

static void write_and_release(struct text *text)
{
    struct output output = {NULL, text_end(text), false, KEEP};
    write_outputs(&output, 1);
    release(&output.bytes);
}

static void help(const struct verb *verbs, size_t count)
{
    struct text text = {{NULL, 0}, 0};
    print_usage(&text, verbs, count);
    write_and_release(&text);
}

static void help_with(const struct verb *verb)
{
    struct text text = {{NULL, 0}, 0};
    text_print(&text, "usage: ");
    print_synopsis(&text, verb);
    text_print(&text, "\n%s.\n\n", verb->summary);
    print_options(&text, verb->takes);
    write_and_release(&text);
}

void fail_without_verb(const struct verb *verbs, size_t count)
{
    struct text text = {{NULL, 0}, 0};
    print_usage(&text, verbs, count);
    fwrite(text.room.at, 1, text.len, stderr);
    exit(STATUS_ERROR);
}

static void print_version(void)
{
    struct text text = {{NULL, 0}, 0};
    text_print(&text, "planbook %s\n", PLANBOOK_VERSION);
    write_and_release(&text);
}

/* Reading */

static const struct verb *find_verb(const struct verb *verbs, size_t count, const char *name)
{
    for (size_t i = 0; i < count; i++)
        if (strcmp(verbs[i].name, name) == 0)
            return &verbs[i];
    fail("%s is not a verb; planbook help lists them", shown(name));
}

static bool asks_for_help(const char *argument)
{
    return strcmp(argument, "--help") == 0 || strcmp(argument, "-h") == 0;
}

/*
 * An option by its name. The file of trials had start blocks alone once, and the option's name of
 * that time is still taken.
 */
static size_t find_option(const char *name, size_t len)
{
    static const char former[] = "--starts";
    if (len == strlen(former) && memcmp(former, name, len) == 0)
        return TRIALS;
    size_t i = 0;
    while (i < OPTIONS &&
           (strlen(options[i].name) != len || memcmp(options[i].name, name, len) != 0))
        i++;
    return i;
}

/*
 * Options are written out whole, with the value after = or as the next argument. Answers how many
 * arguments were taken.
 */
static int take_option(const struct verb *verb, struct arguments *given, char **argv)
{
    const char *equals = strchr(argv[0], '=');
    size_t len = equals != NULL ? (size_t)(equals - argv[0]) : strlen(argv[0]);
    size_t i = find_option(argv[0], len);
    if (i == OPTIONS || !verb->takes[i])
        fail("%s has no option %s; planbook %s --help lists them", verb->name, shown(argv[0]),
             verb->name);
    if (given->value[i] != NULL)
        fail("%s is given twice", options[i].name);
    if (options[i].value == NULL && equals != NULL)
        fail("%s takes no value", options[i].name);
    given->value[i] = options[i].value == NULL ? "" : equals != NULL ? equals + 1 : argv[1];
    if (given->value[i] == NULL)
        fail("%s needs a value: %s", options[i].name, options[i].value);
    return options[i].value == NULL || equals != NULL ? 1 : 2;
}

static void expect_key(const struct verb *verb, const struct arguments *given)
{
    if (given->value[KEY] != NULL && given->value[KEY_HEX] != NULL)
        fail("--key and --key-hex are both given, but a key is read from one file");
    if (verb->needs_key != NO_KEY && given->value[KEY] == NULL && given->value[KEY_HEX] == NULL)
        fail("%s needs a key, by either --key or --key-hex%s", verb->name,
             verb->needs_key == ANY_KEY ? "; planbook keygen makes one" : "");
}

static void expect_counter(const struct verb *verb, const struct arguments *given)
{
    if (verb->takes[COUNTER] && given->value[COUNTER] == NULL)
        fail("%s needs a counter block, by --counter: for a new note 32 hexadecimal digits that "
             "were never used under its key, for a sealed note those that it was sealed from",
             verb->name);
}

/* The arguments after the verb. Answers false where they ask for help. */
static bool read_rest(const struct verb *verb, char **argv, struct arguments *given)
{
    size_t count = 0;
    bool options_end = false;
    while (*argv != NULL) {
        bool is_option = !options_end && argv[0][0] == '-' && argv[0][1] != '\0';
        if (is_option && asks_for_help(*argv))
            return false;
        if (is_option && strcmp(*argv, "--") == 0) {
            options_end = true;
            argv++;
        } else if (is_option) {
            argv += take_option(verb, given, argv);
        } else {
            if (count == verb->most_operands)
                fail("%s is one operand too many: %s takes %s", shown(*argv), verb->name,
                     verb->operands);
            given->operands[count++] = *argv++;
        }
    }
    expect_key(verb, given);
    expect_counter(verb, given);
    if (count < verb->least_operands)
        fail("%s needs more operands: %s", verb->name, verb->operands);
    return true;
}

static void expect_end(char **argv)
{
    if (argv[1] != NULL)
        fail("%s is one operand too many after %s", shown(argv[1]), shown(argv[0]));
}

/* What is no verb of the table. Answers whether the first argument was that. */
static bool answer_about_command(const struct verb *verbs, size_t count, char **argv)
{
    bool is_help = strcmp(argv[0], "help") == 0, is_version = strcmp(argv[0], "--version") == 0;
    if (!is_help && !is_version && !asks_for_help(argv[0]))
        return false;
    bool about_verb = is_help && argv[1] != NULL;
    expect_end(argv + about_verb);
    if (is_version)
        print_version();
    else if (about_verb)
        help_with(find_verb(verbs, count, argv[1]));
    else
        help(verbs, count);
    return true;
}

const struct verb *read_arguments(const struct verb *verbs, size_t count, char **argv,
                                  struct arguments *given)
{
    if (answer_about_command(verbs, count, argv))
        return NULL;
    const struct verb *verb = find_verb(verbs, count, argv[0]);
    if (read_rest(verb, argv + 1, given))
        return verb;
    help_with(verb);
    return NULL;
}
