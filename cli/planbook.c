/*
 * The command planbook: its verbs. The manual page is planbook.1. Each of these files has a header
 * of its name:
 *
 *   arguments.c   the command line: options, operands, help
 *   verbs.c       what each verb does
 *   messages.c    messages and exit statuses
 *   memory.c      memory that is wiped before it is given back
 *   inputs.c      files read
 *   outputs.c     files written, which appear whole or not at all
 *   key.c         keys from files, hexadecimal digits, and random bytes
 *   book.c        a book's parts
 *   library.c     the calls of the library
 *   refusals.c    what the library refuses, in the words of the user's plan
 *   csv.c         lines and fields of a CSV text
 *   lines.c       the lines of a plan and of a file of trials, sorted
 *   trials.c      the file of trials: start blocks and numbers of replicates
 *   plan.c        plans as CSV become books, and books plans
 *   text.c        text in memory
 *   tables.c      books as tables for people
 *   json.c        books as JSON
 *
 * The command runs once and ends, so an error anywhere prints its message and exits. What must be
 * undone then is undone by the two functions that memory.c and outputs.c have registered for the
 * exit.
 */
#include "arguments.h"
#include "memory.h"
#include "outputs.h"
#include "verbs.h"

#define KEYS [KEY] = true, [KEY_HEX] = true

/* What is not said of a verb is 0: it needs no key, and all of its operands may be absent. */
static const struct verb verbs[] = {
    {
        .name = "keygen",
        .operands = "FILE",
        .summary = "Makes a new key",
        .run = run_keygen,
        .takes = {[BITS] = true},
        .least_operands = 1,
        .most_operands = 1,
    },
    {
        .name = "check",
        .operands = "[PLAN]",
        .summary = "Reports all that is wrong with a plan, and writes nothing",
        .run = run_check,
        .takes = {[TRIALS] = true},
        .most_operands = 1,
    },
    {
        .name = "seal",
        .operands = "[PLAN | CLEAR [SEALED]]",
        .summary = "Seals a plan (CSV) or a clear book",
        .run = run_seal,
        .takes = {KEYS, [WAY] = true, [TRIALS] = true, [FORCE] = true},
        .needs_key = ANY_KEY,
        .most_operands = 2,
    },
    {
        .name = "open",
        .operands = "[SEALED [PLAN | CLEAR]]",
        .summary = "Opens a sealed book, to a plan (CSV) or a clear book",
        .run = run_open,
        .takes = {KEYS, [WAY] = true, [TRIALS] = true, [CSV] = true, [FORCE] = true},
        .needs_key = ITS_OWN_KEY,
        .most_operands = 2,
    },
    {
        .name = "show",
        .operands = "[BOOK [TEXT]]",
        .summary = "Prints what can be read in a book: with its key, a sealed one too",
        .run = run_show,
        .takes = {KEYS, [JSON] = true, [FORCE] = true},
        .most_operands = 2,
    },
    {
        .name = "labels",
        .operands = "[SEALED [TEXT]]",
        .summary = "Prints the labels of a sealed book: trial, place, sealed record",
        .run = run_labels,
        .takes = {[JSON] = true, [FORCE] = true},
        .most_operands = 2,
    },
    {
        .name = "find",
        .operands = "SEALED LABEL | SEALED TRIAL PLACE",
        .summary = "Says what is in one plot of a sealed book",
        .run = run_find,
        .takes = {KEYS, [JSON] = true},
        .needs_key = ITS_OWN_KEY,
        .least_operands = 2,
        .most_operands = 3,
    },
    {
        .name = "pack",
        .operands = "[PLAN [CLEAR]]",
        .summary = "Makes a clear book from a plan",
        .run = run_pack,
        .takes = {[TRIALS] = true, [FORCE] = true},
        .most_operands = 2,
    },
    {
        .name = "unpack",
        .operands = "[CLEAR [PLAN]]",
        .summary = "Makes the plan from a clear book",
        .run = run_unpack,
        .takes = {[TRIALS] = true, [FORCE] = true},
        .most_operands = 2,
    },
    {
        .name = "page",
        .operands = "[CLEAR [TEXT]]",
        .summary = "Prints the planting page of one sheet of a clear book",
        .run = run_page,
        .takes = {[SHEET] = true, [FORCE] = true},
        .most_operands = 2,
    },
    {
        .name = "note",
        .operands = "[NOTE [OUT]]",
        .summary = "Seals a note, or opens a sealed one, from its counter block",
        .run = run_note,
        .takes = {KEYS, [COUNTER] = true, [WAY] = true, [FORCE] = true},
        .needs_key = ITS_OWN_KEY,
        .most_operands = 2,
    },
};

#define VERBS (sizeof verbs / sizeof *verbs)

int main(int argc, char **argv)
{
    memory_prepare();
    outputs_prepare();
    if (argc < 2)
        fail_without_verb(verbs, VERBS);
    struct arguments given = {{NULL}, {NULL}};
    const struct verb *verb = read_arguments(verbs, VERBS, argv + 1, &given);
    if (verb != NULL)
        verb->run(&given);
    return 0;
}
