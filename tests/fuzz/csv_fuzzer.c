// sources: cli/csv.c cli/lines.c cli/trials.c cli/plan.c cli/text.c cli/memory.c cli/book.c
// sources: cli/library.c cli/refusals.c cli/key.c cli/inputs.c
/*
 * A libFuzzer target: a plan, and after a form feed perhaps a file of trials, are packed as the
 * command packs them. What is accepted must come back from the book as a plan that makes the same
 * book again, and the library must accept it.
 *
 * The command ends at an error. Here its messages are made all the same, go nowhere, and end the
 * run by a jump.
 */
#include <setjmp.h>
#include <stdarg.h>
#include <stdio.h>
#include <stdlib.h>
#include <string.h>

static jmp_buf end_of_run;
static FILE *nowhere;

static void leave(void) __attribute__((noreturn));
static void leave(void)
{
    longjmp(end_of_run, 1);
}

#undef _DEFAULT_SOURCE
#define exit(status) leave()
#undef stderr
#define stderr nowhere
#include "../../cli/messages.c"
#undef exit
#undef stderr

#include "../../cli/library.h"
#include "../../cli/plan.h"
#include "../../cli/trials.h"

int LLVMFuzzerTestOneInput(const uint8_t *data, size_t len);

static struct bytes copy(const uint8_t *at, size_t len)
{
    struct bytes bytes = new_bytes(len);
    if (len > 0)
        memcpy(bytes.at, at, len);
    return bytes;
}

static void demand(int holds, const char *what)
{
    if (!holds) {
        fputs(what, stdout);
        fflush(stdout);
        abort();
    }
}

/* All that the reader and the writer must agree on. */
static void pack_and_unpack(const uint8_t *data, size_t len)
{
    const uint8_t *feed = len == 0 ? NULL : memchr(data, '\f', len);
    struct bytes plan = copy(data, feed != NULL ? (size_t)(feed - data) : len), trials = {NULL, 0};
    if (feed != NULL)
        trials = copy(feed + 1, (size_t)(data + len - feed - 1));
    struct bytes book =
        pack_plan(plan, "plan.csv", feed != NULL ? &trials : NULL, "trials.csv", AS_GIVEN);
    demand(check_clear_book(book) == PLANBOOK_ACCEPTED, "the library refuses the book\n");
    demand(reported() == 0, "a book is made in spite of faults\n");
    struct bytes plan_again = unpack_plan(book), trials_again = unpack_trials(book);
    struct bytes again = pack_plan(plan_again, "plan.csv", &trials_again, "trials.csv", AS_GIVEN);
    demand(again.len == book.len && memcmp(again.at, book.at, book.len) == 0,
           "the plan makes another book\n");
}

int LLVMFuzzerTestOneInput(const uint8_t *data, size_t len)
{
    if (nowhere == NULL && (nowhere = fopen("/dev/null", "w")) == NULL)
        return 0;
    warnings = faults = all_faults = all_faults_of_form = 0;
    if (setjmp(end_of_run) == 0)
        pack_and_unpack(data, len);
    release_all();
    return 0;
}
