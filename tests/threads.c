/*
 * Many threads at once: every call by every way, from inputs that all threads
 * share into an output of each thread's own, held against the reference. Most
 * calls with words are given the same ones, in memory that cannot be written.
 * Built with the thread sanitizer it watches the code in C only, since the
 * library is not built with it.
 *
 *   threads [SEED [SHORTER]]
 */
#define _DEFAULT_SOURCE

#include "compare.h"
#include "library.h"
#include "planbook.h"

#include <inttypes.h>
#include <pthread.h>
#include <stdio.h>
#include <stdlib.h>
#include <string.h>
#include <sys/mman.h>

enum {
    THREADS = 8,
    CASES = 12, /* of each call by each way */
    ALL_CASES = CALLS * WAYS * CASES,
    ROUNDS = 5,   /* of each thread through all cases */
    REPEATS = 20, /* of a case in a round, but for the longest books and notes */
    PATTERN = 165
};

/* A call, and what must come of it. */
typedef struct {
    test_case c;
    int repeats;
    uint64_t answer;
    uint8_t output[MAX_OUTPUT];
} known_case;

typedef struct {
    pthread_t thread;
    size_t first; /* the case that this thread begins with */
    uint64_t rounds;
    const known_case *wrong; /* the call that went another way, or none */
    uint8_t output[MAX_OUTPUT];
} worker;

static known_case cases[ALL_CASES];
static worker workers[THREADS];
static pthread_barrier_t start;

/* The words that all threads use, of a key of each length, expanded by the library. */
enum { SHARED_ROOM = 1024 };
static uint8_t *shared[3];

static void share_words(void)
{
    uint8_t key[32];
    uint8_t *room =
        mmap(NULL, 3 * SHARED_ROOM, PROT_READ | PROT_WRITE, MAP_PRIVATE | MAP_ANONYMOUS, -1, 0);
    if (room == MAP_FAILED)
        fail("no memory for words");
    random_fill(&random_source, key, sizeof key);
    for (size_t i = 0; i < 3; i++) {
        size_t key_len = 16 + 8 * i;
        size_t words_len = planbook_expanded_length(key_len);
        shared[i] = room + SHARED_ROOM * i;
        if (check_of(planbook_expand_key(key, key_len, 1 + i, shared[i], words_len)) != 0)
            fail("a key of %zu bytes is not expanded", key_len);
    }
    if (mprotect(room, 3 * SHARED_ROOM, PROT_READ) != 0)
        fail("mprotect refuses");
}

/* Seals the clear book of a case that opens one. */
static void seal_input(test_case *c)
{
    static uint8_t clear[MAX_INPUT];
    memcpy(clear, c->input, c->in.input_len);
    seal_by_reference(c->in.secret, c->in.secret_len, clear, c->in.input_len, c->input);
}

/* Puts the longest book or note in a case's place; a book is clear. */
static void make_longest(test_case *c)
{
    static const book_shape shape = {5, {1021, 1021, 1021, 1021, 4}};
    if (c->in.kind == CALL_CRYPT_NOTE) {
        c->in.input_len = c->in.out_len = MAX_NOTE_LENGTH;
        random_fill(&random_source, c->input, MAX_NOTE_LENGTH);
        return;
    }
    c->in.input_len = make_clear_book(&random_source, &shape, c->input);
    c->in.sheet %= shape.sheets;
    c->in.out_len = reference_output_length(&c->in);
}

/* An accepted case, with the words that are shared where it has words. */
static void make_shared_case(test_case *c, call_kind kind, int number, int longest)
{
    size_t i = (size_t)number % 3;
    int opening = kind == CALL_DECRYPT_BOOK;
    make_case(&random_source, opening ? CALL_ENCRYPT_BOOK : kind, 0, c);
    c->in.kind = kind;
    if (longest)
        make_longest(c);
    if (call_has_words(kind)) {
        c->in.secret = shared[i];
        c->in.secret_len = planbook_expanded_length(16 + 8 * i);
    }
    if (opening)
        seal_input(c);
}

static void know_case(known_case *k, call_kind kind, uint64_t way, int number)
{
    k->repeats = number == 0 && call_is_long(kind) ? 1 : REPEATS;
    if (number % 4 == 3)
        make_changed_case(&random_source, kind, &k->c);
    else
        make_shared_case(&k->c, kind, number, k->repeats == 1);
    k->c.in.way = way;
    memset(k->output, PATTERN, k->c.in.out_len);
    k->answer = reference_call(&k->c.in, k->output).answer;
}

/* Returns how many of the cases are refused. */
static unsigned know_cases(void)
{
    unsigned refused = 0;
    known_case *k = cases;
    for (int kind = 0; kind < CALLS; kind++)
        for (uint64_t way = 1; way <= WAYS; way++)
            for (int number = 0; number < CASES; number++, k++) {
                know_case(k, (call_kind)kind, way, number);
                refused += check_of(k->answer) != 0;
            }
    return refused;
}

static int goes_the_same(worker *w, const known_case *k)
{
    size_t len = k->c.in.out_len;
    memset(w->output, PATTERN, len);
    return library_call(&k->c.in, w->output) == k->answer && memcmp(w->output, k->output, len) == 0;
}

static void *work(void *argument)
{
    worker *w = argument;
    pthread_barrier_wait(&start);
    for (uint64_t i = 0; i < w->rounds * ALL_CASES; i++) {
        const known_case *k = &cases[(w->first + i) % ALL_CASES];
        for (int repeat = 0; repeat < k->repeats; repeat++)
            if (!goes_the_same(w, k)) {
                w->wrong = k;
                return NULL;
            }
    }
    return NULL;
}

static void run_workers(void)
{
    if (pthread_barrier_init(&start, NULL, THREADS) != 0)
        fail("no barrier");
    for (size_t t = 0; t < THREADS; t++) {
        /* near each other, so that two that run at once are mostly in one call, by other cases */
        workers[t].first = 3 * t;
        workers[t].rounds = scaled(ROUNDS);
        if (pthread_create(&workers[t].thread, NULL, work, &workers[t]) != 0)
            fail("no thread");
    }
    for (size_t t = 0; t < THREADS; t++)
        if (pthread_join(workers[t].thread, NULL) != 0)
            fail("a thread is lost");
}

int main(int argc, char **argv)
{
    unsigned refused;
    start_test("threads", argc, argv);
    share_words();
    refused = know_cases();
    run_workers();
    for (size_t t = 0; t < THREADS; t++)
        if (workers[t].wrong != NULL)
            fail_call(&workers[t].wrong->c.in, "threads",
                      "another answer or output than the reference has");
    printf("threads: %d threads, each %" PRIu64
           " times through %d accepted and %u refused calls by %d ways, with words that all "
           "share\n",
           THREADS, scaled(ROUNDS), ALL_CASES - (int)refused, refused, WAYS);
    printf("threads: passed\n");
    return 0;
}
