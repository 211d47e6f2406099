/* What each verb does. */
#define _POSIX_C_SOURCE 200809L
#include "verbs.h"

#include "book.h"
#include "inputs.h"
#include "json.h"
#include "key.h"
#include "library.h"
#include "messages.h"
#include "outputs.h"
#include "plan.h"
#include "refusals.h"
#include "tables.h"
#include "text.h"
#include "trials.h"

#include <errno.h>
#include <inttypes.h>
#include <stdlib.h>
#include <string.h>
#include <strings.h>
#include <unistd.h>

/*
 * Far above any plan that fits a book, so that one that is too long for a book is refused for that
 * and not here.
 */
#define CSV_LIMIT ((size_t)1 << 20)

/* What the options say */

static struct bytes given_key(const struct arguments *given)
{
    return given->value[KEY] != NULL ? read_key(given->value[KEY])
                                     : read_hex_key(given->value[KEY_HEX]);
}

static const char *key_title(const struct arguments *given)
{
    return input_title(given->value[KEY] != NULL ? given->value[KEY] : given->value[KEY_HEX]);
}

/* A decimal number of up to 64 bits; what it must be is for others to say. */
static uint64_t read_number(const char *what, const char *text)
{
    errno = 0;
    unsigned long long number = strtoull(text, NULL, 10);
    if (errno != 0 || *text == '\0' || text[strspn(text, "0123456789")] != '\0')
        fail("%s takes a number: %s", what, shown(text));
    return number;
}

static uint64_t given_way(const struct arguments *given)
{
    return given->value[WAY] != NULL ? read_number("--way", given->value[WAY])
                                     : PLANBOOK_WAY_WORD_TABLES;
}

static uint64_t given_sheet(const struct arguments *given)
{
    return given->value[SHEET] != NULL ? read_number("--sheet", given->value[SHEET]) : 0;
}

/* Two hexadecimal digits to a byte. How many bytes there must be is for the library to say. */
static struct bytes given_counter(const struct arguments *given)
{
    const char *text = given->value[COUNTER];
    struct bytes digits = {(uint8_t *)text, strlen(text)};
    struct bytes counter = new_bytes(digits.len / 2);
    if (!read_hex(digits, counter.at, counter.len))
        fail("--counter takes %d hexadecimal digits and nothing else: %s",
             2 * PLANBOOK_COUNTER_BYTES, hex_fault(digits));
    return counter;
}

static bool gives_plan(const struct arguments *given)
{
    const char *name = given->operands[1];
    size_t len = name == NULL ? 0 : strlen(name);
    return given->value[CSV] != NULL || (len >= 4 && strcasecmp(name + len - 4, ".csv") == 0);
}

/* Inputs and outputs */

static void expect_no_terminal(const char *output)
{
    if (is_standard(output) && isatty(STDOUT_FILENO))
        fail("books, keys and notes may be any bytes, and do not go to a terminal: name an output "
             "file, or send standard output somewhere else");
}

static enum existing given_force(const struct arguments *given)
{
    return given->value[FORCE] != NULL ? REPLACE : KEEP;
}

static void write_one(const char *name, struct bytes bytes, bool secret, enum existing existing)
{
    struct output output = {name, bytes, secret, existing};
    write_outputs(&output, 1);
    release(&bytes);
}

static struct bytes read_csv(const char *name)
{
    struct bytes text = read_input(name, CSV_LIMIT);
    if (text.len > CSV_LIMIT)
        fail("%s: too long for a plan, above %s bytes", input_title(name), grouped(CSV_LIMIT));
    return text;
}

static struct bytes read_book(const char *name)
{
    return read_input(name, PLANBOOK_MAX_BOOK_BYTES);
}

static struct bytes clear_book(const char *name)
{
    struct bytes book = read_book(name);
    uint32_t check = check_clear_book(book);
    if (check != PLANBOOK_ACCEPTED)
        refuse_clear_book(input_title(name), book, check);
    return book;
}

static struct bytes sealed_book(const char *name)
{
    struct bytes book = read_book(name);
    uint32_t check = check_sealed_book(book);
    if (check != PLANBOOK_ACCEPTED)
        refuse_sealed_book(input_title(name), book, check);
    return book;
}

/* The plan that pack, check and seal are given, with what a file of trials says. */
static struct bytes packed_plan(const struct arguments *given, struct bytes plan,
                                enum start_blocks start_blocks)
{
    const char *name = given->value[TRIALS];
    struct bytes trials = {NULL, 0};
    if (name != NULL)
        trials = read_csv(name);
    struct bytes book = pack_plan(plan, input_title(given->operands[0]),
                                  name != NULL ? &trials : NULL, input_title(name), start_blocks);
    release(&trials);
    return book;
}

/* The plan that unpack and open give, and the file of trials where one is named. */
static void write_plan(const struct arguments *given, struct bytes book)
{
    const char *name = given->value[TRIALS];
    struct output outputs[] = {{given->operands[1], unpack_plan(book), true, given_force(given)},
                               {name, unpack_trials(book), true, given_force(given)}};
    if (name == NULL)
        warn_of_replicates(input_title(given->operands[0]), book);
    write_outputs(outputs, name != NULL ? 2 : 1);
    release(&outputs[0].bytes);
    release(&outputs[1].bytes);
}

static void expect_two_places(const struct arguments *given)
{
    if (given->value[TRIALS] != NULL && is_standard(given->operands[1]) &&
        is_standard(given->value[TRIALS]))
        fail("plan and trials cannot both go to standard output");
}

/*
 * The words of the key given. What the library refuses of key and way is reported, and the key is
 * wiped: only its words are used.
 */
static struct bytes expanded_key(const struct arguments *given, uint64_t way)
{
    struct bytes key = given_key(given);
    struct bytes key_words = new_bytes(planbook_expanded_length(key.len));
    uint32_t check = call_for_words(key, way, key_words);
    if (check == PLANBOOK_CHECK_KEY_LENGTH)
        refuse(check, "the key in %s is %s%s bytes long, not 16, 24 or 32", key_title(given),
               key.len > KEY_FILE_LIMIT ? "more than " : "",
               grouped(key.len > KEY_FILE_LIMIT ? KEY_FILE_LIMIT : key.len));
    if (check == PLANBOOK_CHECK_WAY)
        refuse(check, "--way %" PRIu64 ": the ways are 1, 2 and 3", way);
    if (check !=
        PLANBOOK_ACCEPTED) /* never: but nothing may be sealed under words that were not written */
        refuse(check, "the key in %s: %s", key_title(given), planbook_check_sentence(check));
    release(&key);
    return key_words;
}

/*
 * A call for a book under the key given; what the library refuses of the book is reported by
 * refuse_book.
 */
static struct bytes crypt_book(const struct arguments *given, book_call *call, struct bytes book,
                           void refuse_book(const char *, struct bytes, uint32_t))
{
    uint64_t way = given_way(given);
    struct bytes key_words = expanded_key(given, way);
    struct bytes out = new_bytes(book.len);
    uint32_t check = call_library(call, key_words, way, book, out);
    release(&key_words);
    if (check != PLANBOOK_ACCEPTED)
        refuse_book(input_title(given->operands[0]), book, check);
    return out;
}

/* The same for a note, which is sealed and opened by one call. */
static struct bytes crypt_note(const struct arguments *given, struct bytes counter,
                               struct bytes note)
{
    uint64_t way = given_way(given);
    struct bytes key_words = expanded_key(given, way);
    struct bytes out = new_bytes(note.len);
    uint32_t check = call_for_note(key_words, way, counter, note, out);
    release(&key_words);
    if (check != PLANBOOK_ACCEPTED)
        refuse_note(input_title(given->operands[0]), counter, check);
    return out;
}

static struct bytes opened(const struct arguments *given, struct bytes book)
{
    return crypt_book(given, planbook_decrypt_book, book, refuse_sealed_book);
}

/* Verbs */

void run_keygen(const struct arguments *given)
{
    const char *text = given->value[BITS];
    uint64_t bits = text == NULL ? 8 * PLANBOOK_KEY128_BYTES : read_number("--bits", text);
    if (bits != 8 * PLANBOOK_KEY128_BYTES && bits != 8 * PLANBOOK_KEY192_BYTES &&
        bits != 8 * PLANBOOK_KEY256_BYTES)
        fail("--bits %" PRIu64 ": a key has 128, 192 or 256 bits", bits);
    expect_no_terminal(given->operands[0]);
    write_one(given->operands[0], draw_key((size_t)bits / 8), true, KEEP_KEY);
}

static size_t count_reserve(const struct sheet *sheet)
{
    size_t reserve = 0;
    for (size_t place = 0; place < sheet->count; place++) {
        struct record record = read_record(sheet, place);
        reserve += in_reserve(&record);
    }
    return reserve;
}

/* Plots in reserve are counted, since a spreadsheet may have made zeros of empty cells. */
void run_check(const struct arguments *given)
{
    struct sheet sheets[PLANBOOK_MAX_SHEETS];
    struct bytes plan = read_csv(given->operands[0]);
    struct bytes book = packed_plan(given, plan, AS_GIVEN);
    size_t records = 0, reserve = 0, trials = read_sheets(book, sheets);
    for (size_t i = 0; i < trials; i++) {
        records += sheets[i].count;
        reserve += count_reserve(&sheets[i]);
    }
    struct text text = {{NULL, 0}, 0};
    text_print(&text, "trials %zu, plots %zu, ", trials, records);
    if (reserve > 0)
        text_print(&text, "in reserve %zu, ", reserve);
    text_print(&text, "bytes of the book %zu\n", book.len);
    release(&plan);
    release(&book);
    write_one(NULL, text_end(&text), false, KEEP);
}

void run_seal(const struct arguments *given)
{
    const char *name = given->operands[0];
    expect_no_terminal(given->operands[1]);
    struct bytes book = read_input(name, CSV_LIMIT);
    bool from_plan = is_plan(book);
    if (from_plan) {
        struct bytes plan = book;
        if (plan.len > CSV_LIMIT)
            fail("%s: too long for a plan, above %s bytes", input_title(name), grouped(CSV_LIMIT));
        book = packed_plan(given, plan, ALWAYS_DRAWN);
        release(&plan);
    } else if (given->value[TRIALS] != NULL) {
        fail("%s is not a plan (CSV), and --trials goes with a plan: a book has its trials in its "
             "contents",
             input_title(name));
    }
    struct bytes sealed = crypt_book(given, planbook_encrypt_book, book, refuse_clear_book);
    if (!from_plan)
        warn_of_start_blocks(input_title(name), book);
    release(&book);
    write_one(given->operands[1], sealed, false, given_force(given));
}

void run_open(const struct arguments *given)
{
    bool to_plan = gives_plan(given);
    if (!to_plan && given->value[TRIALS] != NULL)
        fail("--trials goes with a plan: name an output that ends in .csv, or give --csv");
    if (!to_plan)
        expect_no_terminal(given->operands[1]);
    expect_two_places(given);
    struct bytes sealed = read_book(given->operands[0]);
    struct bytes book = opened(given, sealed);
    release(&sealed);
    if (!to_plan) {
        write_one(given->operands[1], book, true, given_force(given));
        return;
    }
    write_plan(given, book);
    release(&book);
}

/*
 * A book that says it is sealed is judged as one, any other as a clear one. With a key it must be a
 * sealed one.
 */
void run_show(const struct arguments *given)
{
    struct bytes book = read_book(given->operands[0]);
    bool with_key = given->value[KEY] != NULL || given->value[KEY_HEX] != NULL;
    if (with_key) {
        struct bytes sealed = book;
        book = opened(given, sealed);
        release(&sealed);
    }
    bool sealed = book.len > 0 && book.at[0] == PLANBOOK_SEALED;
    uint32_t check = sealed ? check_sealed_book(book) : check_clear_book(book);
    if (check != PLANBOOK_ACCEPTED)
        (sealed ? refuse_sealed_book : refuse_clear_book)(input_title(given->operands[0]), book,
                                                          check);
    write_one(given->operands[1],
              (given->value[JSON] != NULL ? show_json : show_table)(book, with_key), !sealed,
              given_force(given));
    release(&book);
}

void run_labels(const struct arguments *given)
{
    struct bytes book = sealed_book(given->operands[0]);
    write_one(given->operands[1], (given->value[JSON] != NULL ? labels_json : labels_table)(book),
              false, given_force(given));
    release(&book);
}

/* A label as a scanner gives it, perhaps with spaces or the end of a line around it. */
static void read_label(const char *text, uint8_t label[PLANBOOK_RECORD_BYTES])
{
    static const char around[] = " \t\r\n";
    text += strspn(text, around);
    size_t len = strlen(text);
    while (len > 0 && strchr(around, text[len - 1]) != NULL)
        len--;
    struct bytes digits = {(uint8_t *)text, len};
    if (!read_hex(digits, label, PLANBOOK_RECORD_BYTES))
        fail("the label is not %d hexadecimal digits: %s", 2 * PLANBOOK_RECORD_BYTES,
             hex_fault(digits));
}

/* A label is the sealed record: found in the sealed book, at the same place in the opened one. */
static void find_label(const struct arguments *given, const struct sheet *sheets, size_t n,
                       size_t *sheet, size_t *place)
{
    uint8_t label[PLANBOOK_RECORD_BYTES];
    read_label(given->operands[1], label);
    for (*sheet = 0; *sheet < n; ++*sheet)
        for (*place = 0; *place < sheets[*sheet].count; ++*place)
            if (memcmp(sheets[*sheet].records + PLANBOOK_RECORD_BYTES * *place, label,
                       sizeof label) == 0)
                return;
    refuse(PLANBOOK_ACCEPTED, "%s has no record with this label", input_title(given->operands[0]));
}

static void find_place(const struct arguments *given, const struct sheet *sheets, size_t n,
                       size_t *sheet, size_t *place)
{
    uint64_t trial = read_number("TRIAL", given->operands[1]),
             number = read_number("PLACE", given->operands[2]);
    for (*sheet = 0; *sheet < n && sheets[*sheet].trial != trial;)
        ++*sheet;
    if (*sheet == n)
        refuse(PLANBOOK_ACCEPTED, "%s has no trial %" PRIu64, input_title(given->operands[0]),
               trial);
    if (number >= sheets[*sheet].count)
        refuse(PLANBOOK_ACCEPTED,
               "trial %" PRIu64 " of %s has the places 0 to %u, and not %" PRIu64, trial,
               input_title(given->operands[0]), (unsigned)sheets[*sheet].count - 1, number);
    *place = (size_t)number;
}

void run_find(const struct arguments *given)
{
    struct sheet sheets[PLANBOOK_MAX_SHEETS];
    size_t sheet, place;
    struct bytes sealed = sealed_book(given->operands[0]);
    size_t n = read_sheets(sealed, sheets);
    (given->operands[2] == NULL ? find_label : find_place)(given, sheets, n, &sheet, &place);
    struct bytes book = opened(given, sealed);
    release(&sealed);
    read_sheets(book, sheets);
    write_one(NULL,
              (given->value[JSON] != NULL ? record_json : record_table)(&sheets[sheet], place),
              true, KEEP);
    release(&book);
}

void run_pack(const struct arguments *given)
{
    expect_no_terminal(given->operands[1]);
    struct bytes plan = read_csv(given->operands[0]);
    struct bytes book = packed_plan(given, plan, AS_GIVEN);
    release(&plan);
    write_one(given->operands[1], book, true, given_force(given));
}

void run_unpack(const struct arguments *given)
{
    expect_two_places(given);
    struct bytes book = clear_book(given->operands[0]);
    write_plan(given, book);
    release(&book);
}

/*
 * A page says of its sheet what the clear book does, so it is kept like one. It is text, and may
 * go to a terminal.
 */
void run_page(const struct arguments *given)
{
    uint64_t sheet = given_sheet(given);
    struct bytes book = read_book(given->operands[0]);
    struct bytes page = new_bytes(planbook_page_length(book.at, book.len, sheet));
    uint32_t check = call_for_page(book, sheet, page);
    if (check != PLANBOOK_ACCEPTED)
        refuse_page(input_title(given->operands[0]), book, sheet, check);
    release(&book);
    write_one(given->operands[1], page, true, given_force(given));
}

/*
 * Whether the output is the text or the sealed note is not known here, so it is kept like the text.
 */
void run_note(const struct arguments *given)
{
    struct bytes counter = given_counter(given);
    expect_no_terminal(given->operands[1]);
    struct bytes note = read_input(given->operands[0], PLANBOOK_MAX_NOTE_BYTES);
    struct bytes out = crypt_note(given, counter, note);
    release(&counter);
    release(&note);
    write_one(given->operands[1], out, true, given_force(given));
}
