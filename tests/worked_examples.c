/*
 * The worked book, note and page of docs/FORMAT.md: the fields, and the bytes against the library
 * and the reference.
 *
 *   worked_examples FORMAT.md KEY.hex
 */
#include "compare.h"
#include "library.h"

#include <stdio.h>
#include <stdlib.h>
#include <string.h>

enum { BOOK_BYTES = 44, LINE_BYTES = 400 };

typedef struct {
    size_t len;
    uint8_t bytes[BOOK_BYTES];
} byte_row;

typedef struct {
    size_t offset, len;
    const char *name;
} field;

/* The fields that the page has to name, clear and sealed. */
static const field clear_fields[] = {
    {0, 1, "head: kind of book"},
    {1, 1, "head: always zero"},
    {2, 2, "head: number of sheets"},
    {4, 4, "contents entry: trial"},
    {8, 2, "contents entry: record count"},
    {10, 1, "contents entry: number of replicates"},
    {11, 1, "contents entry: reserved"},
    {12, 16, "contents entry: start block"},
    {28, 4, "record: trial"},
    {32, 4, "record: entry"},
    {36, 1, "record: replicate"},
    {37, 2, "record: row"},
    {39, 2, "record: column"},
    {41, 3, "record: reserved"},
};
enum {
    CLEAR_FIELDS = sizeof clear_fields / sizeof clear_fields[0],
    CONTENTS_FIELDS = 8, /* of head and contents, which both books have */
    SEALED_FIELDS = CONTENTS_FIELDS + 1
};
static const field sealed_record = {28, 16, "sealed record"};

static FILE *page;
static char line[LINE_BYTES];
static uint8_t words[160]; /* of the worked book's key */

/* The next line that begins so. */
static const char *find_line(const char *start)
{
    while (fgets(line, sizeof line, page) != NULL)
        if (strncmp(line, start, strlen(start)) == 0)
            return line + strlen(start);
    fail("the page has no further line that begins with '%s'", start);
    return NULL;
}

/* Bytes of two hexadecimal digits, with or without spaces, up to anything else. */
static byte_row read_bytes(const char *text)
{
    byte_row row = {0, {0}};
    unsigned value;
    int used;
    while (row.len < BOOK_BYTES && sscanf(text, " %2x%n", &value, &used) == 1) {
        row.bytes[row.len++] = (uint8_t)value;
        text += used;
    }
    return row;
}

/* One line of a table: | offset | `bytes` | field | value |. A value that is a number must be that
 * of the bytes. */
static void read_field(const field *due, byte_row *book)
{
    char name[LINE_BYTES], value[LINE_BYTES], bytes[LINE_BYTES];
    byte_row row;
    uint64_t number = 0;
    size_t offset;
    find_line("| ");
    if (sscanf(line, "| %zu | `%[^`]` | %[^|]| %[^|]|", &offset, bytes, name, value) != 4)
        fail("this line of the table is not understood: %s", line);
    name[strlen(name) - 1] = '\0'; /* the space before the bar */
    row = read_bytes(bytes);
    if (offset != due->offset || row.len != due->len || strcmp(name, due->name) != 0)
        fail("expected %zu bytes '%s' at offset %zu: %s", due->len, due->name, due->offset, line);
    for (size_t i = 0; i < row.len; i++)
        number = number << 8 | row.bytes[i];
    if (value[0] >= '0' && value[0] <= '9' && strtoull(value, NULL, 10) != number)
        fail("the value is not that of the bytes: %s", line);
    memcpy(book->bytes + offset, row.bytes, row.len);
    book->len += row.len;
}

static byte_row read_book(const field *record_fields, size_t fields)
{
    byte_row book = {0, {0}};
    find_line("| offset |");
    for (size_t i = 0; i < CONTENTS_FIELDS; i++)
        read_field(&clear_fields[i], &book);
    for (size_t i = 0; i < fields; i++)
        read_field(&record_fields[i], &book);
    if (book.len != BOOK_BYTES)
        fail("the table has %zu bytes", book.len);
    return book;
}

static byte_row read_key_file(const char *name)
{
    FILE *file = fopen(name, "r");
    byte_row key;
    if (file == NULL || fgets(line, sizeof line, file) == NULL)
        fail("%s cannot be read", name);
    fclose(file);
    key = read_bytes(line);
    return key;
}

static void expect_bytes(const char *what, const uint8_t *got, const uint8_t *due, size_t len)
{
    for (size_t i = 0; i < len; i++)
        if (got[i] != due[i])
            fail("%s: byte %zu is %02x on the page, expected %02x", what, i, got[i], due[i]);
}

/* The words of the key, from the library by each way, and from the reference. */
static void expand_key(const byte_row *key, reference_words *expanded)
{
    call_input in = {CALL_EXPAND_KEY, key->bytes, key->len, 1, NULL, 0, sizeof words};
    compare_ways(&in, 40, "key of the worked book");
    memcpy(words, last_output(), sizeof words);
    reference_expand_key(expanded, key->bytes, key->len);
}

/* The library's and the reference's result of one call, by each way. */
static void expect_call(call_kind kind, const byte_row *from, const byte_row *to)
{
    call_input in = {kind, words, sizeof words, 1, from->bytes, BOOK_BYTES, BOOK_BYTES};
    compare_ways(&in, 1, "worked book");
    expect_bytes(call_name(kind), to->bytes, last_output(), BOOK_BYTES);
}

static void expect_encrypted(const char *what, const reference_words *expanded,
                             const uint8_t *block, const uint8_t *encrypted)
{
    uint8_t due[REFERENCE_BLOCK];
    reference_encrypt_block(expanded, block, due);
    expect_bytes(what, encrypted, due, REFERENCE_BLOCK);
}

/* Answers the clear book. */
static byte_row check_book(const reference_words *expanded)
{
    byte_row clear = read_book(clear_fields + CONTENTS_FIELDS, CLEAR_FIELDS - CONTENTS_FIELDS);
    byte_row block = read_bytes(find_line("    block "));
    byte_row sealed = read_book(&sealed_record, SEALED_FIELDS - CONTENTS_FIELDS);
    uint8_t chained[REFERENCE_BLOCK];
    if (block.len != REFERENCE_BLOCK)
        fail("the block is not 16 bytes long");
    expect_call(CALL_ENCRYPT_BOOK, &clear, &sealed);
    expect_call(CALL_DECRYPT_BOOK, &sealed, &clear);
    for (size_t i = 0; i < REFERENCE_BLOCK; i++)
        chained[i] = clear.bytes[28 + i] ^ clear.bytes[12 + i];
    expect_bytes("block", block.bytes, chained, REFERENCE_BLOCK);
    expect_encrypted("sealed record", expanded, block.bytes, sealed.bytes + 28);
    return clear;
}

/* One of the note's counter blocks, and it encrypted. */
static byte_row check_counter(const reference_words *expanded)
{
    byte_row counter = read_bytes(find_line("    counter "));
    byte_row encrypted = read_bytes(find_line("    encrypted "));
    if (counter.len != COUNTER_LENGTH || encrypted.len != REFERENCE_BLOCK)
        fail("a counter block, or it encrypted, is not 16 bytes long");
    expect_encrypted("encrypted counter block", expanded, counter.bytes, encrypted.bytes);
    return counter;
}

static void check_note(const reference_words *expanded)
{
    static const char due[] = "lodged after the storm";
    byte_row text = read_bytes(find_line("    text "));
    byte_row first = check_counter(expanded), second = check_counter(expanded);
    byte_row sealed = read_bytes(find_line("    sealed "));
    call_input in = {CALL_CRYPT_NOTE, words,    sizeof words, 1,        text.bytes,
                     text.len,        text.len, first.bytes,  first.len};
    if (text.len != strlen(due) || memcmp(text.bytes, due, text.len) != 0 || sealed.len != text.len)
        fail("the text is not '%s', or the sealed note is not as long", due);
    compare_ways(&in, text.len, "worked note");
    expect_bytes("sealed note", sealed.bytes, last_output(), sealed.len);
    in.counter = second.bytes;
    in.input += REFERENCE_BLOCK;
    in.input_len = in.out_len = text.len - REFERENCE_BLOCK;
    compare_ways(&in, in.input_len, "worked note, from its second counter block");
    expect_bytes("rest of the sealed note", sealed.bytes + REFERENCE_BLOCK, last_output(),
                 in.out_len);
}

/* The page of the worked book: two lines as text, and then each as bytes. */
static void check_page(const byte_row *clear)
{
    static const char *const names[] = {"    heading ", "    record "};
    uint8_t due[2 * LINE_LENGTH];
    call_input in = {CALL_PAGE, NULL, 0, 0, clear->bytes, BOOK_BYTES, sizeof due, NULL, 0, 0};
    compare_stated(&in, 2, "worked page");
    memcpy(due, last_output(), sizeof due);
    for (size_t i = 0; i < 2; i++) {
        const char *text = find_line("    ");
        if (strlen(text) != LINE_LENGTH)
            fail("a line of the worked page has %zu characters", strlen(text));
        expect_bytes("line of the worked page", (const uint8_t *)text, due + LINE_LENGTH * i,
                     LINE_LENGTH);
    }
    for (size_t i = 0; i < 2; i++) {
        byte_row row = read_bytes(find_line(names[i]));
        if (row.len != LINE_LENGTH)
            fail("a line of the worked page has %zu bytes", row.len);
        expect_bytes("bytes of the worked page", row.bytes, due + LINE_LENGTH * i, LINE_LENGTH);
    }
}

int main(int argc, char **argv)
{
    byte_row key, clear;
    reference_words expanded;
    start_test("worked_examples", 1, argv);
    if (argc != 3 || (page = fopen(argv[1], "r")) == NULL)
        fail("usage: worked_examples FORMAT.md KEY.hex");
    find_line("## A worked book");
    key = read_bytes(find_line("    key "));
    if (key.len != 16 || memcmp(key.bytes, read_key_file(argv[2]).bytes, 16) != 0)
        fail("the key is not that of %s, or not 16 bytes long", argv[2]);
    expand_key(&key, &expanded);
    clear = check_book(&expanded);
    find_line("## A worked note");
    check_note(&expanded);
    find_line("## A worked page");
    check_page(&clear);
    printf("worked_examples: passed: the worked book, %d fields and two times %d bytes, the worked "
           "note and the worked page\n",
           CLEAR_FIELDS + SEALED_FIELDS, BOOK_BYTES);
    return 0;
}
