#include "edges.h"
#include "compare.h"

#include <stdio.h>
#include <string.h>

static uint8_t words[MAX_SECRET]; /* drawn at random */
static uint8_t book[MAX_INPUT];
static size_t book_len;
static unsigned tried, tried_pages;

static void new_book(size_t sheets, size_t count)
{
    book_shape shape = even_shape(sheets, count);
    book_len = make_clear_book(&random_source, &shape, book);
}

static uint8_t *entry(size_t i)
{
    return entry_at(book, i);
}

static uint8_t *record(size_t sheets, size_t j)
{
    return entry(sheets) + RECORD_LENGTH * j;
}

static size_t lines_of(size_t sheet)
{
    return 1 + records_of(entry(sheet));
}

static void expect_page(size_t sheet, size_t lines, uint64_t answer, const char *what)
{
    call_input in = {CALL_PAGE, NULL, 0, 0, book, book_len, LINE_LENGTH * lines, NULL, 0, sheet};
    compare_stated(&in, answer, what);
    tried_pages++;
}

/* A book that is refused for what it is has no page either. One that is accepted has a page of each
 * sheet, and no more. */
static void expect_pages(uint64_t answer, const char *what)
{
    size_t sheets = sheets_of(book);
    if (check_of(answer) != 0) {
        expect_page(0, lines_of(0) <= MAX_RECORDS + 1 ? lines_of(0) : 2, answer, what);
        return;
    }
    for (size_t i = 0; i < sheets; i++)
        expect_page(i, lines_of(i), lines_of(i), what);
    expect_page(sheets, 2, refusal(13), what);
}

/* Gives the book that is clear to encryption and the same book with its bodies
 * encrypted to decryption: both must have the stated answer, by every way. Where
 * it is the book's, the pages must have it too. */
static void expect_lengths(uint64_t words_len, size_t out_len, uint64_t answer, const char *what)
{
    static uint8_t sealed[MAX_INPUT];
    call_input in = {CALL_ENCRYPT_BOOK, words, words_len, 1, book, book_len, out_len};
    compare_ways(&in, answer, what);
    memcpy(sealed, book, book_len);
    if (book_len >= HEAD_LENGTH && is_words_length(words_len))
        seal_by_reference(words, words_len, book, book_len, sealed);
    /* The first byte that decryption wants, or one that it does not want. */
    sealed[0] = book[0] == CLEAR_BOOK ? SEALED_BOOK : book[0] == SEALED_BOOK ? CLEAR_BOOK : book[0];
    in.kind = CALL_DECRYPT_BOOK;
    in.input = sealed;
    compare_ways(&in, answer, what);
    tried += 2;
    if (check_of(answer) == 0 ||
        (check_of(answer) >= CHECK_BOOK_LENGTH && check_of(answer) <= CHECK_RECORD))
        expect_pages(answer, what);
}

static void expect(uint64_t answer, const char *what)
{
    expect_lengths(224, book_len, answer, what);
}

static void check_lengths(void)
{
    static const uint64_t wrong_words[] = {0, 16, 24, 32, 159, 161, 191, 193, 223, 225, 256, 416};
    new_book(2, 3);
    for (size_t i = 0; i < sizeof wrong_words / sizeof wrong_words[0]; i++) {
        expect_lengths(wrong_words[i], book_len, refusal(14), "words of a wrong length");
        expect_lengths(wrong_words[i], book_len - 1, refusal(14),
                       "words of a wrong length, output one byte short");
    }
    for (uint64_t words_len = 160; words_len <= 224; words_len += 32)
        expect_lengths(words_len, book_len, 6, "words of a permitted length");
    expect_lengths(224, book_len - 1, refusal(4), "output one byte short");
    expect_lengths(224, book_len + 1, refusal(4), "output one byte long");
    book_len = 3;
    expect(refusal(5), "book of 3 bytes");
    expect_lengths(224, 4, refusal(4), "book of 3 bytes, output of 4");
    expect_lengths(225, 3, refusal(14), "book of 3 bytes, words of 225");
    book_len = 0;
    expect(refusal(5), "book of no bytes");
}

static void check_sizes(void)
{
    book_shape shape = {5, {1024, 1024, 1024, 1015, 1}};
    book_len = make_clear_book(&random_source, &shape, book);
    if (book_len != 65532)
        fail("the longest book is made %zu bytes long", book_len);
    expect(4088, "5 sheets, 4,088 records, 65,532 bytes");
    book_len++;
    expect(refusal(5), "65,533 bytes");
    shape.counts[4] = 2;
    book_len = make_clear_book(&random_source, &shape, book);
    expect(refusal(5), "5 sheets, 4,089 records");
    new_book(0, 0);
    expect(0, "no sheets");
    new_book(1, 1);
    expect(1, "one record");
    new_book(1, 1024);
    expect(1024, "sheet of 1,024 records");
    new_book(1, 1025);
    expect(refusal(9), "sheet of 1,025 records");
    new_book(1, 0);
    expect(refusal(9), "sheet of no records");
    new_book(64, 1);
    expect(64, "64 sheets");
    new_book(65, 1);
    expect(refusal(7), "65 sheets");
}

static void check_head_and_contents(void)
{
    static const uint8_t wrong_kinds[] = {0, 2, 3, 0x81, 0xff};
    new_book(3, 2);
    for (size_t i = 0; i < sizeof wrong_kinds; i++) {
        book[0] = wrong_kinds[i];
        expect(refusal(6), "wrong first byte");
    }
    new_book(3, 2);
    book[1] = 1;
    expect(refusal(6), "wrong second byte");
    new_book(3, 2);
    book[2] = 1;
    expect(refusal(7), "256 sheets more than there are");
    new_book(3, 2);
    book_len = 4 + 24 * 3 - 1;
    expect(refusal(8), "contents one byte short");
    book_len++;
    expect(refusal(10), "contents, but no body");
    new_book(3, 2);
    book_len--;
    expect(refusal(10), "body one byte short");
    book_len += 2;
    expect(refusal(10), "one byte after the body");
    new_book(0, 0);
    book_len = 20;
    expect(refusal(10), "a record, but no sheet");
    new_book(3, 2);
    entry(2)[5] = 3;
    expect(refusal(10), "a count that is one too many");
}

static void expect_entry(size_t i, unsigned at, uint8_t value, const char *what)
{
    new_book(3, 2);
    entry(i)[at] = value;
    expect(refusal(9), what);
}

/* The byte to try after this one: each up to 16, and then, in a shorter run, with gaps. */
static unsigned next_byte(unsigned byte)
{
    return byte < 16 ? byte + 1 : byte + (unsigned)(240 / scaled(240));
}

static void check_entries(void)
{
    for (size_t i = 0; i < 3; i++) {
        expect_entry(i, 7, 1, "reserved byte of an entry");
        expect_entry(i, 7, 0x80, "reserved byte of an entry");
        for (unsigned number = 9; number < 256; number = next_byte(number))
            expect_entry(i, 6, (uint8_t)number, "more than 8 replicates");
        new_book(3, 2);
        reference_store_word(entry(i), 0);
        expect(refusal(9), "trial 0");
    }
    new_book(3, 2);
    memcpy(entry(1), entry(0), 4);
    expect(refusal(9), "two entries of one trial");
    new_book(3, 2);
    reference_store_word(entry(2), reference_load_word(entry(1)) - 1);
    expect(refusal(9), "falling trials");
}

/* Every sheet says that it has 1,024 records: from the fourth on, more in all than a book can
 * hold. */
static void new_overfull_book(size_t sheets, size_t len)
{
    new_book(sheets, 1);
    for (size_t i = 0; i < sheets; i++)
        store_u16(entry(i) + 4, MAX_RECORDS);
    if (len > book_len)
        random_fill(&random_source, book + book_len, len - book_len);
    book_len = len;
}

/* All entries are judged before the length is: after such counts too, a broken entry is check 9's
 * and not check 10's. */
static void check_overfull_contents(size_t sheets, size_t len)
{
    /* a byte of the entry, and its value */
    static const uint8_t broken[][2] = {{4, 0}, {5, 1}, {6, 9}, {7, 0x80}};
    size_t last = sheets - 1;
    new_overfull_book(sheets, len);
    expect(refusal(10), "more records than a book can hold");
    for (size_t i = 0; i < sizeof broken / sizeof broken[0]; i++) {
        new_overfull_book(sheets, len);
        entry(last)[broken[i][0]] = broken[i][1];
        expect(refusal(9), "a broken entry after more records than a book can hold");
    }
    new_overfull_book(sheets, len);
    memcpy(entry(last), entry(last - 1), 4);
    expect(refusal(9), "a trial met again after more records than a book can hold");
}

/* Some byte of the last record set to a value. */
static void expect_record(unsigned at, uint8_t value, uint64_t answer, const char *what)
{
    new_book(3, 2);
    record(3, 5)[at] = value;
    expect(answer, what);
}

static void check_records(void)
{
    for (unsigned at = 13; at <= 15; at++)
        expect_record(at, 1, refusal(11), "zero byte of a record");
    for (size_t j = 0; j < 6; j++) {
        new_book(3, 2);
        reference_store_word(record(3, j) + 4, 0);
        expect(refusal(11), "entry 0");
        reference_store_word(record(3, j) + 4, UINT32_MAX);
        expect(6, "highest entry");
        memcpy(record(3, j), entry(j / 2 == 0 ? 1 : 0), 4);
        expect(refusal(11), "trial of another sheet");
    }
}

static void expect_plot(uint8_t *at, uint64_t words_len, size_t row, size_t column, uint64_t answer)
{
    char what[80];
    reference_store_word(at + 9, (uint32_t)(row << 16 | column)); /* bytes 9 to 12 */
    snprintf(what, sizeof what, "row %zu and column %zu in the record at byte %td", row, column,
             at - book);
    expect_lengths(words_len, book_len, answer, what);
}

/* Row, column, and the check that answers. */
static const uint16_t plots[][3] = {
    {0, 0, 0},     {1, 1, 0},     {999, 999, 0},      {1, 999, 0},     {999, 1, 0},
    {256, 1, 0},   {1, 256, 0},   {0, 1, 11},         {1, 0, 11},      {0, 999, 11},
    {999, 0, 11},  {0, 256, 11},  {256, 0, 11},       {0, 1000, 11},   {1000, 0, 11},
    {1, 1000, 11}, {1000, 1, 11}, {999, 1000, 11},    {1000, 999, 11}, {1000, 1000, 11},
    {1, 1025, 11}, {1025, 1, 11}, {65535, 65535, 11},
};

/* Each of them in each record of a book. */
static void check_plots(size_t sheets, size_t count)
{
    size_t records = sheets * count;
    for (size_t j = 0; j < records; j++)
        for (size_t i = 0; i < sizeof plots / sizeof plots[0]; i++) {
            new_book(sheets, count);
            expect_plot(record(sheets, j), 224, plots[i][0], plots[i][1],
                        plots[i][2] == 0 ? records : refusal(plots[i][2]));
        }
}

/* Every row beside some columns, and every column beside the same rows; a shorter run leaves
 * numbers out. */
static void check_every_row_and_column(void)
{
    static const struct {
        size_t number, least, most; /* a row or column, and what the other may be beside it */
    } beside[] = {{0, 0, 0}, {1, 1, 999}, {999, 1, 999}, {1000, 1, 0}};
    size_t step = 65536 / scaled(65536);
    new_book(1, 1);
    for (size_t i = 0; i < sizeof beside / sizeof beside[0]; i++)
        for (size_t other = random_below(&random_source, step); other <= 65535; other += step) {
            uint64_t answer = other >= beside[i].least && other <= beside[i].most ? 1 : refusal(11);
            expect_plot(record(1, 0), 160, other, beside[i].number, answer);
            expect_plot(record(1, 0), 160, beside[i].number, other, answer);
        }
}

/* A book of three sheets of two records, with these numbers of replicates in its entries; every
 * replicate is 1. */
static void new_book_of_replicates(uint8_t first, uint8_t second, uint8_t third)
{
    new_book(3, 2);
    entry(0)[6] = first;
    entry(1)[6] = second;
    entry(2)[6] = third;
    for (size_t j = 0; j < 6; j++)
        record(3, j)[8] = 1;
}

/* One replicate of that book set to a value, and then to 1 again. */
static void expect_replicate(size_t j, unsigned value, uint64_t answer, const char *what)
{
    record(3, j)[8] = (uint8_t)value;
    expect(answer, what);
    record(3, j)[8] = 1;
}

/* Every replicate under every number that an entry may have; a shorter run leaves some out. */
static void check_replicates(void)
{
    static const uint8_t greatest[] = {4, 1, 2, 3, 4, 5, 6, 7, 8}; /* by the number in the entry */
    for (unsigned number = 0; number <= 8; number++) {
        new_book_of_replicates((uint8_t)number, (uint8_t)number, (uint8_t)number);
        for (unsigned replicate = 0; replicate < 256; replicate = next_byte(replicate))
            expect_replicate(5, replicate,
                             replicate >= 1 && replicate <= greatest[number] ? 6 : refusal(11),
                             "replicate");
    }
}

/* A sheet is held to its own number, and not to that of a sheet before or after it. */
static void check_sheets_replicates(void)
{
    static const uint8_t greatest[] = {1, 8, 4, 8, 1};
    for (size_t first = 0; first < 3; first++)
        for (size_t j = 0; j < 6; j++) {
            const uint8_t *number = greatest + first;
            unsigned own = number[j / 2];
            new_book_of_replicates(number[0], number[1], number[2]);
            expect_replicate(j, own, 6, "the sheet's greatest replicate");
            expect_replicate(j, own + 1, refusal(11), "one above the sheet's greatest replicate");
        }
    new_book_of_replicates(8, 0, 8);
    expect_replicate(2, 4, 6, "replicate 4 under 0, between sheets of 8");
    expect_replicate(3, 5, refusal(11), "replicate 5 under 0, between sheets of 8");
    new_book_of_replicates(4, 9, 4);
    expect_replicate(0, 0, refusal(9), "replicate 0 before an entry of 9 replicates");
    expect_replicate(2, 9, refusal(9), "replicate 9 of 9");
    expect_replicate(2, 10, refusal(9), "replicate 10 of 9");
}

/* What the library makes of a book that it accepts, by each way. */
static void change_book(call_kind kind, const uint8_t *from, uint8_t *to)
{
    call_input in = {kind, words, 224, 1, from, book_len, book_len};
    compare_ways(&in, 6, "0 or 4 replicates");
    memcpy(to, last_output(), book_len);
}

/* 0 and 4 mean the same, and the books are different: neither sealing nor opening makes one of the
 * other. */
static void check_zero_and_four(void)
{
    static uint8_t sealed[2][MAX_INPUT], opened[MAX_INPUT];
    uint8_t *number = entry(1) + 6;
    size_t differences = 0;
    new_book_of_replicates(0, 0, 0);
    record(3, 3)[8] = 4;
    for (size_t i = 0; i < 2; i++) {
        *number = i == 0 ? 0 : 4;
        change_book(CALL_ENCRYPT_BOOK, book, sealed[i]);
        change_book(CALL_DECRYPT_BOOK, sealed[i], opened);
        if (memcmp(opened, book, book_len) != 0)
            fail("a book with %u in byte 6 of an entry does not open as it was", *number);
    }
    for (size_t at = 0; at < book_len; at++)
        differences += sealed[0][at] != sealed[1][at];
    if (differences != 1 || sealed[0][number - book] != 0 || sealed[1][number - book] != 4)
        fail("sealed books with 0 and 4 in byte 6 of an entry differ in %zu bytes", differences);
}

void check_edges(void)
{
    tried = tried_pages = 0;
    random_fill(&random_source, words, sizeof words);
    check_lengths();
    check_sizes();
    check_head_and_contents();
    check_entries();
    check_overfull_contents(5, HEAD_LENGTH + 5 * ENTRY_LENGTH);
    check_overfull_contents(5, MAX_BOOK_LENGTH);
    check_overfull_contents(64, MAX_BOOK_LENGTH); /* 65,536 records: a sum in 16 bits would be 0 */
    check_records();
    check_plots(3, 2);
    check_plots(1, 9); /* records that are looked at four in parallel, and one after them */
    check_every_row_and_column();
    check_replicates();
    check_sheets_replicates();
    check_zero_and_four();
    printf("edges: %u books with a stated answer, each by %d ways, and %u pages of them\n", tried,
           WAYS, tried_pages);
}

/* What a note's call is given, and the check that answers. Where the way is 1, each way must answer
 * so. */
typedef struct {
    uint64_t words_len, way;
    size_t counter_len, note_len, out_len;
    int check;
} note_edge;

static const note_edge note_edges[] = {
    {0, 1, 16, 33, 33, 14},
    {16, 1, 16, 33, 33, 14},
    {24, 1, 16, 33, 33, 14},
    {32, 1, 16, 33, 33, 14},
    {159, 1, 16, 33, 33, 14},
    {161, 1, 16, 33, 33, 14},
    {191, 1, 16, 33, 33, 14},
    {193, 1, 16, 33, 33, 14},
    {223, 1, 16, 33, 33, 14},
    {225, 1, 16, 33, 33, 14},
    {416, 1, 16, 33, 33, 14},
    {160, 0, 16, 33, 33, 2},
    {160, 4, 16, 33, 33, 2},
    {160, 1, 0, 33, 33, 3},
    {160, 1, 15, 33, 33, 3},
    {160, 1, 17, 33, 33, 3},
    {160, 1, 32, 33, 33, 3},
    {160, 1, 16, 33, 0, 4},
    {160, 1, 16, 33, 16, 4},
    {160, 1, 16, 33, 32, 4},
    {160, 1, 16, 33, 34, 4},
    {160, 1, 16, 33, 48, 4},
    {160, 1, 16, 33, 0x10000 + 33, 4},
    {160, 1, 16, 0, 1, 4},
    {160, 1, 16, 0, 16, 4},
    {160, 1, 16, 16384, 16383, 4},
    {160, 1, 16, 16385, 16385, 12},
    {160, 1, 16, 16400, 16400, 12},
    {160, 1, 16, 0x10000, 0x10000, 12},
    {160, 1, 16, MAX_INPUT, MAX_INPUT, 12},
    /* Two checks fail. */
    {159, 4, 16, 33, 33, 14},
    {161, 1, 15, 33, 33, 14},
    {161, 1, 16, 33, 32, 14},
    {159, 1, 16, 16385, 16385, 14},
    {160, 4, 17, 33, 33, 2},
    {160, 0, 16, 33, 34, 2},
    {160, 4, 16, 16385, 16385, 2},
    {160, 1, 15, 33, 32, 3},
    {160, 1, 17, 33, 34, 3},
    {160, 1, 15, 16385, 16385, 3},
    {160, 1, 16, 16385, 16384, 4},
    {160, 1, 16, 16385, 33, 4},
    /* None fails. */
    {160, 1, 16, 0, 0, 0},
    {192, 1, 16, 0, 0, 0},
    {224, 1, 16, 0, 0, 0},
    {160, 1, 16, 1, 1, 0},
    {192, 1, 16, 33, 33, 0},
    {224, 1, 16, 16384, 16384, 0},
};

void check_note_edges(void)
{
    static uint8_t note[MAX_INPUT];
    uint8_t counter[MAX_COUNTER];
    size_t count = sizeof note_edges / sizeof note_edges[0];
    random_fill(&random_source, note, sizeof note);
    random_fill(&random_source, counter, sizeof counter);
    for (size_t i = 0; i < count; i++) {
        const note_edge *e = &note_edges[i];
        uint64_t answer = e->check == 0 ? e->note_len : refusal(e->check);
        call_input in = {CALL_CRYPT_NOTE, words, e->words_len, e->way, note, e->note_len,
                         e->out_len, counter, e->counter_len};
        if (e->way == 1)
            compare_ways(&in, answer, "note");
        else if (compare_call(&in, "note").answer != answer)
            fail_call(&in, "note", "the reference does not refuse it by check %d", e->check);
    }
    printf("note edges: %zu notes with a stated answer, by %d ways where the way is right\n", count,
           WAYS);
}

static unsigned expect_ways(call_input in, uint64_t accepted)
{
    static const uint64_t refused[] = {
        0,          4,           257,         258,         259,
        0x10001,    0x100000001, 0x100000002, 0x100000003, 0x8000000000000001,
        UINT64_MAX,
    };
    size_t count = sizeof refused / sizeof refused[0];
    for (in.way = 1; in.way <= WAYS; in.way++)
        if (compare_call(&in, "permitted way").answer != accepted)
            fail_call(&in, "permitted way", "the reference does not accept it");
    for (size_t i = 0; i < count; i++) {
        in.way = refused[i];
        if (compare_call(&in, "way as a 64-bit number").answer != refusal(2))
            fail_call(&in, "way as a 64-bit number", "the reference does not refuse it");
    }
    return (unsigned)count;
}

static unsigned expect_key_lengths(void)
{
    static const uint64_t refused[] = {
        0, 8, 15, 17, 128, 192, 256, 0x110, 0x10010, 0x100000010, 0x100000018, 0x100000020,
        0x8000000000000010, UINT64_MAX - 15,
    };
    size_t count = sizeof refused / sizeof refused[0];
    call_input in = {CALL_CONSTANTS, NULL, 16, 0, NULL, 0, 0};
    for (size_t i = 0; i < count; i++)
        for (size_t constants = 60; constants <= 92; constants += constants == 60 ? 24 : 8) {
            in.secret_len = refused[i];
            in.out_len = 4 * constants;
            compare_ways(&in, refusal(1), "key length as a 64-bit number");
        }
    return (unsigned)count;
}

void check_wide_numbers(void)
{
    call_input expand = {CALL_EXPAND_KEY, words, 16, 1, NULL, 0, 160};
    call_input block = {CALL_ENCRYPT_BLOCK, words, 160, 1, book, 16, 16};
    call_input whole = {CALL_ENCRYPT_BOOK, words, 160, 1, book, 0, 0};
    call_input note = {CALL_CRYPT_NOTE, words, 160, 1, book, 33, 33, book, 16};
    unsigned ways = expect_ways(expand, 40);
    expect_ways(block, 1);
    block.kind = CALL_DECRYPT_BLOCK;
    expect_ways(block, 1);
    expect_ways(note, 33);
    new_book(0, 0);
    whole.input_len = whole.out_len = book_len;
    expect_ways(whole, 0);
    whole.kind = CALL_DECRYPT_BOOK;
    book[0] = SEALED_BOOK;
    expect_ways(whole, 0);
    printf("64-bit numbers: %u ways refused by six calls, %u key lengths refused for constants\n",
           ways, expect_key_lengths());
}
