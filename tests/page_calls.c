#include "edges.h"
#include "compare.h"

#include <stdio.h>
#include <string.h>

static test_case c; /* the call that is asked about; its input is the book */
static unsigned tried;

static verdict expect(uint64_t answer, const char *what)
{
    tried++;
    return compare_stated(&c.in, answer, what);
}

/* Books and pages typed out by hand. */

#define HEADING "     TRIAL      ENTRY R ROW COL\n"

/* Sheets of three records and of five, in no order but that of the body; the highest numbers, and
 * plants in reserve. */
static const uint8_t two_sheets[] = {
    0x01, 0x00, 0x00, 0x02,
    0x00, 0x00, 0x00, 0x09, 0x00, 0x03, 0x00, 0x00, 0xff, 0xff, 0xff, 0xff, 0xff, 0xff, 0xff, 0xff,
    0xff, 0xff, 0xff, 0xff, 0xff, 0xff, 0xff, 0xff,
    0xff, 0xff, 0xff, 0xff, 0x00, 0x05, 0x08, 0x00, 0x00, 0x00, 0x00, 0x00, 0x00, 0x00, 0x00, 0x00,
    0x00, 0x00, 0x00, 0x00, 0x00, 0x00, 0x00, 0x00,
    0x00, 0x00, 0x00, 0x09, 0x00, 0x00, 0x27, 0x10, 0x04, 0x00, 0x63, 0x00, 0x64, 0x00, 0x00, 0x00,
    0x00, 0x00, 0x00, 0x09, 0x00, 0x00, 0x00, 0x01, 0x01, 0x00, 0x00, 0x00, 0x00, 0x00, 0x00, 0x00,
    0x00, 0x00, 0x00, 0x09, 0x00, 0x00, 0x27, 0x0f, 0x03, 0x00, 0x0a, 0x00, 0x09, 0x00, 0x00, 0x00,
    0xff, 0xff, 0xff, 0xff, 0xff, 0xff, 0xff, 0xff, 0x08, 0x03, 0xe7, 0x03, 0xe7, 0x00, 0x00, 0x00,
    0xff, 0xff, 0xff, 0xff, 0x80, 0x00, 0x00, 0x00, 0x07, 0x00, 0x01, 0x03, 0xe7, 0x00, 0x00, 0x00,
    0xff, 0xff, 0xff, 0xff, 0x3b, 0x9a, 0xca, 0x00, 0x06, 0x00, 0x00, 0x00, 0x00, 0x00, 0x00, 0x00,
    0xff, 0xff, 0xff, 0xff, 0x3b, 0x9a, 0xc9, 0xff, 0x05, 0x01, 0x00, 0x01, 0x01, 0x00, 0x00, 0x00,
    0xff, 0xff, 0xff, 0xff, 0x00, 0x00, 0x01, 0x00, 0x01, 0x03, 0xe7, 0x00, 0x01, 0x00, 0x00, 0x00,
};

static const struct {
    const uint8_t *book;
    size_t len;
    uint64_t sheet;
    const char *text;
} typed_pages[] = {
    {one_record_book, sizeof one_record_book, 0,
     HEADING
     "        41          7 2  12   3\n"},
    {two_sheets, sizeof two_sheets, 0,
     HEADING
     "         9      10000 4  99 100\n"
     "         9          1 1   0   0\n"
     "         9       9999 3  10   9\n"},
    {two_sheets, sizeof two_sheets, 1,
     HEADING
     "4294967295 4294967295 8 999 999\n"
     "4294967295 2147483648 7   1 999\n"
     "4294967295 1000000000 6   0   0\n"
     "4294967295  999999999 5 256 257\n"
     "4294967295        256 1 999   1\n"},
};
enum { TYPED_PAGES = sizeof typed_pages / sizeof typed_pages[0] };

static void check_typed_pages(void)
{
    for (size_t i = 0; i < TYPED_PAGES; i++) {
        const char *text = typed_pages[i].text;
        size_t len = strlen(text);
        c.in = (call_input){CALL_PAGE, NULL, 0, 0, typed_pages[i].book, typed_pages[i].len, len};
        c.in.sheet = typed_pages[i].sheet;
        expect(len / LINE_LENGTH, "typed page");
        if (memcmp(last_output(), text, len) != 0)
            fail_call(&c.in, "typed page",
                      "library and reference agree on another text than the one typed out");
    }
}

/* Books that are made, of which the first sheet is asked for. */

static void ask_for(uint64_t sheet, size_t out_len)
{
    c.in.sheet = sheet;
    c.in.out_len = out_len;
}

static void new_book(const book_shape *shape)
{
    size_t len = make_clear_book(&random_source, shape, c.input);
    c.in = (call_input){CALL_PAGE, NULL, 0, 0, c.input, len};
    ask_for(0, LINE_LENGTH * (1 + shape->counts[0]));
}

/* Sheets of 2, 1 and 5 records. */
static const book_shape three_sheets = {3, {2, 1, 5}};

/* Check 13: the indices from 0 on that a book has, and no others. */
static void check_sheet_index(size_t sheets)
{
    const uint64_t indices[] = {
        0, sheets - 1, sheets, sheets + 1, 62, 63, 64, 65, 0x100, 0x10000, 0x100000000,
        0x100000000 + sheets - 1, 0x2000000000000000, 0x8000000000000000, UINT64_MAX - 1,
        UINT64_MAX,
    }; /* 24 times 2^61 is 0 in 64 bits */
    book_shape shape = {sheets, {0}};
    for (size_t i = 0; i < sheets; i++)
        shape.counts[i] = 1 + i % 3;
    new_book(&shape);
    for (size_t i = 0; i < sizeof indices / sizeof indices[0]; i++) {
        int there = indices[i] < sheets;
        size_t lines = there ? 2 + indices[i] % 3 : 2;
        ask_for(indices[i], LINE_LENGTH * lines);
        expect(there ? lines : refusal(13), "sheet index");
    }
}

/* Check 4: every length that is about that of one of the three sheets. */
static void check_output_lengths(void)
{
    new_book(&three_sheets);
    for (size_t sheet = 0; sheet < 3; sheet++) {
        size_t lines = 1 + three_sheets.counts[sheet];
        for (size_t len = 0; len <= 300; len++) {
            ask_for(sheet, len);
            expect(len == LINE_LENGTH * lines ? lines : refusal(4), "length of the output");
        }
        ask_for(sheet, 0x10000 + LINE_LENGTH * lines);
        expect(refusal(4), "length of the output, and 65,536");
    }
}

/* The longest page, of which 32 bytes less are its lines without the heading. */
static void check_longest_page(void)
{
    static const book_shape longest = {5, {1024, 1024, 1024, 1015, 1}};
    static const size_t wrong[] = {0, 32, 32767, 32768, 32799, 32801, 32832, 65532, 65536, 65600};
    new_book(&longest);
    for (size_t i = 0; i < sizeof wrong / sizeof wrong[0]; i++) {
        ask_for(2, wrong[i]);
        expect(refusal(4), "output for 1,024 records");
    }
    ask_for(2, 32800);
    expect(1025, "page of 1,024 records");
    ask_for(3, 32512);
    expect(1016, "page of 1,015 records");
    ask_for(4, 64);
    expect(2, "page of the last sheet");
}

/* Check 11 is of the whole book, whichever sheet is asked for. */
static void check_broken_records(void)
{
    /* a byte of a record, and the bits of it that are changed: trial, replicate, row, column, the
     * three zero bytes */
    static const uint8_t changes[][2] = {{3, 1},  {8, 0x80},  {9, 0x80}, {11, 0x80},
                                         {13, 1}, {14, 0x80}, {15, 1}};
    for (size_t sheet = 0; sheet < 3; sheet++)
        for (size_t j = 0; j < 8; j++)
            for (size_t i = 0; i < sizeof changes / sizeof changes[0]; i++) {
                new_book(&three_sheets);
                ask_for(sheet, LINE_LENGTH * (1 + three_sheets.counts[sheet]));
                record_at(c.input, j)[changes[i][0]] ^= changes[i][1];
                expect(refusal(11), "broken record in some sheet");
            }
}

/* A call with the faults of some checks; the book has 65 sheets where there are to be too many. */
static void break_book(unsigned faults)
{
    book_shape many = even_shape(65, 1);
    new_book(faults >> CHECK_SHEET_NUMBER & 1 ? &many : &three_sheets);
    if (faults >> CHECK_RECORD & 1)
        c.input[c.in.input_len - 1] = 1;
    if (faults >> CHECK_LENGTH & 1)
        c.input[c.in.input_len++] = 0;
    if (faults >> CHECK_ENTRY & 1)
        entry_at(c.input, 1)[7] = 1;
    if (faults >> CHECK_CONTENTS_LENGTH & 1) /* more sheets than there is room for */
        c.input[faults >> CHECK_SHEET_NUMBER & 1 ? 2 : 3] = 64;
    if (faults >> CHECK_HEAD & 1)
        c.input[1] = 1;
    if (faults >> CHECK_BOOK_LENGTH & 1) {
        memset(c.input + c.in.input_len, 0, MAX_BOOK_LENGTH + 1 - c.in.input_len);
        c.in.input_len = MAX_BOOK_LENGTH + 1;
        if (faults >> CHECK_CONTENTS_LENGTH & 1)
            c.input[2] = 0xff;
    }
    if (faults >> CHECK_SHEET_INDEX & 1)
        c.in.sheet = sheets_of(c.input);
    if (faults >> CHECK_OUTPUT_LENGTH & 1)
        c.in.out_len--;
}

/* Each two checks that can fail at once: the first in this order answers. */
static void check_pairs(void)
{
    static const int order[] = {5, 6, 7, 8, 9, 10, 11, 13, 4};
    enum { CHECKS = sizeof order / sizeof order[0] };
    for (int a = 0; a < CHECKS; a++)
        for (int b = a; b < CHECKS; b++) {
            unsigned both = 1u << order[a] | 1u << order[b];
            if (order[a] == CHECK_CONTENTS_LENGTH && order[b] == CHECK_RECORD)
                continue; /* a book that ends within its contents has no record */
            break_book(both);
            if ((expect(refusal(order[a]), "two checks at once").failing & both) != both)
                fail_call(&c.in, "two checks at once", "checks %d and %d do not both fail",
                          order[a], order[b]);
        }
    c.in.input_len = 3;
    expect(refusal(5), "book of 3 bytes");
    c.in.input_len = 0;
    expect(refusal(5), "book of no bytes");
}

/* Numbers of each length. */
static void check_numbers(void)
{
    static const uint32_t numbers[] = {
        1,          9,          10,         11,         99,         100,        101,
        999,        1000,       9999,       10000,      65535,      65536,      99999,
        100000,     999999,     1000000,    9999999,    10000000,   16777215,   16777216,
        99999999,   100000000,  999999999,  1000000000, 1999999999, 2147483647, 2147483648,
        3999999999, 4000000000, 4294967289, 4294967295,
    };
    enum { NUMBERS = sizeof numbers / sizeof numbers[0] };
    static const book_shape one = {1, {1}};
    new_book(&one);
    for (size_t i = 0; i < NUMBERS; i++)
        for (size_t j = 0; j < NUMBERS; j++) {
            reference_store_word(entry_at(c.input, 0), numbers[i]);
            reference_store_word(record_at(c.input, 0), numbers[i]);
            reference_store_word(record_at(c.input, 0) + 4, numbers[j]);
            expect(2, "trial and entry");
        }
}

void check_pages(void)
{
    static const size_t numbers_of_sheets[] = {0, 1, 2, 3, 62, 63, 64};
    tried = 0;
    check_typed_pages();
    for (size_t i = 0; i < sizeof numbers_of_sheets / sizeof numbers_of_sheets[0]; i++)
        check_sheet_index(numbers_of_sheets[i]);
    check_output_lengths();
    check_longest_page();
    check_broken_records();
    check_pairs();
    check_numbers();
    printf("pages: %u with a stated answer, %d of them with a text typed out by hand\n", tried,
           TYPED_PAGES);
}
