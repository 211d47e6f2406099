/*
 * The header's names and functions, against the numbers that the reference has.
 * It is built as C99 and as C++.
 */
#include "planbook.h"
#include "reference_book.h"

#include <stdio.h>
#include <string.h>

static int wrong;

static void expect(const char *name, uint64_t value, uint64_t due)
{
    if (value == due)
        return;
    fprintf(stderr, "header: FAILED: %s is %lu, expected %lu\n", name, (unsigned long)value,
            (unsigned long)due);
    wrong = 1;
}

#define EXPECT(name, due) expect(#name, name, due)

static void check_lengths(void)
{
    EXPECT(PLANBOOK_KEY128_BYTES, 16);
    EXPECT(PLANBOOK_KEY192_BYTES, 24);
    EXPECT(PLANBOOK_KEY256_BYTES, 32);
    EXPECT(PLANBOOK_MAX_KEY_BYTES, 32);
    EXPECT(PLANBOOK_BLOCK_BYTES, 16);
    EXPECT(PLANBOOK_CONSTANTS128_BYTES, 4 * 60);
    EXPECT(PLANBOOK_CONSTANTS192_BYTES, 4 * 84);
    EXPECT(PLANBOOK_CONSTANTS256_BYTES, 4 * 92);
    EXPECT(PLANBOOK_EXPANDED128_BYTES, 4 * 40);
    EXPECT(PLANBOOK_EXPANDED192_BYTES, 4 * 48);
    EXPECT(PLANBOOK_EXPANDED256_BYTES, 4 * 56);
    EXPECT(PLANBOOK_MAX_EXPANDED_BYTES, REFERENCE_MAX_WORDS_LENGTH);
    EXPECT(PLANBOOK_HEAD_BYTES, HEAD_LENGTH);
    EXPECT(PLANBOOK_ENTRY_BYTES, ENTRY_LENGTH);
    EXPECT(PLANBOOK_RECORD_BYTES, RECORD_LENGTH);
    EXPECT(PLANBOOK_MAX_SHEETS, MAX_SHEETS);
    EXPECT(PLANBOOK_MAX_SHEET_RECORDS, MAX_RECORDS);
    EXPECT(PLANBOOK_MAX_REPLICATES, MAX_REPLICATES);
    EXPECT(PLANBOOK_DEFAULT_REPLICATES, DEFAULT_REPLICATES);
    EXPECT(PLANBOOK_MAX_ROW, MAX_ROW);
    EXPECT(PLANBOOK_MAX_COLUMN, MAX_COLUMN);
    EXPECT(PLANBOOK_MIN_BOOK_BYTES, HEAD_LENGTH);
    EXPECT(PLANBOOK_MAX_BOOK_BYTES, MAX_BOOK_LENGTH);
    EXPECT(PLANBOOK_MAX_NOTE_BYTES, MAX_NOTE_LENGTH);
    EXPECT(PLANBOOK_COUNTER_BYTES, COUNTER_LENGTH);
    EXPECT(PLANBOOK_COUNTER_PREFIX_BYTES, COUNTER_PREFIX_LENGTH);
    EXPECT(PLANBOOK_LINE_BYTES, LINE_LENGTH);
    EXPECT(PLANBOOK_MAX_PAGE_BYTES, MAX_PAGE_LENGTH);
    EXPECT(PLANBOOK_CLEAR, CLEAR_BOOK);
    EXPECT(PLANBOOK_SEALED, SEALED_BOOK);
    EXPECT(PLANBOOK_WIPE_STACK, 1);
    EXPECT(PLANBOOK_STACK_BYTES, 16384); /* README and planbook.3 say so */
}

static void check_numbers(void)
{
    EXPECT(PLANBOOK_WAY_BYTE_TABLES, 1);
    EXPECT(PLANBOOK_WAY_WORD_TABLES, 2);
    EXPECT(PLANBOOK_WAY_COMPUTED, 3);
    EXPECT(PLANBOOK_ACCEPTED, 0);
    EXPECT(PLANBOOK_CHECK_KEY_LENGTH, CHECK_KEY);
    EXPECT(PLANBOOK_CHECK_WAY, CHECK_WAY);
    EXPECT(PLANBOOK_CHECK_BLOCK_LENGTH, CHECK_BLOCK_LENGTH);
    EXPECT(PLANBOOK_CHECK_OUTPUT_LENGTH, CHECK_OUTPUT_LENGTH);
    EXPECT(PLANBOOK_CHECK_BOOK_LENGTH, CHECK_BOOK_LENGTH);
    EXPECT(PLANBOOK_CHECK_BOOK_KIND, CHECK_HEAD);
    EXPECT(PLANBOOK_CHECK_SHEETS, CHECK_SHEET_NUMBER);
    EXPECT(PLANBOOK_CHECK_CONTENTS_CUT, CHECK_CONTENTS_LENGTH);
    EXPECT(PLANBOOK_CHECK_ENTRY, CHECK_ENTRY);
    EXPECT(PLANBOOK_CHECK_BODY_LENGTH, CHECK_LENGTH);
    EXPECT(PLANBOOK_CHECK_RECORD, CHECK_RECORD);
    EXPECT(PLANBOOK_CHECK_NOTE_LENGTH, CHECK_NOTE_LENGTH);
    EXPECT(PLANBOOK_CHECK_SHEET_INDEX, CHECK_SHEET_INDEX);
    EXPECT(PLANBOOK_CHECK_WORDS_LENGTH, CHECK_WORDS);
}

static void check_answers(void)
{
    uint64_t refusal = (uint64_t)11 << 32;
    expect("planbook_check of a refusal", planbook_check(refusal), 11);
    expect("planbook_count of a refusal", planbook_count(refusal), 0);
    expect("planbook_check of a count", planbook_check(4088), 0);
    expect("planbook_count of a count", planbook_count(4088), 4088);
    expect("planbook_version is PLANBOOK_VERSION",
           strcmp(planbook_version(), PLANBOOK_VERSION) == 0, 1);
    /* Each number has a sentence of its own, and so have those above the last. */
    for (uint32_t a = 0; a <= LAST_CHECK + 1; a++)
        for (uint32_t b = 0; b < a; b++)
            expect("two checks with one sentence",
                   strcmp(planbook_check_sentence(a), planbook_check_sentence(b)) == 0, 0);
}

static void check_expanded_length(void)
{
    static const size_t beyond[] = {
        128, 160, 192, 224, 256, 256 + 16, 256 + 24, 256 + 32, 65536 + 16, ((size_t)1 << 32) + 16,
        ((size_t)1 << 32) + 24, ((size_t)1 << 63) + 32, SIZE_MAX, SIZE_MAX - 15,
    };
    for (size_t len = 0; len <= 70; len++) {
        char name[80];
        snprintf(name, sizeof name, "planbook_expanded_length of %lu", (unsigned long)len);
        size_t due = len == 16 ? 160 : len == 24 ? 192 : len == 32 ? 224 : 0;
        expect(name, planbook_expanded_length(len), due);
    }
    for (size_t i = 0; i < sizeof beyond / sizeof beyond[0]; i++)
        expect("planbook_expanded_length of a length that is no key's",
               planbook_expanded_length(beyond[i]), 0);
}

/* Each byte that is named, and none beside; stack.c looks at what the compiler leaves of it. */
static void check_wipe(void)
{
    uint8_t bytes[304];
    for (size_t from = 0; from <= 3; from++)
        for (size_t len = 0; len <= 300; len++) {
            size_t at = 0;
            memset(bytes, 0xa5, sizeof bytes);
            planbook_wipe(bytes + from, len);
            while (at < sizeof bytes && bytes[at] == (at < from || at >= from + len ? 0xa5 : 0))
                at++;
            expect("the bytes that planbook_wipe leaves right", at, sizeof bytes);
        }
    planbook_wipe(NULL, 0);
}

/* The contents of 64 sheets, of which each entry has the record count that is looked at, and room
 * for two more. */
enum { CONTENTS_LENGTH = HEAD_LENGTH + ENTRY_LENGTH * MAX_SHEETS };
static uint8_t contents[CONTENTS_LENGTH + 2 * ENTRY_LENGTH];

static void expect_page_length(size_t book_len, uint64_t sheet, size_t due)
{
    char name[120];
    snprintf(name, sizeof name, "planbook_page_length of sheet %lu in %lu bytes",
             (unsigned long)sheet, (unsigned long)book_len);
    expect(name, planbook_page_length(contents, book_len, sheet), due);
}

static void put_count(size_t sheet, unsigned count)
{
    uint8_t *entry = contents + HEAD_LENGTH + ENTRY_LENGTH * sheet;
    entry[4] = (uint8_t)(count >> 8);
    entry[5] = (uint8_t)count;
}

/* Record counts, those that no sheet may have too. */
static void check_counts(void)
{
    static const unsigned counts[][2] = { /* the count, and the length due */
        {0, 32}, {1, 64}, {2, 96}, {255, 8192}, {256, 8224}, {1023, 32768}, {1024, 32800},
        {1025, 0}, {1026, 0}, {1280, 0}, {2047, 0}, {2048, 0}, {32768, 0}, {65535, 0},
    };
    for (size_t i = 0; i < sizeof counts / sizeof counts[0]; i++) {
        put_count(0, counts[i][0]);
        put_count(63, counts[i][0]);
        expect_page_length(CONTENTS_LENGTH, 0, counts[i][1]);
        expect_page_length(CONTENTS_LENGTH, 63, counts[i][1]);
    }
}

/* The number of sheets is in the head: an index that is not below it has no page, whatever is where
 * its entry would be. */
static void check_sheet_numbers(void)
{
    for (size_t n = 0; n <= MAX_SHEETS; n++) {
        contents[3] = (uint8_t)n;
        expect_page_length(sizeof contents, n, 0);
        if (n > 0)
            expect_page_length(sizeof contents, n - 1, LINE_LENGTH * (n + 1));
    }
    contents[2] = 1; /* 256 sheets, which no book has */
    contents[3] = 0;
    expect_page_length(sizeof contents, 63, LINE_LENGTH * 65);
    expect_page_length(sizeof contents, 64, 0);
}

static void check_page_length(void)
{
    static const uint64_t beyond[] = {
        64, 65, 256, 65536, UINT32_MAX, (uint64_t)1 << 32, ((uint64_t)1 << 32) + 63,
        (uint64_t)1 << 61, UINT64_MAX,
    }; /* 24 times 2^61 is 0 in 64 bits */
    contents[0] = CLEAR_BOOK;
    contents[3] = MAX_SHEETS;
    check_counts();
    for (size_t i = 0; i < MAX_SHEETS; i++)
        put_count(i, (unsigned)i + 1);
    for (size_t i = 0; i < MAX_SHEETS; i++) {
        size_t end = HEAD_LENGTH + ENTRY_LENGTH * (i + 1);
        expect_page_length(CONTENTS_LENGTH, i, LINE_LENGTH * (i + 2));
        expect_page_length(end, i, LINE_LENGTH * (i + 2));
        expect_page_length(end - 1, i, 0);
        expect_page_length(HEAD_LENGTH, i, 0);
    }
    for (size_t i = 0; i < sizeof beyond / sizeof beyond[0]; i++)
        expect_page_length(sizeof contents, beyond[i], 0);
    for (size_t len = 0; len < HEAD_LENGTH; len++)
        expect_page_length(len, 0, 0);
    expect("planbook_page_length of no bytes", planbook_page_length(NULL, 0, 0), 0);
    check_sheet_numbers();
}

int main(void)
{
    check_lengths();
    check_numbers();
    check_answers();
    check_expanded_length();
    check_wipe();
    check_page_length();
    if (!wrong)
        printf("header: passed: lengths, ways, checks and functions, those of a page's and of "
               "words' length among them\n");
    return wrong;
}
