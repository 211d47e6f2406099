#include "cases.h"

#include <string.h>

/* splitmix64 */
uint64_t random_number(generator *g)
{
    uint64_t z = g->state += 0x9e3779b97f4a7c15;
    z = (z ^ z >> 30) * 0xbf58476d1ce4e5b9;
    z = (z ^ z >> 27) * 0x94d049bb133111eb;
    return z ^ z >> 31;
}

uint64_t random_below(generator *g, uint64_t limit)
{
    return random_number(g) % limit;
}

uint64_t random_between(generator *g, uint64_t least, uint64_t most)
{
    return least + random_below(g, most - least + 1);
}

int random_chance(generator *g, uint64_t one_in)
{
    return random_below(g, one_in) == 0;
}

void random_fill(generator *g, uint8_t *bytes, size_t len)
{
    while (len > 0) {
        uint64_t number = random_number(g);
        size_t part = len < sizeof number ? len : sizeof number;
        memcpy(bytes, &number, part);
        bytes += part;
        len -= part;
    }
}

static int has(unsigned set, int check)
{
    return set >> check & 1;
}

unsigned checks_of(call_kind kind)
{
    unsigned set = 1u << CHECK_OUTPUT_LENGTH;
    if (kind != CALL_PAGE)
        set |= 1u << (call_has_words(kind) ? CHECK_WORDS : CHECK_KEY);
    if (call_has_secret(kind))
        set |= 1u << CHECK_WAY;
    if (call_is_block(kind) || kind == CALL_CRYPT_NOTE)
        set |= 1u << CHECK_BLOCK_LENGTH;
    if (call_is_book(kind))
        for (int check = CHECK_BOOK_LENGTH; check <= CHECK_RECORD; check++)
            set |= 1u << check;
    if (kind == CALL_CRYPT_NOTE)
        set |= 1u << CHECK_NOTE_LENGTH;
    if (kind == CALL_PAGE)
        set |= 1u << CHECK_SHEET_INDEX;
    return set;
}

static uint64_t one_of(generator *g, const uint64_t *list, size_t count)
{
    return list[random_below(g, count)];
}

#define ONE_OF(g, list) one_of(g, list, sizeof(list) / sizeof(list)[0])

/* Key, words, way, block and output. */

static const uint64_t permitted_key_lengths[] = {16, 24, 32};
static const uint64_t permitted_words_lengths[] = {160, 192, 224};

void make_words(generator *g, uint8_t *words, size_t len)
{
    uint8_t key[32];
    reference_words expanded;
    random_fill(g, key, sizeof key);
    reference_expand_key(&expanded, key, len == 160 ? 16 : len == 192 ? 24 : 32);
    reference_store_words(words, &expanded);
}

/* Mostly those of a key; or with a bit of them changed, or drawn at random, or all alike: any are
 * accepted. */
static void choose_words(generator *g, test_case *c)
{
    size_t len = ONE_OF(g, permitted_words_lengths);
    uint64_t sort = random_below(g, 8);
    random_fill(g, c->secret, MAX_SECRET);
    c->in.secret_len = len;
    if (sort < 6)
        make_words(g, c->secret, len);
    if (sort == 0)
        c->secret[random_below(g, len)] ^= (uint8_t)(1 << random_below(g, 8));
    if (sort == 6)
        memset(c->secret, random_chance(g, 2) ? 0 : 0xff, len);
}

static uint64_t wrong_key_number(generator *g)
{
    static const uint64_t numbers[] = {
        0, 1, 15, 17, 20, 23, 25, 31, 33, 40, 128, 192, 256, 0x110, 0x10010, 0x100000010,
        0x100000018, 0x100000020, 0x8000000000000010, UINT64_MAX, UINT64_MAX - 15,
    };
    uint64_t number =
        random_chance(g, 2) ? ONE_OF(g, numbers) : random_number(g) >> random_below(g, 60);
    return number == 16 || number == 24 || number == 32 ? number + 1 : number;
}

static uint64_t wrong_key_length(generator *g)
{
    uint64_t len = random_below(g, random_chance(g, 2) ? 65 : MAX_SECRET + 1);
    return len == 16 || len == 24 || len == 32 ? len - 1 : len;
}

/* A byte or a word more or less, numbers of words, lengths of keys, and what is permitted if cut to
 * 8 bits. */
static uint64_t wrong_words_length(generator *g)
{
    static const uint64_t lengths[] = {
        0,   1,   4,   16,  24,  32,  40,  48,  56,  156, 159, 161, 164, 176,
        188, 191, 193, 196, 208, 220, 223, 225, 228, 240, 256, 416, 448, 480,
    };
    uint64_t len = random_chance(g, 2) ? ONE_OF(g, lengths) : random_below(g, MAX_SECRET + 1);
    return is_words_length(len) ? len + 1 : len;
}

static uint64_t wrong_way(generator *g)
{
    static const uint64_t numbers[] = {
        0, 4, 5, 255, 256, 257, 258, 259, 0x10001, 0x100000001, 0x100000002, 0x100000003,
        0x8000000000000001, UINT64_MAX, UINT64_MAX - 2,
    };
    uint64_t number =
        random_chance(g, 2) ? ONE_OF(g, numbers) : random_number(g) >> random_below(g, 60);
    return number >= 1 && number <= 3 ? number + 3 : number;
}

static size_t wrong_block_length(generator *g)
{
    static const uint64_t lengths[] = {0, 1, 15, 17, 32, 48};
    size_t len = random_chance(g, 2) ? ONE_OF(g, lengths) : random_below(g, 65);
    return len == REFERENCE_BLOCK ? len + 1 : len;
}

static size_t wrong_output_length(generator *g, size_t right)
{
    static const uint64_t lengths[] = {0,  1,  4,   15,  16,  17,  32,  40, 56,
                                       60, 92, 160, 192, 224, 240, 336, 368};
    static const uint64_t steps[] = {1, 4, 16, 64};
    uint64_t step = ONE_OF(g, steps);
    size_t len;
    if (random_chance(g, 2))
        len = ONE_OF(g, lengths);
    else
        len = random_chance(g, 2) || right < step ? right + step : right - step;
    return len == right ? right + 1 : len;
}

/* Books. */

/* A number of two bytes that is above a limit, often by one or two only. */
static size_t just_above(generator *g, size_t limit)
{
    return random_between(g, limit + 1, random_chance(g, 2) ? limit + 2 : 65535);
}

/* A byte that is above a limit, often by one only. */
static uint8_t byte_above(generator *g, unsigned limit)
{
    return (uint8_t)random_between(g, limit + 1, random_chance(g, 2) ? limit + 1 : 255);
}

/* The entry of the sheet that a record of the bodies belongs to. */
static const uint8_t *entry_of_record(uint8_t *book, size_t record)
{
    const uint8_t *entry = entry_at(book, 0);
    for (; record >= records_of(entry); entry += ENTRY_LENGTH)
        record -= records_of(entry);
    return entry;
}

/* A row or a column that a plot in the field has, often the first or the last. */
static size_t field_number(generator *g, size_t most)
{
    switch (random_below(g, 6)) {
    case 0: return 1;
    case 1: return most;
    default: return random_between(g, 1, most);
    }
}

static void put_plot(uint8_t *record, size_t row, size_t column)
{
    store_u16(record + 9, row);
    store_u16(record + 11, column);
}

static void make_plot(generator *g, uint8_t *record)
{
    if (random_chance(g, 6))
        put_plot(record, 0, 0);
    else
        put_plot(record, field_number(g, MAX_ROW), field_number(g, MAX_COLUMN));
}

static void make_record(generator *g, const uint8_t *entry, uint8_t *record)
{
    unsigned replicates = reference_replicates(entry);
    memset(record, 0, RECORD_LENGTH);
    memcpy(record, entry, 4);
    reference_store_word(record + 4,
                         (uint32_t)random_between(g, 1, random_chance(g, 8) ? UINT32_MAX : 500));
    record[8] = (uint8_t)random_between(g, random_chance(g, 4) ? replicates : 1, replicates);
    make_plot(g, record);
}

size_t make_clear_book(generator *g, const book_shape *shape, uint8_t *book)
{
    uint8_t *record = entry_at(book, shape->sheets);
    uint32_t trial = 0;
    book[0] = CLEAR_BOOK;
    book[1] = 0;
    store_u16(book + 2, shape->sheets);
    for (size_t i = 0; i < shape->sheets; i++) {
        uint8_t *entry = entry_at(book, i);
        uint32_t most = random_chance(g, 4) ? UINT32_MAX / 100 : 3;
        trial += (uint32_t)random_between(g, 1, most);
        if (i + 1 == shape->sheets && random_chance(g, 8))
            trial = UINT32_MAX;
        reference_store_word(entry, trial);
        store_u16(entry + 4, shape->counts[i]);
        entry[6] = (uint8_t)(random_chance(g, 3) ? 0 : random_between(g, 1, MAX_REPLICATES));
        entry[7] = 0;
        random_fill(g, entry + 8, REFERENCE_BLOCK);
        for (size_t j = 0; j < shape->counts[i]; j++, record += RECORD_LENGTH)
            make_record(g, entry, record);
    }
    return (size_t)(record - book);
}

static void fill_shape(generator *g, book_shape *shape, size_t sheets, size_t least, size_t most)
{
    shape->sheets = sheets;
    for (size_t i = 0; i < sheets; i++)
        shape->counts[i] = random_between(g, least, most);
}

/* Five sheets of 4,088 records: the longest book there is. */
static void longest_shape(generator *g, book_shape *shape)
{
    size_t rest = 4088;
    fill_shape(g, shape, 5, 766, 830);
    for (size_t i = 0; i < 4; i++)
        rest -= shape->counts[i];
    shape->counts[4] = rest;
}

/* The least number of sheets: one is needed for a page, and where something of a sheet is to be
 * damaged. */
static size_t least_sheets(call_kind kind, unsigned damages)
{
    if (kind == CALL_PAGE)
        return (damages & ~(1u << CHECK_OUTPUT_LENGTH)) == 1u << CHECK_SHEET_INDEX ? 0 : 1;
    return damages == 0 ? 0 : 1;
}

static void choose_shape(generator *g, call_kind kind, unsigned damages, book_shape *shape)
{
    size_t least = least_sheets(kind, damages);
    uint64_t size = random_below(g, 2000);
    if (has(damages, CHECK_SHEET_NUMBER) && random_chance(g, 2))
        fill_shape(g, shape, random_between(g, MAX_SHEETS + 1, MAX_SHEETS + 20), 1, 2);
    else if (has(damages, CHECK_BOOK_LENGTH) && random_chance(g, 300))
        fill_shape(g, shape, 5, 825, 1024);
    else if (size == 0)
        longest_shape(g, shape);
    else if (size == 1)
        fill_shape(g, shape, random_between(g, 1, 4), 1, MAX_RECORDS);
    else if (size < 30)
        fill_shape(g, shape, random_between(g, 1, 8), 1, 40);
    else if (size < 100)
        fill_shape(g, shape, random_between(g, 50, 64), 1, 2);
    else
        fill_shape(g, shape, random_between(g, least, 4), 1, 4);
    /* A wrong count whose body is there all the same, so that the length is
     * right and the entry alone is wrong. */
    if (has(damages, CHECK_ENTRY) && random_chance(g, 4))
        shape->counts[random_below(g, shape->sheets)] = random_chance(g, 50) ? MAX_RECORDS + 1 : 0;
}

/* Half in reserve; or row or column beyond the last, where the other is in the field, 0 or beyond
 * too. */
static void damage_plot(generator *g, uint8_t *record)
{
    size_t row = field_number(g, MAX_ROW), column = field_number(g, MAX_COLUMN);
    size_t row_beyond = just_above(g, MAX_ROW), column_beyond = just_above(g, MAX_COLUMN);
    switch (random_below(g, 7)) {
    case 0: put_plot(record, 0, column); break;
    case 1: put_plot(record, row, 0); break;
    case 2: put_plot(record, row_beyond, column); break;
    case 3: put_plot(record, row, column_beyond); break;
    case 4: put_plot(record, row_beyond, 0); break;
    case 5: put_plot(record, 0, column_beyond); break;
    default: put_plot(record, row_beyond, column_beyond); break;
    }
}

static void damage_record(generator *g, uint8_t *book, size_t len)
{
    size_t start = HEAD_LENGTH + ENTRY_LENGTH * sheets_of(book);
    size_t records = (len - start) / RECORD_LENGTH;
    size_t number;
    uint8_t *record;
    if (records == 0)
        return;
    number = random_below(g, records);
    record = book + start + RECORD_LENGTH * number;
    switch (random_below(g, 8)) {
    case 0: record[random_below(g, 4)] ^= (uint8_t)random_between(g, 1, 255); break;
    case 1: reference_store_word(record + 4, 0); break;
    case 2: record[8] = 0; break;
    case 3: record[8] = byte_above(g, reference_replicates(entry_of_record(book, number))); break;
    case 4: record[random_between(g, 13, 15)] = (uint8_t)random_between(g, 1, 255); break;
    default: damage_plot(g, record); break;
    }
}

static void damage_entry(generator *g, uint8_t *book)
{
    size_t i = random_below(g, sheets_of(book));
    uint8_t *entry = entry_at(book, i);
    switch (random_below(g, 7)) {
    case 0: store_u16(entry + 4, 0); break;
    case 1: store_u16(entry + 4, just_above(g, MAX_RECORDS)); break;
    case 2: entry[6] = byte_above(g, MAX_REPLICATES); break;
    case 3: entry[7] = (uint8_t)random_between(g, 1, 255); break;
    case 4:
        if (i > 0) {
            memcpy(entry, entry - ENTRY_LENGTH, 4);
            break;
        }
        /* fall through */
    case 5:
        if (i > 0) {
            reference_store_word(entry, reference_load_word(entry - ENTRY_LENGTH) - 1);
            break;
        }
        /* fall through */
    default: reference_store_word(entry, 0); break;
    }
}

static void damage_head(generator *g, uint8_t *book)
{
    if (random_chance(g, 3))
        book[1] = (uint8_t)random_between(g, 1, 255);
    else if (random_chance(g, 2))
        book[0] = book[0] == CLEAR_BOOK ? SEALED_BOOK : CLEAR_BOOK;
    else
        book[0] = (uint8_t)random_between(g, 3, 256); /* 256 is cut to 0 */
}

static void damage_sheet_number(generator *g, uint8_t *book)
{
    if (sheets_of(book) <= MAX_SHEETS)
        store_u16(book + 2, just_above(g, MAX_SHEETS));
}

static size_t damage_length(generator *g, uint8_t *book, size_t len)
{
    size_t body = len - contents_length(book);
    size_t more;
    switch (random_below(g, 4)) {
    case 0:
        if (sheets_of(book) > 0) {
            store_u16(entry_at(book, random_below(g, sheets_of(book))) + 4,
                       random_between(g, 1, MAX_RECORDS));
            return len;
        }
        /* fall through */
    case 1:
        if (body > 0)
            return len - random_between(g, 1, body < 40 ? body : 40);
        /* fall through */
    default:
        more = random_chance(g, 3) ? RECORD_LENGTH : random_between(g, 1, 40);
        random_fill(g, book + len, more);
        return len + more;
    }
}

static size_t damage_book_length(generator *g, unsigned damages, uint8_t *book, size_t len)
{
    unsigned needs_a_head = (damages & ~(1u << CHECK_WORDS)) >> CHECK_SHEET_NUMBER;
    size_t longer = MAX_BOOK_LENGTH + 1 + (random_chance(g, 2) ? 0 : random_below(g, 20000));
    if (len > MAX_BOOK_LENGTH)
        return len;
    if (needs_a_head == 0 && !random_chance(g, 20))
        return random_below(g, HEAD_LENGTH);
    random_fill(g, book + len, longer - len);
    return longer;
}

static size_t damage_contents_length(generator *g, uint8_t *book, size_t len)
{
    size_t contents_end = contents_length(book);
    size_t too_many = (len - HEAD_LENGTH) / ENTRY_LENGTH + 1;
    if (len <= MAX_BOOK_LENGTH && contents_end > HEAD_LENGTH && random_chance(g, 2)) {
        size_t cut = random_chance(g, 4) ? contents_end - 1
                                         : random_between(g, HEAD_LENGTH, contents_end - 1);
        return cut < len ? cut : len;
    }
    store_u16(book + 2, random_between(g, too_many, too_many + 2));
    return len;
}

static void make_book(generator *g, unsigned damages, test_case *c)
{
    static uint8_t clear[MAX_INPUT];
    uint8_t *book = c->input;
    book_shape shape;
    size_t len;
    choose_shape(g, c->in.kind, damages, &shape);
    len = make_clear_book(g, &shape, book);
    if (has(damages, CHECK_RECORD))
        damage_record(g, book, len);
    if (c->in.kind == CALL_DECRYPT_BOOK) {
        memcpy(clear, book, len);
        seal_by_reference(c->secret, c->in.secret_len, clear, len, book);
    }
    if (has(damages, CHECK_ENTRY) && !random_chance(g, 4))
        damage_entry(g, book);
    if (has(damages, CHECK_HEAD))
        damage_head(g, book);
    if (has(damages, CHECK_LENGTH))
        len = damage_length(g, book, len);
    if (has(damages, CHECK_SHEET_NUMBER))
        damage_sheet_number(g, book);
    if (has(damages, CHECK_BOOK_LENGTH))
        len = damage_book_length(g, damages, book, len);
    if (has(damages, CHECK_CONTENTS_LENGTH) && len >= HEAD_LENGTH)
        len = damage_contents_length(g, book, len);
    c->in.input_len = len;
}

/* Notes. */

/* Often with bytes ff at its end, and the number then some blocks lower: it
 * carries or wraps within the note, where a byte ff may be before it. */
static void make_counter(generator *g, size_t note_len, uint8_t counter[MAX_COUNTER])
{
    uint8_t *number = counter + COUNTER_PREFIX_LENGTH;
    size_t high = random_chance(g, 2) ? 0 : random_between(g, 1, COUNTER_LENGTH);
    uint32_t lower = (uint32_t)random_below(g, note_len / REFERENCE_BLOCK + 1);
    random_fill(g, counter, MAX_COUNTER);
    memset(counter + COUNTER_LENGTH - high, 0xff, high);
    reference_store_word(number, reference_load_word(number) - lower);
}

static size_t note_length(generator *g, unsigned damages)
{
    uint64_t size = random_below(g, 1000);
    if (has(damages, CHECK_NOTE_LENGTH))
        return MAX_NOTE_LENGTH + 1 + (random_chance(g, 2) ? 0 : random_below(g, 20000));
    if (size == 0)
        return MAX_NOTE_LENGTH - random_below(g, 2);
    return random_below(g, size < 30 ? 1000 : 100);
}

static void make_note(generator *g, unsigned damages, test_case *c)
{
    c->in.input_len = note_length(g, damages);
    random_fill(g, c->input, c->in.input_len);
    make_counter(g, c->in.input_len, c->counter);
    c->in.counter = c->counter;
    c->in.counter_len = has(damages, CHECK_BLOCK_LENGTH) ? wrong_block_length(g) : COUNTER_LENGTH;
}

/* Pages. */

/* A sheet index that a book of so many sheets does not have, often one that it would have in fewer
 * bits. 24 times the fifth base is 0 in 64 bits. */
static uint64_t wrong_sheet(generator *g, uint64_t sheets)
{
    static const uint64_t bases[] = {
        0x40, 0x100, 0x10000, 0x100000000, 0x2000000000000000, 0x8000000000000000};
    switch (random_below(g, 5)) {
    case 0: return sheets;
    case 1: return sheets + random_below(g, 70);
    case 2: return UINT64_MAX - random_below(g, 3);
    case 3: return sheets + (random_number(g) >> random_between(g, 1, 63));
    default: return sheets <= 0x40 ? ONE_OF(g, bases) + random_below(g, sheets + 1) : sheets;
    }
}

/* One of the sheets that the head of the book says there are, or none of them. */
static void choose_sheet(generator *g, unsigned damages, test_case *c)
{
    size_t sheets = c->in.input_len >= HEAD_LENGTH ? sheets_of(c->input) : 1;
    if (sheets == 0 || has(damages, CHECK_SHEET_INDEX))
        c->in.sheet = wrong_sheet(g, sheets);
    else
        c->in.sheet = random_below(g, sheets);
}

/* Where the book does not say the length of a page, that of some small sheet. */
static size_t right_output_length(generator *g, const call_input *in)
{
    size_t len = reference_output_length(in);
    return in->kind == CALL_PAGE && len == 0 ? LINE_LENGTH * random_between(g, 2, 6) : len;
}

/* The sheet beside, the records without their heading, and what is wrong for any call. */
static size_t wrong_page_length(generator *g, const test_case *c, size_t right)
{
    call_input beside = c->in;
    size_t len = right - LINE_LENGTH;
    if (random_chance(g, 2))
        return wrong_output_length(g, right);
    beside.sheet ^= 1;
    if (random_chance(g, 2))
        len = reference_output_length(&beside);
    return len == right ? right + LINE_LENGTH : len;
}

static void choose_output_length(generator *g, unsigned damages, test_case *c)
{
    size_t right = right_output_length(g, &c->in);
    if (!has(damages, CHECK_OUTPUT_LENGTH))
        c->in.out_len = right;
    else if (c->in.kind == CALL_PAGE)
        c->in.out_len = wrong_page_length(g, c, right);
    else
        c->in.out_len = wrong_output_length(g, right);
}

static void choose_secret(generator *g, test_case *c)
{
    c->in.way = random_between(g, 1, 3);
    if (call_has_words(c->in.kind)) {
        choose_words(g, c);
        return;
    }
    random_fill(g, c->secret, MAX_SECRET);
    c->in.secret_len = ONE_OF(g, permitted_key_lengths);
}

static uint64_t wrong_secret_length(generator *g, call_kind kind)
{
    if (kind == CALL_CONSTANTS)
        return wrong_key_number(g);
    return kind == CALL_EXPAND_KEY ? wrong_key_length(g) : wrong_words_length(g);
}

void make_case(generator *g, call_kind kind, unsigned damages, test_case *c)
{
    call_input *in = &c->in;
    memset(in, 0, sizeof *in);
    in->kind = kind;
    if (kind != CALL_PAGE)
        choose_secret(g, c);
    in->input = c->input;
    if (call_is_block(kind)) {
        random_fill(g, c->input, 4 * REFERENCE_BLOCK);
        in->input_len = has(damages, CHECK_BLOCK_LENGTH) ? wrong_block_length(g) : REFERENCE_BLOCK;
    }
    if (call_is_book(kind))
        make_book(g, damages, c);
    if (kind == CALL_CRYPT_NOTE)
        make_note(g, damages, c);
    if (kind == CALL_PAGE)
        choose_sheet(g, damages, c);
    if (call_has_secret(kind))
        in->secret = c->secret;
    if (has(damages, CHECK_WAY))
        in->way = wrong_way(g);
    choose_output_length(g, damages, c);
    if (has(damages, CHECK_KEY) || has(damages, CHECK_WORDS))
        in->secret_len = wrong_secret_length(g, kind);
}

void make_case_of_length(generator *g, call_kind kind, size_t words_len, test_case *c)
{
    do
        make_case(g, kind, 0, c);
    while (c->in.secret_len != words_len);
}

void make_changed_case(generator *g, call_kind kind, test_case *c)
{
    make_case(g, kind, 0, c);
    if (call_has_secret(kind) && random_chance(g, 4)) {
        c->secret[random_below(g, c->in.secret_len)] ^= (uint8_t)random_between(g, 1, 255);
        return;
    }
    for (uint64_t changes = random_between(g, 1, 3); changes > 0 && c->in.input_len > 0; changes--)
        c->input[random_below(g, c->in.input_len)] ^= (uint8_t)random_between(g, 1, 255);
}

static size_t random_input_length(generator *g)
{
    if (random_chance(g, 200))
        return random_below(g, MAX_INPUT);
    return random_below(g, random_chance(g, 2) ? 40 : 1000);
}

void make_random_case(generator *g, call_kind kind, test_case *c)
{
    call_input *in = &c->in;
    make_case(g, kind, 0, c);
    if (kind != CALL_PAGE && random_chance(g, 8))
        in->secret_len =
            kind == CALL_CONSTANTS ? random_number(g) : random_below(g, MAX_SECRET + 1);
    if (kind != CALL_PAGE && random_chance(g, 8))
        in->way = random_below(g, 6);
    if (kind == CALL_PAGE)
        in->sheet = random_below(g, random_chance(g, 2) ? 4 : 70);
    if (call_is_block(kind))
        in->input_len = random_between(g, 14, 18);
    if (kind == CALL_CRYPT_NOTE)
        in->counter_len = random_between(g, 14, 18);
    if (call_is_long(kind)) {
        in->input_len = random_input_length(g);
        random_fill(g, c->input, in->input_len);
    }
    if (call_is_book(kind) && in->input_len >= HEAD_LENGTH && !random_chance(g, 4)) {
        c->input[0] = (uint8_t)(kind == CALL_DECRYPT_BOOK ? SEALED_BOOK : CLEAR_BOOK);
        c->input[1] = 0;
        store_u16(c->input + 2, random_below(g, 4));
    }
    in->out_len = reference_output_length(in);
    if (random_chance(g, 8) || in->out_len == 0)
        in->out_len = random_below(g, 400);
}
