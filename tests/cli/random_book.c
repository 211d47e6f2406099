/*
 * Writes a random clear book and, from the same numbers, all that the command must make of it, into
 * the current directory:
 *
 *   book                        the clear book
 *   plan.csv trials.csv         what unpack must give
 *   mixed.csv mixed-trials.csv  the same lines as another spreadsheet might write them, the plan's
 * mixed and those of the trials reversed: pack must give the book all the same key sealed a random
 * key, and the book sealed by the reference in tests/ show.txt show.json          what show must
 * print of the clear book head.txt head.json          and of the sealed one labels.txt labels.json
 * what labels must print find                        one line for find: a label, then trial, place,
 * entry, replicate, and row and column or reserve
 *
 * usage: random_book SEED. It shares no code with the command.
 */
#include "reference_book.h"

#include <inttypes.h>
#include <stdio.h>
#include <stdlib.h>
#include <string.h>

enum { MAX_COUNT = 1024, MAX_BOOK = 65532 };

struct plot {
    uint32_t entry;
    unsigned replicate, row, column;
};

static struct {
    uint32_t trial;
    unsigned count;
    unsigned replicates; /* as written in the book */
    unsigned char start[16];
    struct plot plots[MAX_COUNT];
} sheets[MAX_SHEETS];

static unsigned sheet_count;
static uint64_t state;
static unsigned char clear[MAX_BOOK], sealed[MAX_BOOK];
static size_t book_len;

/* splitmix64 */
static uint64_t draw(void)
{
    uint64_t z = state += 0x9e3779b97f4a7c15u;
    z = (z ^ z >> 30) * 0xbf58476d1ce4e5b9u;
    z = (z ^ z >> 27) * 0x94d049bb133111ebu;
    return z ^ z >> 31;
}

static unsigned below(unsigned bound)
{
    return (unsigned)(draw() % bound);
}

/* Small numbers and the ends of the range turn up often. */
static uint32_t number(uint32_t least, uint32_t most)
{
    switch (below(4)) {
    case 0: return least;
    case 1: return most;
    case 2: return least + below(most - least < 9 ? most - least + 1 : 9);
    default: return least + (uint32_t)(draw() % ((uint64_t)most - least + 1));
    }
}

/* The number that is in force. */
static unsigned replicates_of(unsigned s)
{
    return sheets[s].replicates == 0 ? 4 : sheets[s].replicates;
}

/* Row and column are both from 1 to 999, or both 0: in reserve. */
static struct plot draw_plot(unsigned s)
{
    struct plot p = {number(1, UINT32_MAX), number(1, replicates_of(s)), 0, 0};
    if (below(4) > 0) {
        p.row = number(1, 999);
        p.column = number(1, 999);
    }
    return p;
}

static void draw_book(void)
{
    unsigned room = MAX_BOOK - 4;
    uint32_t trial = 0;
    unsigned wanted = number(0, MAX_SHEETS);
    for (sheet_count = 0; sheet_count < wanted; sheet_count++) {
        unsigned left = wanted - sheet_count - 1;
        unsigned most = (room - 24 - 40 * left) / 16;
        unsigned count = below(4) == 0 ? number(1, most < MAX_COUNT ? most : MAX_COUNT)
                                       : number(1, most < 20 ? most : 20);
        room -= 24 + 16 * count;
        trial =
            number(trial + 1, left == 0 ? UINT32_MAX : trial + (UINT32_MAX - trial - left) / 2 + 1);
        sheets[sheet_count].trial = trial;
        sheets[sheet_count].count = count;
        sheets[sheet_count].replicates = number(0, 8);
        for (unsigned i = 0; i < 16; i++)
            sheets[sheet_count].start[i] = (unsigned char)draw();
        for (unsigned i = 0; i < count; i++)
            sheets[sheet_count].plots[i] = draw_plot(sheet_count);
    }
}

static FILE *create(const char *name)
{
    FILE *file = fopen(name, "wb");
    if (file == NULL)
        exit(1);
    return file;
}

static void finish(FILE *file)
{
    if (fclose(file) != 0)
        exit(1);
}

/* Highest byte first. */
static void put(uint32_t value, int bytes)
{
    while (bytes-- > 0)
        clear[book_len++] = (unsigned char)(value >> 8 * bytes);
}

static void write_file(const char *name, const unsigned char *bytes, size_t len)
{
    FILE *file = create(name);
    if (fwrite(bytes, 1, len, file) != len)
        exit(1);
    finish(file);
}

static void write_book(void)
{
    put(0x0100, 2);
    put(sheet_count, 2);
    for (unsigned s = 0; s < sheet_count; s++) {
        put(sheets[s].trial, 4);
        put(sheets[s].count, 2);
        put(sheets[s].replicates, 1);
        put(0, 1);
        memcpy(clear + book_len, sheets[s].start, 16);
        book_len += 16;
    }
    for (unsigned s = 0; s < sheet_count; s++)
        for (unsigned i = 0; i < sheets[s].count; i++) {
            const struct plot *p = &sheets[s].plots[i];
            put(sheets[s].trial, 4);
            put(p->entry, 4);
            put(p->replicate, 1);
            put(p->row, 2);
            put(p->column, 2);
            put(0, 3);
        }
    write_file("book", clear, book_len);
}

/* The reference judges the book too: it must accept it. */
static void write_sealed_book(void)
{
    static const size_t lengths[] = {16, 24, 32};
    unsigned char key[32], words[REFERENCE_MAX_WORDS_LENGTH];
    reference_words expanded;
    size_t len = lengths[below(3)];
    for (size_t i = 0; i < len; i++)
        key[i] = (unsigned char)draw();
    reference_expand_key(&expanded, key, len);
    size_t words_len = 4 * reference_store_words(words, &expanded);
    call_input call = {CALL_ENCRYPT_BOOK, words, words_len, 1, clear, book_len, book_len};
    if (reference_call(&call, sealed).failing != 0)
        exit(1);
    write_file("key", key, len);
    write_file("sealed", sealed, book_len);
}

static void write_line(FILE *plan, unsigned s, unsigned i)
{
    const struct plot *p = &sheets[s].plots[i];
    fprintf(plan, "%" PRIu32 ",%" PRIu32 ",%u,%u,%u\n", sheets[s].trial, p->entry, p->replicate,
            p->row, p->column);
}

static void write_hex(FILE *to, const unsigned char *at)
{
    for (unsigned i = 0; i < 16; i++)
        fprintf(to, "%02x", at[i]);
}

static void write_csv(void)
{
    FILE *plan = create("plan.csv"), *trials = create("trials.csv");
    fputs("trial,entry,replicate,row,column\n", plan);
    fputs("trial,start_block,replicates\n", trials);
    for (unsigned s = 0; s < sheet_count; s++) {
        fprintf(trials, "%" PRIu32 ",", sheets[s].trial);
        write_hex(trials, sheets[s].start);
        fprintf(trials, ",%u\n", sheets[s].replicates);
        for (unsigned i = 0; i < sheets[s].count; i++)
            write_line(plan, s, i);
    }
    finish(plan);
    finish(trials);
}

/*
 * Another spreadsheet's ways: separator, quotes, order of the columns, a column more, capitals,
 * line ends.
 */

static char separator;
static const char *line_end;
static unsigned order[6];

static void shuffle_columns(void)
{
    for (unsigned i = 0; i < 6; i++)
        order[i] = i;
    for (unsigned i = 6; i-- > 1;) {
        unsigned j = below(i + 1), kept = order[i];
        order[i] = order[j];
        order[j] = kept;
    }
}

static void write_mixed_fields(FILE *to, char texts[6][64])
{
    for (unsigned i = 0; i < 6; i++) {
        const char *quote = below(3) == 0 || order[i] == 5 ? "\"" : "";
        fprintf(to, "%s%s%s", quote, texts[order[i]], quote);
        if (i < 5)
            fputc(separator, to);
    }
    fputs(line_end, to);
}

static void write_mixed_line(FILE *to, unsigned s, unsigned i)
{
    static const char *const notes[] = {"",           "a note", "a; b, c\td", "with \"\"quotes\"\"",
                                        "two\nlines", "41"};
    const struct plot *p = &sheets[s].plots[i];
    char texts[6][64];
    sprintf(texts[0], "%" PRIu32, sheets[s].trial);
    sprintf(texts[1], "%" PRIu32, p->entry);
    sprintf(texts[2], "%u", p->replicate);
    sprintf(texts[3], "%u", p->row);
    sprintf(texts[4], "%u", p->column);
    strcpy(texts[5], notes[below(6)]);
    write_mixed_fields(to, texts);
}

static void write_mixed_trials(void)
{
    FILE *trials = create("mixed-trials.csv");
    fprintf(trials, "Replicates%cSTART_BLOCK%c\"Trial\"%s", separator, separator, line_end);
    for (unsigned s = sheet_count; s-- > 0;) {
        fprintf(trials, "0%u%c", sheets[s].replicates, separator);
        write_hex(trials, sheets[s].start);
        fprintf(trials, "%c%" PRIu32 "%s", separator, sheets[s].trial, line_end);
    }
    finish(trials);
}

static void write_mixed_csv(void)
{
    FILE *plan = create("mixed.csv");
    char names[6][64] = {"Trial", "entry", "REPLICATE", "Row", "cOLUMN", "remarks"};
    separator = ",;\t"[below(3)];
    line_end = below(2) == 0 ? "\r\n" : "\n";
    shuffle_columns();
    fputs(below(2) == 0 ? "\xef\xbb\xbf" : "", plan);
    write_mixed_fields(plan, names);
    for (unsigned i = 0; i < MAX_COUNT; i++)
        for (unsigned s = sheet_count; s-- > 0;)
            if (i < sheets[s].count)
                write_mixed_line(plan, s, i);
    fputs(below(2) == 0 ? line_end : "", plan);
    finish(plan);
    write_mixed_trials();
}

/*
 * Tables. Numbers are right under their names; the word reserve ends where the number of the
 * column would.
 */

static void write_head(FILE *to, const char *kind)
{
    unsigned records = 0;
    for (unsigned s = 0; s < sheet_count; s++)
        records += sheets[s].count;
    fprintf(to, "%s plan book: sheets %u, records %u, bytes %zu\n", kind, sheet_count, records,
            book_len);
    if (sheet_count > 0)
        fputs("\n     TRIAL RECORDS REPLICATES            START BLOCK\n", to);
    for (unsigned s = 0; s < sheet_count; s++) {
        fprintf(to, "%10" PRIu32 "%8u%11u%s", sheets[s].trial, sheets[s].count, replicates_of(s),
                sheets[s].replicates == 0 ? " (default)  " : "            ");
        write_hex(to, sheets[s].start);
        fputc('\n', to);
    }
}

static void write_tables(void)
{
    FILE *head = create("head.txt"), *show = create("show.txt"), *labels = create("labels.txt");
    const unsigned char *record = sealed + 4 + 24 * sheet_count;
    write_head(head, "sealed");
    write_head(show, "clear");
    if (sheet_count > 0)
        fputs("\n     TRIAL PLACE      ENTRY REPLICATE   ROW COLUMN\n", show);
    for (unsigned s = 0; s < sheet_count; s++)
        for (unsigned i = 0; i < sheets[s].count; i++, record += 16) {
            const struct plot *p = &sheets[s].plots[i];
            fprintf(show, "%10" PRIu32 "%6u%11" PRIu32 "%10u", sheets[s].trial, i, p->entry,
                    p->replicate);
            if (p->row == 0)
                fputs("      reserve\n", show);
            else
                fprintf(show, "%6u%7u\n", p->row, p->column);
            fprintf(labels, "%" PRIu32 " %u ", sheets[s].trial, i);
            write_hex(labels, record);
            fputc('\n', labels);
        }
    finish(head);
    finish(show);
    finish(labels);
}

/* JSON */

static void write_json_head(FILE *to, const char *kind)
{
    fprintf(to, "{\"kind\": \"%s\", \"opened\": false, \"bytes\": %zu,\n \"sheets\": [", kind,
            book_len);
    for (unsigned s = 0; s < sheet_count; s++) {
        fprintf(to, "%s\n  {\"trial\": %" PRIu32 ", \"count\": %u", s > 0 ? "," : "",
                sheets[s].trial, sheets[s].count);
        fprintf(to, ", \"replicates\": %u, \"replicates_by_default\": %s, \"start_block\": \"",
                replicates_of(s), sheets[s].replicates == 0 ? "true" : "false");
        write_hex(to, sheets[s].start);
        fputs("\"}", to);
    }
    fputs("\n ]", to);
}

static void write_json(void)
{
    FILE *head = create("head.json"), *show = create("show.json"), *labels = create("labels.json");
    const unsigned char *record = sealed + 4 + 24 * sheet_count;
    write_json_head(head, "sealed");
    write_json_head(show, "clear");
    fputs(",\n \"records\": [", show);
    fputc('[', labels);
    for (unsigned s = 0; s < sheet_count; s++)
        for (unsigned i = 0; i < sheets[s].count; i++, record += 16) {
            const struct plot *p = &sheets[s].plots[i];
            const char *comma = s + i > 0 ? "," : "";
            fprintf(show, "%s\n  {\"trial\": %" PRIu32 ", \"place\": %u, \"entry\": %" PRIu32,
                    comma, sheets[s].trial, i, p->entry);
            fprintf(show, ", \"replicate\": %u, \"row\": %u, \"column\": %u, \"reserve\": %s}",
                    p->replicate, p->row, p->column, p->row == 0 ? "true" : "false");
            fprintf(labels, "%s\n {\"trial\": %" PRIu32 ", \"place\": %u, \"label\": \"", comma,
                    sheets[s].trial, i);
            write_hex(labels, record);
            fputs("\"}", labels);
        }
    fputs("\n}\n", head);
    fputs("\n ]\n}\n", show);
    fputs("\n]\n", labels);
    finish(head);
    finish(show);
    finish(labels);
}

static void write_find(void)
{
    FILE *to = create("find.txt");
    if (sheet_count > 0) {
        unsigned s = below(sheet_count), i = below(sheets[s].count), before = i;
        for (unsigned t = 0; t < s; t++)
            before += sheets[t].count;
        const struct plot *p = &sheets[s].plots[i];
        write_hex(to, sealed + 4 + 24 * sheet_count + 16 * before);
        fprintf(to, " %" PRIu32 " %u %" PRIu32 " %u ", sheets[s].trial, i, p->entry, p->replicate);
        if (p->row == 0)
            fputs("reserve\n", to);
        else
            fprintf(to, "%u %u\n", p->row, p->column);
    }
    finish(to);
}

int main(int argc, char **argv)
{
    if (argc != 2)
        return 2;
    state = strtoull(argv[1], NULL, 10);
    draw_book();
    write_book();
    write_sealed_book();
    write_csv();
    write_mixed_csv();
    write_tables();
    write_json();
    write_find();
    return 0;
}
