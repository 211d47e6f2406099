/*
 * Books of past seasons, which were sealed under their key: under the words that the library
 * expands it to, each opens to the same bytes as in its season, and is sealed to the same ones.
 *
 *   past_seasons tests/past
 */
#include "compare.h"

#include <stdio.h>
#include <string.h>

typedef struct {
    const char *folder, *key_folder;
    int check; /* that refuses it today, or 0 */
} season;

static const season seasons[] = {
    {"0.2.0", "0.2.0", 0},
    {"1.1.0", "1.1.0", 0},
    {"1.1.0-row-1000", "1.1.0", CHECK_RECORD},
    {"1.1.0-half-in-reserve", "1.1.0", CHECK_RECORD},
};
enum { SEASONS = sizeof seasons / sizeof seasons[0] };

typedef struct {
    uint8_t bytes[MAX_INPUT];
    size_t len;
} file;

static void read_file(const char *past, const char *folder, const char *name, file *f)
{
    char path[300];
    FILE *stream;
    snprintf(path, sizeof path, "%s/%s/%s", past, folder, name);
    stream = fopen(path, "rb");
    if (stream == NULL)
        fail("%s cannot be read", path);
    f->len = fread(f->bytes, 1, sizeof f->bytes - 1, stream);
    fclose(stream);
}

static size_t read_key(const char *past, const char *folder, uint8_t key[32])
{
    static file text;
    size_t len = 0;
    unsigned value;
    read_file(past, folder, "key-not-secret.hex", &text);
    text.bytes[text.len] = '\0';
    while (len < 32 && sscanf((const char *)text.bytes + 2 * len, "%2x", &value) == 1)
        key[len++] = (uint8_t)value;
    return len;
}

static size_t records_in(const file *book)
{
    return (book->len - contents_length(book->bytes)) / RECORD_LENGTH;
}

/* By each way; where it is accepted the output is as the season had it. */
static void expect_book(call_kind kind, const uint8_t *words, size_t words_len, const file *from,
                        const file *to, int check)
{
    call_input in = {kind, words, words_len, 1, from->bytes, from->len, from->len};
    for (in.way = 1; in.way <= WAYS; in.way++) {
        compare_stated(&in, check == 0 ? records_in(from) : refusal(check),
                       "book of a past season");
        if (check == 0 && (to->len != from->len || memcmp(last_output(), to->bytes, to->len) != 0))
            fail_call(&in, "book of a past season", "other bytes than in its season");
    }
}

static void check_season(const char *past, const season *s)
{
    static file clear, sealed;
    uint8_t key[32], words[REFERENCE_MAX_WORDS_LENGTH];
    call_input expand = {CALL_EXPAND_KEY, key, read_key(past, s->key_folder, key), 1, NULL, 0, 0};
    size_t words_len = expand.out_len = reference_output_length(&expand);
    read_file(past, s->folder, "clear.book", &clear);
    read_file(past, s->folder, "sealed.book", &sealed);
    for (expand.way = 1; expand.way <= WAYS; expand.way++) {
        compare_stated(&expand, words_len / 4, "key of a past season");
        memcpy(words, last_output(), words_len);
        expect_book(CALL_DECRYPT_BOOK, words, words_len, &sealed, &clear, s->check);
        expect_book(CALL_ENCRYPT_BOOK, words, words_len, &clear, &sealed, s->check);
    }
}

int main(int argc, char **argv)
{
    start_test("past_seasons", 1, argv);
    if (argc != 2)
        fail("usage: past_seasons FOLDER");
    for (size_t i = 0; i < SEASONS; i++)
        check_season(argv[1], &seasons[i]);
    printf("past_seasons: passed: %d books of past seasons, by %d pairs of ways\n", SEASONS,
           WAYS * WAYS);
    return 0;
}
