/* Seals clear books, each into the file named after it, under one key that is expanded once. */
#include <planbook.h>
#include <stdio.h>

static int failed(const char *name)
{
    perror(name);
    return 2;
}

static int refused(const char *what, uint32_t check)
{
    fprintf(stderr, "%s: refused, check %u: %s\n", what, (unsigned)check,
            planbook_check_sentence(check));
    return 1;
}

static int seal(const uint8_t *words, size_t words_len, const char *from, const char *to)
{
    static uint8_t clear[PLANBOOK_MAX_BOOK_BYTES + 1], sealed[sizeof clear];
    FILE *file = fopen(from, "rb");
    if (file == NULL) {
        return failed(from);
    }
    size_t len = fread(clear, 1, sizeof clear, file);
    int bad = ferror(file);
    if (fclose(file) != 0 || bad) {
        return failed(from);
    }
    uint64_t answer =
        planbook_encrypt_book(words, words_len, PLANBOOK_WAY_WORD_TABLES, clear, len, sealed, len);
    uint32_t check = planbook_check(answer);
    planbook_wipe_stack(); /* every call leaves the words there */
    planbook_wipe(clear, len);
    if (check != PLANBOOK_ACCEPTED) {
        return refused(from, check);
    }
    file = fopen(to, "wbx"); /* x, of C11: an existing file is not replaced */
    if (file == NULL) {
        return failed(to);
    }
    bad = fwrite(sealed, 1, len, file) != len;
    if (fclose(file) != 0 || bad) {
        int status = failed(to);
        remove(to); /* no part of a book is left */
        return status;
    }
    printf("%s: records sealed: %u\n", to, (unsigned)planbook_count(answer));
    return fflush(stdout) == 0 ? 0 : failed("standard output");
}

int main(int argc, char **argv)
{
    /* draw your own */
    uint8_t key[PLANBOOK_KEY128_BYTES] = {0, 1, 2, 3, 4, 5, 6, 7, 8, 9, 10, 11, 12, 13, 14, 15};
    uint8_t words[PLANBOOK_EXPANDED128_BYTES];
    if (argc < 3 || argc % 2 == 0) {
        fputs("usage: seal_book CLEAR SEALED [CLEAR SEALED]...\n", stderr);
        return 2;
    }
    uint64_t answer =
        planbook_expand_key(key, sizeof key, PLANBOOK_WAY_WORD_TABLES, words, sizeof words);
    planbook_wipe_stack();
    planbook_wipe(key, sizeof key); /* the words are all that is needed now */
    if (planbook_check(answer) != PLANBOOK_ACCEPTED) {
        return refused("the key", planbook_check(answer));
    }
    int status = 0;
    for (int i = 1; i < argc && status == 0; i += 2) {
        status = seal(words, sizeof words, argv[i], argv[i + 1]);
    }
    planbook_wipe(words, sizeof words); /* anyone who has them needs no key */
    return status;
}
