/*
 * Keys. The user says which form the file has; it is never guessed from the contents. Also random
 * bytes, of which keys are made.
 */
#define _DEFAULT_SOURCE
#include "key.h"

#include "inputs.h"
#include "messages.h"

#include <errno.h>
#include <stdio.h>
#include <string.h>
#include <sys/random.h>
#include <unistd.h>

int hex_digit(int c)
{
    if (c >= '0' && c <= '9')
        return c - '0';
    if (c >= 'a' && c <= 'f')
        return c - 'a' + 10;
    if (c >= 'A' && c <= 'F')
        return c - 'A' + 10;
    return -1;
}

bool read_hex(struct bytes digits, uint8_t *at, size_t len)
{
    bool good = digits.len == 2 * len;
    for (size_t i = 0; good && i < len; i++) {
        int high = hex_digit(digits.at[2 * i]), low = hex_digit(digits.at[2 * i + 1]);
        good = high >= 0 && low >= 0;
        if (good)
            at[i] = (uint8_t)(high << 4 | low);
    }
    return good;
}

const char *hex_fault(struct bytes text)
{
    static char fault[64];
    size_t digits = 0;
    while (digits < text.len && hex_digit(text.at[digits]) >= 0)
        digits++;
    if (digits == text.len)
        snprintf(fault, sizeof fault, "there are %zu", digits);
    else
        snprintf(fault, sizeof fault, "byte %zu is none", digits + 1);
    return fault;
}

/* Digits and nothing else, but for the end of a line. */
static bool is_all_hex(struct bytes text)
{
    if (text.len > 0 && text.at[text.len - 1] == '\n')
        text.len--;
    if (text.len > 0 && text.at[text.len - 1] == '\r')
        text.len--;
    for (size_t i = 0; i < text.len; i++)
        if (hex_digit(text.at[i]) < 0)
            return false;
    return text.len > 0;
}

/* The key may have been given in place of the name of its file. */
static void expect_file(const char *option, const char *name)
{
    if (!is_standard(name) && shown(name) != name && access(name, F_OK) != 0)
        fail("%s takes the name of the file that has the key; no file has the name that is given, "
             "which is not shown, since it may be the key itself",
             option);
}

/*
 * Raw bytes. A wrong length is left to the library, whose check 1 it is. A key file in hexadecimal
 * would pass for 32 raw bytes and seal a book that nobody else can open; a raw key looks like one
 * no more than once in 10^17.
 */
struct bytes read_key(const char *name)
{
    expect_file("--key", name);
    struct bytes key = read_secret_input(name, KEY_FILE_LIMIT);
    if (is_all_hex(key))
        fail("%s is all hexadecimal digits: take --key-hex for a key that is written so",
             input_title(name));
    return key;
}

struct bytes read_hex_key(const char *name)
{
    expect_file("--key-hex", name);
    struct bytes text = read_secret_input(name, KEY_FILE_LIMIT);
    if (text.len > KEY_FILE_LIMIT)
        fail("the key in %s is more than %s bytes long, and a key has 32, 48 or 64 digits",
             input_title(name), grouped(KEY_FILE_LIMIT));
    if (text.len > 0 && text.at[text.len - 1] == '\n')
        text.len--;
    for (size_t i = 0; i < text.len; i++)
        if (hex_digit(text.at[i]) < 0)
            fail("%s: byte %zu of the key is not a hexadecimal digit", input_title(name), i + 1);
    if (text.len % 2 != 0)
        fail("%s: the key has an odd number of hexadecimal digits, %zu", input_title(name),
             text.len);
    struct bytes key = new_bytes(text.len / 2);
    read_hex(text, key.at, key.len);
    release(&text);
    return key;
}

void draw_random(uint8_t *at, size_t len)
{
    for (size_t done = 0; done < len;) {
        ssize_t got = getrandom(at + done, len - done, 0);
        if (got < 0 && errno != EINTR)
            fail("the system gives no random bytes: %s", strerror(errno));
        done += got < 0 ? 0 : (size_t)got;
    }
}

/* One that read_key would take for hexadecimal is drawn again. */
struct bytes draw_key(size_t len)
{
    struct bytes key = new_bytes(len);
    do
        draw_random(key.at, key.len);
    while (is_all_hex(key));
    return key;
}
