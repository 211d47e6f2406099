/* Keys from files, hexadecimal digits, and random bytes. */
#ifndef PLANBOOK_CLI_KEY_H
#define PLANBOOK_CLI_KEY_H

#include <stdbool.h>
#include <stddef.h>
#include <stdint.h>

#include "memory.h"

/*
 * A key file has at most so many bytes: what is longer is no key, and the rest of it is not read.
 */
#define KEY_FILE_LIMIT 4096

struct bytes read_key(const char *name);
struct bytes read_hex_key(const char *name);

/* The value of a hexadecimal digit, or -1. */
int hex_digit(int c);

/* Exactly 2 * len hexadecimal digits become len bytes; answers whether they are that. */
bool read_hex(struct bytes digits, uint8_t *at, size_t len);

/*
 * Why a text that read_hex has turned down is not the hexadecimal digits wanted: how many there
 * are, or which byte is none.
 */
const char *hex_fault(struct bytes text);

/* Unpredictable bytes from the system. */
void draw_random(uint8_t *at, size_t len);

/* A new key. */
struct bytes draw_key(size_t len);

#endif
