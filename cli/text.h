/* Text in memory. */
#ifndef PLANBOOK_CLI_TEXT_H
#define PLANBOOK_CLI_TEXT_H

#include <stddef.h>
#include <stdint.h>

#include "memory.h"

struct text {
    struct bytes room;
    size_t len;
};

/* One piece is at most 1 KiB long. */
void text_print(struct text *text, const char *format, ...) __attribute__((format(printf, 2, 3)));
void text_print_hex(struct text *text, const uint8_t *at, size_t len);
struct bytes text_end(struct text *text);

#endif
