/*
 * Text in memory. It grows by copying, so that what it leaves behind is wiped; a stream of the C
 * library would not do that.
 */
#include "text.h"

#include "messages.h"

#include <stdarg.h>
#include <stdio.h>
#include <string.h>

#define MAX_PIECE 1024

static void make_room(struct text *text)
{
    if (text->room.at != NULL && text->room.len - text->len >= MAX_PIECE)
        return;
    struct bytes wider = new_bytes(2 * text->room.len + 4 * MAX_PIECE);
    if (text->len > 0)
        memcpy(wider.at, text->room.at, text->len);
    release(&text->room);
    text->room = wider;
}

void text_print(struct text *text, const char *format, ...)
{
    va_list arguments;
    make_room(text);
    va_start(arguments, format);
    int len = vsnprintf((char *)text->room.at + text->len, MAX_PIECE, format, arguments);
    va_end(arguments);
    if (len < 0 || len >= MAX_PIECE)
        fail("a piece of text is longer than %d bytes", MAX_PIECE);
    text->len += (size_t)len;
}

void text_print_hex(struct text *text, const uint8_t *at, size_t len)
{
    for (size_t i = 0; i < len; i++)
        text_print(text, "%02x", at[i]);
}

struct bytes text_end(struct text *text)
{
    make_room(text); /* an empty text has memory too */
    return (struct bytes){text->room.at, text->len};
}
