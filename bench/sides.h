/* What is called, on which bytes; and that the sides agree. */
#ifndef SIDES_H
#define SIDES_H

#include "tasks.h"

/* Stops unless the sides give the published test vectors, a note worked out elsewhere, the same
 * constants, and pages that were typed out, and refuse words of a wrong length, and pages, as
 * stated. */
void check_sides(void);

/* Whether the side beside the library has pages: an earlier library may have none. */
int sides_have_pages(void);

/* Whether that side takes the key where words are taken now: a library before 3.0.0 does. Known
 * once the sides are checked. */
int other_side_takes_keys(void);

/* Stops unless every side keeps the rule of records, in sealing, in opening and for a page. An
 * earlier library may have had another one. */
void check_rule(void);

/* Draws the keys and blocks that the calls go through, and which plots of a book are in reserve;
 * stops unless the sides expand the keys to the same words. */
void draw_inputs(void);

/* Makes the buffers ready that the calls of a task work on. */
void make_ready(const struct task *t);

/* The call of this number, which says what key, words and block it takes. */
uint64_t call(const struct task *t, enum side side, size_t number);

/* Stops unless the sides that have the task give the same answer and the same output: one book or
 * note, every key and block. */
void check_agreement(const struct task *t);

#endif
