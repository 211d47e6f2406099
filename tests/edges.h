/* Cases that are named one by one, each with its answer stated. */
#ifndef EDGES_H
#define EDGES_H

/* The edges of the book's rules. */
void check_edges(void);

/* The edges of each check of a note, and each two that can fail at once. */
void check_note_edges(void);

/* Pages with the text stated, the edges of a page's own checks, and each two of
 * its checks that can fail at once; the edges of a book's rules are above. */
void check_pages(void);

/* Ways, key lengths and counts as 64-bit numbers: none may be cut to its low
 * bits. */
void check_wide_numbers(void);

/* Words that no key gives, those of a key by each way, and words of every
 * length. */
void check_words(void);

#endif
