/*
 * planbook.h: sealing and opening plan books, and the notes beside them, with the block cipher
 * CLEFIA; planting pages.
 *
 * THE MODEL
 *
 * A plan book is a byte string that says which plants of a field trial stand where. It has a head,
 * a table of contents with one entry for each sheet (one sheet to a trial), and the bodies of the
 * sheets, which are records of 16 bytes. Each trial chooses its number of replicates, up to 8; it
 * is in the contents entry, where 0 means 4. A record's row and column are both from 1 to 999, or
 * both 0: then it is in reserve, a spare plant that has no place yet. A clear book begins with 01
 * 00, a sealed one with 02 00. Sealing encrypts every body with CLEFIA in CBC mode: each sheet has
 * a chain of its own, which begins at the start block (the field's word: IV) that is in its
 * contents entry. Head and contents are copied, but for the first byte. A sealed book is as long as
 * the clear one. The format is written down whole in FORMAT.md, which is installed with this
 * header; the lengths are named below.
 *
 * A note is any text of up to 16,384 bytes that a scorer writes beside a trial. It is sealed with
 * CLEFIA in counter mode (NIST SP 800-38A), from a counter block that the caller gives, and opened
 * by the same operation. A sealed note is as long as the text, and is the text's bytes and nothing
 * more: where the counter block is kept is the caller's affair.
 *
 * A planting page is one sheet of a clear book as text, to be printed and pinned at a bench: a
 * heading, and a line for each record.
 *
 * Eight calls do the work: the constants of the key schedule, the expanded ("prepared") key, one
 * block encrypted or decrypted, one book encrypted ("sealed") or decrypted ("opened"), one note
 * sealed or opened, one sheet's page. A key goes into planbook_expand_key alone. The words that it
 * writes go into the calls for blocks, books and notes. All of these take a "way" too, which is the
 * field's implementation strategy: it changes the speed and never the result.
 *
 * PREPARE ONCE, USE OFTEN
 *
 * Expand a key once, and pass the words to as many calls as there is work, one after the other or
 * from any number of threads at once: no call changes them. Which way made the words does not
 * matter, and another way may use them.
 *
 * - The words are as secret as the key: anyone who has them opens and seals whatever the key does,
 *   and those of a key of 16 bytes begin with the key itself. Keep them where you would keep the
 *   key, lock them into memory if you lock the key, and wipe them when the last call is made:
 *   planbook_wipe does that.
 * - Any words of a permitted length are accepted, whether a key gives them or none. So no call
 *   notices that words are damaged, or are those of another key. What is sealed under damaged words
 *   opens under the same damaged words; under the key's own it mostly meets check 11, but may open
 *   as another plan: a wrong bit in the first word or in the fifth (bytes 0 to 3 and 16 to 19)
 *   changes the entry of every record and nothing else, and one in the first byte of the second
 *   word (byte 4) the column. No check sees that, unless an entry becomes 0 or a plot leaves its
 *   rule. A note gives other bytes. Where words are stored, store a digest of them, or expand the
 *   key again and compare. Before a clear plan is erased, open the sealed book under words expanded
 *   anew, and compare it with the clear one.
 *
 * ANSWERS
 *
 * A call answers one 64-bit number: check times 2^32, plus count. Check 0 is acceptance, and the
 * count then says what was done: words written, 1 for a block, the number of records in the book,
 * that of the note's bytes, or that of the page's lines. Another check is a refusal for the reason
 * with that number, and the count is 0. Each call tries its checks in the order given with it, and
 * the first that fails is the answer. planbook_check, planbook_count and planbook_check_sentence
 * take an answer apart.
 *
 * A refused call has written nothing: the output holds what it held before. This is so for opening
 * too, where the last check looks at the decrypted records. An accepted call has written every byte
 * of the output.
 *
 * MEMORY
 *
 * The caller owns all memory. A call reads the inputs and writes the output while it runs, and
 * keeps no pointer. Bytes need no alignment. A pointer whose length is 0 may be null. Two things
 * are the caller's duty, since no call can check them: all bytes that are passed exist for the
 * whole length given, and the output overlaps no input. Not even an output that is exactly the
 * input is permitted.
 *
 * The library keeps no state between calls, so there is nothing to initialise, and any number of
 * threads may call it at once, each with an output of its own. A call uses at most
 * PLANBOOK_STACK_BYTES of stack and nothing from the heap.
 *
 * When a call with a key or with words has returned, the key or all the words are still on the
 * stack below the caller, where no function's variable is. planbook_wipe_stack overwrites them, and
 * what planbook_page may have left of the records. Call it in the function that made the call, when
 * the last call is made. The buffers of the key, the words and the clear book are the caller's own
 * to wipe; planbook_wipe does it.
 *
 * OPEN ONLY BOOKS WHOSE ORIGIN YOU KNOW
 *
 * Anyone who can have books opened under your key, and learns no more than whether each was
 * refused, can read your plan without the key. Out of your sealed records and start blocks of one's
 * own choice books can be made that are refused just when an entry was guessed right; for a plan of
 * 21 records 279 answers gave every entry. So:
 *
 * - open only books whose origin you know;
 * - never offer opening as a service to others, be it by hand, in a program or over a network;
 * - have the digest of the sealed file (sha256sum) sent by another way than the file, and compare
 *   the two before opening.
 *
 * A COUNTER BLOCK IS USED ONCE
 *
 * Under one key no counter block may ever serve twice, neither for two notes nor for two versions
 * of one note. Where it does, the exclusive or of the two sealed notes is that of the two texts:
 * anyone who sees both can read much of either, and anyone who knows one text reads the other,
 * without the key. No call can see this; it is the caller's duty.
 *
 * A note of n bytes uses up n / 16 counter blocks, rounded up: the one given and those that follow.
 * They differ in the last four bytes alone, so notes whose first twelve bytes differ never meet.
 * Give every note, and every new version of a note, first twelve bytes of its own under its key,
 * and let the last four begin at zero. A database can make sure of it in one of two ways:
 *
 * - A table has one row for each key with the number of notes sealed under it, and a unique index
 *   on key and number for the notes. Raise the number and commit before sealing; write it into the
 *   first twelve bytes, highest byte first. Never lower it, and after a backup is restored draw a
 *   new key: numbers that the backup does not know may be used up.
 * - Draw the first twelve bytes anew for each note from the system's random source (getrandom),
 *   store them beside the note, and have a unique index on key and these bytes refuse a second use.
 *   Good for some millions of notes a key.
 *
 * Use a key for the notes alone: anyone who may read the notes then cannot open the book, and no
 * block of a book is a counter block. And seal or open no note for others from a counter block that
 * they name: what they get back gives them the encrypted counter blocks, and with these they read
 * every note that was sealed from the same ones.
 *
 * WHAT IS NOT PROMISED
 *
 * - Timing. Ways 1 and 2 read tables at places that depend on secret bytes. No way is promised to
 *   take the same time for all keys and records.
 * - Who wrote a book. Sealing is not authenticated: a changed sealed book may open as another plan.
 *   Compare its digest.
 * - The right words. Words of a wrong key, or damaged ones, mostly meet check 11, but a book may
 *   open under them as another plan (see "Prepare once, use often").
 * - The right text. A note has no check of its text: wrong words or a wrong counter block give
 *   other bytes without a refusal, and each bit that is changed in a sealed note is changed in the
 *   text. Its length can be read.
 * - Secrecy of the contents. Trials, record counts, numbers of replicates and start blocks stay
 *   readable in a sealed book.
 * - Keys and start blocks. The caller draws them. Use a start block once under a key; it should not
 *   be predictable.
 * - Wiping. No call wipes what it leaves on the stack, and none the words that are passed.
 *   Registers are not wiped, nor copies that the system made of registers and memory.
 * - Other platforms. The library is built for x86-64 Linux.
 */
#ifndef PLANBOOK_H
#define PLANBOOK_H

#include <stddef.h>
#include <stdint.h>

#ifdef __cplusplus
extern "C" {
#endif

#define PLANBOOK_VERSION "3.1.0"

/* Not part of the interface: a cast that neither language warns of, and the compiler's attributes.
 */
#ifdef __cplusplus
#define PLANBOOK_CAST(type, value) static_cast<type>(value)
#else
#define PLANBOOK_CAST(type, value) ((type)(value))
#endif
#ifdef __GNUC__
#define PLANBOOK_MUST_USE __attribute__((__warn_unused_result__))
#define PLANBOOK_OWN_FRAME __attribute__((__noinline__, __unused__, __no_sanitize_address__))
#else
#define PLANBOOK_MUST_USE
#define PLANBOOK_OWN_FRAME
#endif

/* Key lengths in bytes. Where a key is asked for, any of the three will do. */
#define PLANBOOK_KEY128_BYTES 16
#define PLANBOOK_KEY192_BYTES 24
#define PLANBOOK_KEY256_BYTES 32
#define PLANBOOK_MAX_KEY_BYTES PLANBOOK_KEY256_BYTES

#define PLANBOOK_BLOCK_BYTES 16

/* Output lengths of planbook_constants: 60, 84 or 92 words of four bytes. */
#define PLANBOOK_CONSTANTS128_BYTES 240
#define PLANBOOK_CONSTANTS192_BYTES 336
#define PLANBOOK_CONSTANTS256_BYTES 368

/*
 * Output lengths of planbook_expand_key: 40, 48 or 56 words of four bytes. Where words are asked
 * for, any of the three will do: their number says how many rounds there are.
 */
#define PLANBOOK_EXPANDED128_BYTES 160
#define PLANBOOK_EXPANDED192_BYTES 192
#define PLANBOOK_EXPANDED256_BYTES 224
#define PLANBOOK_MAX_EXPANDED_BYTES PLANBOOK_EXPANDED256_BYTES

/* The parts of a book, and its limits. A book of the greatest length may have 4,088 records in 5
 * sheets. */
#define PLANBOOK_HEAD_BYTES 4
#define PLANBOOK_ENTRY_BYTES 24
#define PLANBOOK_RECORD_BYTES 16
#define PLANBOOK_MAX_SHEETS 64
#define PLANBOOK_MAX_SHEET_RECORDS 1024
#define PLANBOOK_MAX_REPLICATES 8 /* byte 6 of a contents entry */
#define PLANBOOK_DEFAULT_REPLICATES 4 /* what 0 means there, as in the books of past seasons */
#define PLANBOOK_MAX_ROW 999 /* the least is 1, for both; 0 for both means reserve */
#define PLANBOOK_MAX_COLUMN 999
#define PLANBOOK_MIN_BOOK_BYTES 4
#define PLANBOOK_MAX_BOOK_BYTES 65532

/* A note may be empty. Of its counter block the first bytes stay, and the last four count. */
#define PLANBOOK_MAX_NOTE_BYTES 16384
#define PLANBOOK_COUNTER_BYTES PLANBOOK_BLOCK_BYTES
#define PLANBOOK_COUNTER_PREFIX_BYTES 12

/* Every line of a planting page: 31 characters and a line feed. The longest page has a heading and
 * 1,024 records. */
#define PLANBOOK_LINE_BYTES 32
#define PLANBOOK_MAX_PAGE_BYTES 32800

/* The first byte of a book. */
#define PLANBOOK_CLEAR 1
#define PLANBOOK_SEALED 2

/* The stack that a call needs at most. The tests hold every call to three quarters of it; the rest
 * is reserve. */
#define PLANBOOK_STACK_BYTES 16384

/*
 * The ways: all give the same bytes. If in doubt, take the word tables; make bench measures all
 * three. byte tables  the S-boxes as tables of bytes, mixing by field multiplication word tables
 * S-box and mixing together, eight tables of 256 words computed     the S-boxes computed anew for
 * each byte, no table of 256 entries
 */
#define PLANBOOK_WAY_BYTE_TABLES 1
#define PLANBOOK_WAY_WORD_TABLES 2
#define PLANBOOK_WAY_COMPUTED 3

/* The checks. planbook_check_sentence has each one's meaning. */
#define PLANBOOK_ACCEPTED 0
#define PLANBOOK_CHECK_KEY_LENGTH 1
#define PLANBOOK_CHECK_WAY 2
#define PLANBOOK_CHECK_BLOCK_LENGTH 3
#define PLANBOOK_CHECK_OUTPUT_LENGTH 4
#define PLANBOOK_CHECK_BOOK_LENGTH 5
#define PLANBOOK_CHECK_BOOK_KIND 6
#define PLANBOOK_CHECK_SHEETS 7
#define PLANBOOK_CHECK_CONTENTS_CUT 8
#define PLANBOOK_CHECK_ENTRY 9
#define PLANBOOK_CHECK_BODY_LENGTH 10
#define PLANBOOK_CHECK_RECORD 11
#define PLANBOOK_CHECK_NOTE_LENGTH 12
#define PLANBOOK_CHECK_SHEET_INDEX 13
#define PLANBOOK_CHECK_WORDS_LENGTH 14

/*
 * The constants of the key schedule for keys of key_length bytes, as words of four bytes, highest
 * first.
 *
 *   key_length  16, 24 or 32
 *   out         out_len bytes; for the three key lengths PLANBOOK_CONSTANTS128_BYTES,
 *               PLANBOOK_CONSTANTS192_BYTES and PLANBOOK_CONSTANTS256_BYTES
 *
 * Checks: 1 (key_length), 4 (out_len). Count: the words written, 60, 84 or 92.
 */
PLANBOOK_MUST_USE uint64_t planbook_constants(uint64_t key_length, uint8_t *out, size_t out_len);

/*
 * The expanded key (also "prepared key"): four whitening keys, then the round keys, as words of
 * four bytes, highest first. It is what the calls below ask for as words. No other call takes a
 * key.
 *
 *   key, key_len  the key, 16, 24 or 32 bytes
 *   way           PLANBOOK_WAY_..
 *   out           out_len bytes; for the three key lengths PLANBOOK_EXPANDED128_BYTES,
 *                 PLANBOOK_EXPANDED192_BYTES and PLANBOOK_EXPANDED256_BYTES:
 *                 planbook_expanded_length gives it
 *
 * Checks: 1 (key_len), 2 (way), 4 (out_len). Count: the words written, 40, 48 or 56.
 */
PLANBOOK_MUST_USE uint64_t planbook_expand_key(const uint8_t *key, size_t key_len, uint64_t way,
                                               uint8_t *out, size_t out_len);

/*
 * The length of the words for a key of key_len bytes, for out_len of planbook_expand_key and
 * words_len of the calls below. It is 0 where no key has that length: planbook_expand_key then
 * refuses the key, whatever is passed.
 */
static inline size_t planbook_expanded_length(size_t key_len)
{
    switch (key_len) {
    case PLANBOOK_KEY128_BYTES: return PLANBOOK_EXPANDED128_BYTES;
    case PLANBOOK_KEY192_BYTES: return PLANBOOK_EXPANDED192_BYTES;
    case PLANBOOK_KEY256_BYTES: return PLANBOOK_EXPANDED256_BYTES;
    default: return 0;
    }
}

/*
 * One block, encrypted or decrypted. Each is the inverse of the other under the same words.
 *
 *   words, words_len  the words, 160, 192 or 224 bytes: what planbook_expand_key wrote
 *   way               PLANBOOK_WAY_..
 *   block, block_len  the block, 16 bytes
 *   out, out_len      the result, 16 bytes
 *
 * Checks: 14 (words_len), 2 (way), 3 (block_len), 4 (out_len). Count: 1.
 */
PLANBOOK_MUST_USE uint64_t planbook_encrypt_block(const uint8_t *words, size_t words_len,
                                                  uint64_t way, const uint8_t *block,
                                                  size_t block_len, uint8_t *out, size_t out_len);
PLANBOOK_MUST_USE uint64_t planbook_decrypt_block(const uint8_t *words, size_t words_len,
                                                  uint64_t way, const uint8_t *block,
                                                  size_t block_len, uint8_t *out, size_t out_len);

/*
 * Seals a clear book. Its records keep their places; head and contents stay, but for the first
 * byte.
 *
 *   words, words_len  the words, 160, 192 or 224 bytes: what planbook_expand_key wrote
 *   way               PLANBOOK_WAY_..
 *   book, book_len    the clear book, 4 to 65,532 bytes, at most 64 sheets of 1 to 1,024 records
 *   out, out_len      the sealed book; out_len is book_len
 *
 * Checks: 14 (words_len), 2 (way), 4 (out_len), then of the book 5, 6 (begins with 01 00), 7, 8, 9,
 * 10, 11.
 * Count: the records in the book; 0 is a good answer, since a book may have no sheet.
 */
PLANBOOK_MUST_USE uint64_t planbook_encrypt_book(const uint8_t *words, size_t words_len,
                                                 uint64_t way, const uint8_t *book, size_t book_len,
                                                 uint8_t *out, size_t out_len);

/*
 * Opens a sealed book, the inverse of planbook_encrypt_book under the same words. Parameters,
 * limits and count are as there, with sealed and clear changed about.
 *
 * Checks: 14 (words_len), 2 (way), 4 (out_len), then of the book 5, 6 (begins with 02 00), 7, 8, 9,
 * 10, and 11 of the decrypted records.
 */
PLANBOOK_MUST_USE uint64_t planbook_decrypt_book(const uint8_t *words, size_t words_len,
                                                 uint64_t way, const uint8_t *book, size_t book_len,
                                                 uint8_t *out, size_t out_len);

/*
 * Seals a note, or opens a sealed one: counter mode is its own inverse, so both are this call, with
 * the same words and the same counter block. Read "A counter block is used once" above before the
 * first use.
 *
 * The note is exclusive-ored with the encrypted counter blocks. The first is the one given; in each
 * that follows, the last four bytes, a number with the highest byte first, are one higher, and zero
 * after ffffffff; the first twelve stay. Of the last encrypted block as many leading bytes are used
 * as the note still has.
 *
 *   words, words_len      the words, 160, 192 or 224 bytes: what planbook_expand_key wrote
 *   way                   PLANBOOK_WAY_..
 *   counter, counter_len  the first counter block, 16 bytes
 *   note, note_len        the note, clear or sealed, 0 to 16,384 bytes
 *   out, out_len          the result; out_len is note_len
 *
 * Checks: 14 (words_len), 2 (way), 3 (counter_len), 4 (out_len), 12 (note_len). Count: the note's
 * bytes; 0 is a good answer.
 */
PLANBOOK_MUST_USE uint64_t planbook_crypt_note(const uint8_t *words, size_t words_len, uint64_t way,
                                               const uint8_t *counter, size_t counter_len,
                                               const uint8_t *note, size_t note_len, uint8_t *out,
                                               size_t out_len);

/*
 * The planting page of one sheet of a clear book, as text: the heading
 *
 *        TRIAL      ENTRY R ROW COL
 *
 * and a line for each record of the sheet, in the order of the book. Every line has 31 characters
 * and a line feed (0a): trial in 10, a space, entry in 10, a space, replicate in 1, a space, row in
 * 3, a space, column in 3. Numbers are decimal, at the right of their place and with spaces in
 * front; row and column of a record in reserve are 0. Nothing ends the text but the last line feed:
 * there is no zero byte after it. The page shows the records, so it is as secret as the clear book.
 *
 *   book, book_len  the clear book, as for planbook_encrypt_book; all of it is checked, not the
 *                   sheet alone
 *   sheet           which sheet, counted from 0
 *   out, out_len    the page; out_len is PLANBOOK_LINE_BYTES times (the sheet's records + 1):
 *                   planbook_page_length gives it
 *
 * Checks: of the book 5, 6 (begins with 01 00), 7, 8, 9, 10, 11, then 13 (sheet), and 4 (out_len)
 * last.
 * Count: the lines of the page, the heading included.
 */
PLANBOOK_MUST_USE uint64_t planbook_page(const uint8_t *book, size_t book_len, uint64_t sheet,
                                         uint8_t *out, size_t out_len);

/*
 * The length of the page of a sheet, for out_len of planbook_page, read from the sheet's contents
 * entry; at most PLANBOOK_MAX_PAGE_BYTES. It is 0 where the book has no such sheet, ends before the
 * entry does, or counts more than 1,024 records there: the call then refuses the book or the sheet,
 * whatever is passed. Nothing else is checked here, and any bytes may be given.
 */
static inline size_t planbook_page_length(const uint8_t *book, size_t book_len, uint64_t sheet)
{
    size_t entry, records;
    if (book_len < PLANBOOK_HEAD_BYTES || sheet >= PLANBOOK_MAX_SHEETS ||
        sheet >= book[2] * 256u + book[3])
        return 0;
    entry = PLANBOOK_HEAD_BYTES + PLANBOOK_ENTRY_BYTES * PLANBOOK_CAST(size_t, sheet);
    if (book_len < entry + PLANBOOK_ENTRY_BYTES)
        return 0;
    records = PLANBOOK_CAST(size_t, book[entry + 4]) * 256 + book[entry + 5];
    return records > PLANBOOK_MAX_SHEET_RECORDS ? 0 : PLANBOOK_LINE_BYTES * (records + 1);
}

/* The check of an answer: PLANBOOK_ACCEPTED or PLANBOOK_CHECK_... */
static inline uint32_t planbook_check(uint64_t answer)
{
    return PLANBOOK_CAST(uint32_t, answer >> 32);
}

/* The count of an answer: words, blocks, records, a note's bytes or a page's lines; 0 after a
 * refusal. */
static inline uint32_t planbook_count(uint64_t answer)
{
    return PLANBOOK_CAST(uint32_t, answer & 0xffffffffu);
}

/* What a check means, as a sentence without capital and full stop. Never null. */
static inline const char *planbook_check_sentence(uint32_t check)
{
    switch (check) {
    case PLANBOOK_ACCEPTED: return "accepted";
    case PLANBOOK_CHECK_KEY_LENGTH: return "the key is not 16, 24 or 32 bytes long";
    case PLANBOOK_CHECK_WAY: return "the way is not 1, 2 or 3";
    case PLANBOOK_CHECK_BLOCK_LENGTH:
        return "the block, or the counter block of a note, is not 16 bytes long";
    case PLANBOOK_CHECK_OUTPUT_LENGTH:
        return "the output does not have the length that this call demands";
    case PLANBOOK_CHECK_BOOK_LENGTH: return "the book is shorter than 4 or longer than 65532 bytes";
    case PLANBOOK_CHECK_BOOK_KIND:
        return "the book does not begin with 01 00 (clear) for sealing or a page, or 02 00 "
               "(sealed) for opening";
    case PLANBOOK_CHECK_SHEETS: return "the book has more than 64 sheets";
    case PLANBOOK_CHECK_CONTENTS_CUT: return "the book ends before its contents do";
    case PLANBOOK_CHECK_ENTRY:
        return "a contents entry is broken: its trial is 0 or not above the one before, its record "
               "count is not 1 to 1024, its number of replicates is above 8, or its reserved byte "
               "is not zero";
    case PLANBOOK_CHECK_BODY_LENGTH: return "the book is not as long as its contents say";
    case PLANBOOK_CHECK_RECORD:
        return "a record breaks its rule: its sheet's trial, entry at least 1, replicate from 1 to "
               "its sheet's number of replicates, row and column both from 1 to 999 or both 0 (in "
               "reserve), three zero bytes at the end; in opening, the words may be those of "
               "another key, or damaged";
    case PLANBOOK_CHECK_NOTE_LENGTH: return "the note is longer than 16384 bytes";
    case PLANBOOK_CHECK_SHEET_INDEX:
        return "the book has no sheet of this index; sheets are counted from 0";
    case PLANBOOK_CHECK_WORDS_LENGTH:
        return "the words are not 160, 192 or 224 bytes long; they are what planbook_expand_key "
               "wrote, and not the key";
    default: return "there is no check of this number";
    }
}

/* The version of this header and of the library that it was installed with. */
static inline const char *planbook_version(void)
{
    return PLANBOOK_VERSION;
}

/* Tells that this header has planbook_wipe_stack. */
#define PLANBOOK_WIPE_STACK 1

/*
 * Overwrites len bytes with zeros: a key, words, a clear book. The stores are volatile, so that no
 * compiler leaves them out, as it may with memset where nothing reads the bytes any more.
 */
static inline void planbook_wipe(void *at, size_t len)
{
    volatile uint8_t *bytes = PLANBOOK_CAST(volatile uint8_t *, at);
    size_t i;
    for (i = 0; i < len; i++)
        bytes[i] = 0;
}

/*
 * Overwrites PLANBOOK_STACK_BYTES of stack below the function that calls it, where a call made in
 * that function has left the key, the words and what it worked on. It needs as much stack itself,
 * and some bytes more.
 *
 * The stores are volatile, so that no compiler leaves them out. The function has a frame of its
 * own: inlined, it would wipe a part of the caller's frame.
 */
static PLANBOOK_OWN_FRAME void planbook_wipe_stack(void)
{
    volatile uint64_t below[PLANBOOK_STACK_BYTES / 8];
    size_t i;
    for (i = 0; i < sizeof below / sizeof below[0]; i++)
        below[i] = 0;
}

#undef PLANBOOK_CAST
#undef PLANBOOK_MUST_USE
#undef PLANBOOK_OWN_FRAME

#ifdef __cplusplus
}
#endif

#endif
