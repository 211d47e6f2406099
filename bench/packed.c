/* plain.c once more, under other names, with four bytes doubled in one word by ways 1 and 3, and
 * two digits of a page at a time. */
#define PACKED
#define plain_constants packed_constants
#define plain_expand_key packed_expand_key
#define plain_encrypt_block packed_encrypt_block
#define plain_decrypt_block packed_decrypt_block
#define plain_encrypt_book packed_encrypt_book
#define plain_decrypt_book packed_decrypt_book
#define plain_crypt_note packed_crypt_note
#define plain_page packed_page
#include "plain.c"
