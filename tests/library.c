#include "library.h"
#include "planbook.h"

/* The four calls that turn one input into one output under words. */
typedef uint64_t words_call(const uint8_t *words, size_t words_len, uint64_t way, const uint8_t *in,
                            size_t in_len, uint8_t *out, size_t out_len);
static words_call *const words_calls[CALLS] = {
    [CALL_ENCRYPT_BLOCK] = planbook_encrypt_block,
    [CALL_DECRYPT_BLOCK] = planbook_decrypt_block,
    [CALL_ENCRYPT_BOOK] = planbook_encrypt_book,
    [CALL_DECRYPT_BOOK] = planbook_decrypt_book,
};

uint64_t library_call(const call_input *in, uint8_t *out)
{
    switch (in->kind) {
    case CALL_CONSTANTS:
        return planbook_constants(in->secret_len, out, in->out_len);
    case CALL_EXPAND_KEY:
        return planbook_expand_key(in->secret, in->secret_len, in->way, out, in->out_len);
    case CALL_CRYPT_NOTE:
        return planbook_crypt_note(in->secret, in->secret_len, in->way, in->counter,
                                   in->counter_len, in->input, in->input_len, out, in->out_len);
    case CALL_PAGE:
        return planbook_page(in->input, in->input_len, in->sheet, out, in->out_len);
    default:
        return words_calls[in->kind](in->secret, in->secret_len, in->way, in->input, in->input_len,
                                     out, in->out_len);
    }
}
