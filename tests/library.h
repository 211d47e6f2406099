/* Makes the call that a call_input describes. */
#ifndef LIBRARY_H
#define LIBRARY_H

#include "reference_book.h"

uint64_t library_call(const call_input *in, uint8_t *out);

#endif
