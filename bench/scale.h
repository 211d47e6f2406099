/* For scale: what OpenSSL gives a user, on as many bytes as the largest book's bodies. */
#ifndef SCALE_H
#define SCALE_H

#include <stddef.h>

enum { MOST_SCALES = 2 };

/* Nanoseconds a block. */
struct scale {
    const char *name;
    double encrypt_ns, decrypt_ns;
};

/* Answers how many there are: none where the benchmark was built without OpenSSL. */
size_t measure_scales(struct scale scales[MOST_SCALES]);

#endif
