#ifndef PLOT_H
#define PLOT_H

#include "scale.h"

/* Draws the 16-byte key. Answers 0 if the file cannot be written. */
int plot(const char *path, const struct scale *scales, size_t scale_count);

#endif
