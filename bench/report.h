/* The figures as Markdown, on standard output. */
#ifndef REPORT_H
#define REPORT_H

#include "measure.h"
#include "scale.h"

/* Answers how many limits are broken. */
int print_report(const struct disturbance *d, const struct scale *scales, size_t scale_count);

/* The tasks alone, where the other side is the library before, which may take keys where words are
 * taken now. */
void print_beside(const struct disturbance *d, int before_takes_keys);

#endif
