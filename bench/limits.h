/* The limits that the library is held to. */
#ifndef LIMITS_H
#define LIMITS_H

/* Prints each with what was found, for the worst of the key lengths; answers how many are
 * broken. */
int print_limits(void);

#endif
