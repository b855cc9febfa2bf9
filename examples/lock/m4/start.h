/* What start.c gives a program on a Cortex-M4. */
#ifndef START_H
#define START_H

#include <stdint.h>

/* Milliseconds since the reset. */
uint64_t milliseconds(void);

#endif
