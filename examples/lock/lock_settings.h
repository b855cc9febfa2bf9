/* What one lock has to itself. A maker writes it for each door, and gives it to nobody. */
#ifndef LOCK_SETTINGS_H
#define LOCK_SETTINGS_H

#include <nozzlefern.h>

/* The key of tokens: whoever issues them has it, too. */
static const nzf_key LOCK_KEY = {
    {0x40, 0x41, 0x42, 0x43, 0x44, 0x45, 0x46, 0x47, 0x48, 0x49, 0x4a, 0x4b, 0x4c, 0x4d, 0x4e, 0x4f}};

/* Tokens for this audience are for this lock. */
#define LOCK_AUDIENCE "door"

/* What anyone may GET, without protection. */
#define LOCK_OPEN "/lock/actual:GET"

/* For how many seconds a context counts at most: a request that was held back on its way for longer is refused. The lock opens its own again once half of
 * them are over. */
#define LOCK_CONTEXT_SECONDS 86400

/* What the lock itself may do. */
#define LOCK_OWN "/lock/actual:PUT,/log:POST+DELETE"

#endif
